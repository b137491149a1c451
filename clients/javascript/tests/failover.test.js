// How a client of several regions goes on: the vectors of it.

import assert from "node:assert/strict";
import { readFileSync } from "node:fs";
import { join } from "node:path";
import { test } from "node:test";
import { ConnectionFailed, ProtocolError, RecordBehind, Refused, TimedOut } from "../src/index.js";
import { Attempts, Order, Seen, backoff } from "../src/failover.js";
import { answerOf, compareKeys } from "../src/replies.js";
import { NONE, fake, folderOf, open, tabled, vectors } from "./support.js";

const { backoffs, orders, attempts, seen } = JSON.parse(vectors("failover"));
const { calls } = JSON.parse(vectors("regions"));
const FAULTS = { connection: ConnectionFailed, timeout: TimedOut, protocol: ProtocolError };

/** The fault that vectors tell of. */
function faultOf(told) {
  if (typeof told === "string") {
    return new FAULTS[told](told);
  }
  try {
    return answerOf({}, told, () => undefined);
  } catch (fault) {
    return fault;
  }
}

/** A fault as vectors tell of it. */
const asTold = (fault) =>
  fault instanceof Refused ? fault.reply : Object.keys(FAULTS).find((name) => fault instanceof FAULTS[name]) ?? fault;

/** The faults of other regions as vectors tell of them. */
const othersOf = (fault) => fault.others.map((other) => asTold(other.fault));

const names = (count) => Array.from({ length: count }, () => "region");

test("backoffs", () => {
  backoffs.cases.forEach(([failures, wanted]) => assert.equal(backoff(failures), wanted));
});

test("orders", () => {
  for (const { about, regions, steps } of orders) {
    const order = new Order(names(regions));
    const tries = {};
    for (const step of steps) {
      if (step.failed !== undefined) {
        order.failed(tries[step.failed], step.at);
      } else if (step.answered !== undefined) {
        order.answered(tries[step.answered]);
      } else {
        tries[step.try] = order.next(step.at, new Set(step.tried));
        assert.equal(tries[step.try]?.region ?? null, step.region, `${about}: ${JSON.stringify(step)}`);
      }
    }
  }
});

test("attempts", () => {
  for (const { about, regions, retries, timeout, steps } of attempts) {
    const made = new Attempts(new Order(names(regions)), retries, timeout);
    for (let at = 0; at < steps.length; at += 2) {
      const [asked, ended] = steps.slice(at, at + 2);
      const done = made.next(asked.at);
      assert.deepEqual([done.region, done.until], [asked.region, asked.until], about);
      const failed = () => made.failed(done, faultOf(ended.fault), ended.at);
      if (ended.pause === null) {
        assert.throws(failed, (fault) => {
          assert.deepEqual([asTold(fault), othersOf(fault)], [ended.fault, ended.others]);
          return true;
        });
      } else {
        assert.equal(failed(), ended.pause, about);
      }
    }
  }
});

test("what was seen", () => {
  const recordOf = (key, version, deleted) => version && { key, version, state: deleted ? "deleted" : "one" };
  for (const { about, size, steps } of seen) {
    const made = new Seen(size);
    for (const step of steps) {
      if (step.asks !== undefined) {
        assert.deepEqual(made.atLeast(step.asks, step.version), step.for, about);
      } else if (step.shows !== undefined) {
        assert.deepEqual(made.take(step.shows, recordOf(step.shows, step.version, step.deleted)) ?? null, step.later, about);
      } else {
        const page = { records: step.rows.map((row) => recordOf(...row)), next: step.next && { after: step.next } };
        const older = made.olderOf(step.page, page).map(({ key }) => key);
        assert.deepEqual(older.sort(compareKeys), step.older, about);
      }
    }
  }
});

/** What a client answers to a call. */
async function answer(t, client, call) {
  switch (call.do) {
    case "read":
      return client.read(call.key, { atLeast: call.version });
    case "get":
      return client.get(call.keys);
    case "scan": {
      const records = [];
      for await (const page of client.pages(call.query)) {
        records.push(...page);
      }
      return records;
    }
    default: {
      const path = join(folderOf(t), "copy");
      await client.copy(call.tablet, path, { need: call.need });
      return readFileSync(path, "utf8");
    }
  }
}

/** Makes a call of a step, and looks at what comes of it. */
async function check(t, client, step) {
  if (step.error === undefined) {
    assert.deepEqual(JSON.parse(JSON.stringify(await answer(t, client, step.call))), step.answer);
    return;
  }
  await assert.rejects(answer(t, client, step.call), (fault) => {
    assert.deepEqual([asTold(fault), othersOf(fault)], [step.error, step.others ?? []]);
    assert.equal(fault instanceof RecordBehind ? fault.key : undefined, step.key);
    return true;
  });
}

for (const { about, remember, steps } of calls) {
  test(about, async (t) => {
    const regions = await Promise.all(steps[0].regions.map(() => tabled(t)));
    const client = open(t, regions.map((region) => region.address), { retries: 0, remember });
    for (const step of steps) {
      regions.forEach((region, at) => region.become(step.regions[at]));
      await check(t, client, step);
      assert.deepEqual(regions.map((region) => region.unknown), regions.map(() => []));
    }
  });
}

test("a region that says nothing is given up after its share of the time", async (t) => {
  const client = open(t, [await fake(t, [[]]), await fake(t, [[NONE]])], { timeout: 6000 });
  assert.equal(await client.read("k"), null);
});

test("a line ends where all regions say nothing", async (t) => {
  const addresses = [await fake(t, [[]]), await fake(t, [[]])];
  await assert.rejects(open(t, addresses, { timeout: 2000 }).read("k"), (fault) => {
    assert.deepEqual([fault.name, fault.others.map(({ address }) => address)], ["TimedOut", addresses.slice(0, 1)]);
    return true;
  });
});

test("no region", () => {
  assert.throws(() => open({}, []), TypeError);
});
