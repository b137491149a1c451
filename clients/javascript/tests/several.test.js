// Several regions: of the same streams, where one loses a tablet, one is behind, all lag and proxies cut connections; and with a range of
// keys each.

import assert from "node:assert/strict";
import net from "node:net";
import { join } from "node:path";
import { test } from "node:test";
import { setTimeout as sleep } from "node:timers/promises";
import { Control, RecordBehind, Regions, compareVersions } from "../src/index.js";
import { folderOf, image, keysOf, ofTheProgram, open, proxy, region, waitFor } from "./support.js";

/** How many bytes of replies a connection gets at most. */
const MOST = 60_000;
const KEYS = Array.from({ length: 200 }, (_, at) => `k${String(at).padStart(3, "0")}`);
const versioned = (number, keys = KEYS) => keys.map((key) => JSON.stringify({ ...image(key, { v: "x" }), version: [1, number] }));

/** Three regions with control sockets: the first and the last have all, and the second has older versions. A proxy is before each. */
async function three(t) {
  const folder = folderOf(t);
  const start = async (stream, at) => {
    const path = join(folder, String(at));
    const { address } = await region(t, { east: stream }, ["--stay", "--sessions=2", `--control=${path}`, '--bounds=["k100"]']);
    const control = new Control(`unix:${path}`);
    t.after(() => control.close());
    while (((await control.read(KEYS.at(-1)))?.version[1] ?? -1) < (at + 1) % 2) {
      await sleep(10);
    }
    return Object.assign(await proxy(t, address), { control });
  };
  const both = [...versioned(0), ...versioned(1)];
  return Promise.all([both, versioned(0), both].map(start));
}

/** Counts reads, and keeps those that failed, or were of no record or an older one. */
class Tally {
  reads = 0;
  wrong = [];

  take(key, record) {
    this.reads += 1;
    if (record?.key !== key || record.version[1] !== 1) {
      this.wrong.push([key, record]);
    }
  }

  /** Reads all keys in each way. */
  async run(region, of = () => region) {
    try {
      (await Promise.all(KEYS.map((key) => of(key).read(key)))).forEach((record, at) => this.take(KEYS[at], record));
      (await region.get(KEYS)).forEach((record, at) => this.take(KEYS[at], record));
      const scanned = [];
      for await (const record of region.scan({ limit: 30 })) {
        scanned.push(record);
      }
      KEYS.forEach((key, at) => this.take(key, scanned[at]));
    } catch (fault) {
      this.wrong.push(fault);
    }
  }
}

test("no read fails", ofTheProgram, async (t) => {
  const regions = await three(t);
  const client = open(t, regions.map(({ address }) => address), { connections: 2, timeout: 60_000, retries: 10 });
  const tally = new Tally();
  await tally.run(client);
  // All was seen: from now on the second region is of no use to it.
  regions.forEach((each) => (each.most = MOST));
  let isOver = false;
  const readOn = async () => {
    while (!isOver) {
      await tally.run(client);
    }
  };
  const reading = [readOn(), readOn()];
  await regions[0].control.ask({ do: "lose", tablet: 1 }, ({ lost }) => lost);
  await sleep(1000);
  regions[0].shut();
  const cuts = () => regions.reduce((count, { cuts }) => count + cuts, 0);
  do {
    await sleep(1000);
  } while (cuts() < 4 && tally.wrong.length === 0);
  isOver = true;
  await Promise.all(reading);
  assert.deepEqual(tally.wrong, []);
  t.diagnostic(`${tally.reads} reads, ${cuts()} connections cut`);
});

test("a region that is behind", ofTheProgram, async (t) => {
  const regions = await three(t);
  const addresses = regions.slice(0, 2).map(({ address }) => address);
  const client = open(t, addresses, { retries: 0 });
  await client.get(KEYS);
  regions[0].shut();
  for (const call of [() => client.read(KEYS[0]), () => client.get(KEYS), () => client.scan().next()]) {
    await assert.rejects(call(), (fault) => {
      const behind = [fault, ...fault.others.map((other) => other.fault)].filter((each) => each instanceof RecordBehind);
      assert.deepEqual(behind.map(({ has }) => has), [[1, 0]]);
      return true;
    });
  }
  assert.deepEqual((await open(t, addresses).read(KEYS[0])).version, [1, 0]);
});

test("two ranges of keys, and two regions for each, of which one is gone", ofTheProgram, async (t) => {
  const starts = [KEYS.slice(0, 90), KEYS.slice(90)].map((keys) => region(t, { east: versioned(1, keys) }, ["--sessions=2"]));
  const [low, high] = await Promise.all(starts);
  await waitFor(open(t, low.address), KEYS[89]);
  await waitFor(open(t, high.address), KEYS.at(-1));
  const gone = await proxy(t, low.address);
  gone.shut();
  const both = new Regions(["k090"], [open(t, [gone.address, low.address]), open(t, [high.address, gone.address])]);
  const tally = new Tally();
  await tally.run(both, (key) => both.of(key));
  assert.deepEqual([tally.wrong, tally.reads], [[], 3 * KEYS.length]);
});

/** How many changes there are a second, of which keys in turn, and how many in all. */
const RATE = 1000;
const CHANGED = Array.from({ length: 40 }, (_, at) => `k${String(at).padStart(2, "0")}`);
const CHANGES = 4 * RATE;

/** The message at a position. */
function message(at) {
  const version = [1, Math.floor(at / CHANGED.length)];
  return `${JSON.stringify({ at, image: { fields: { v: "x" }, key: CHANGED[at % CHANGED.length], master: "w", version } })}\n`;
}

/** Gives a region the messages of a stream, each at its moment. */
async function feed(t, path, begin) {
  const stream = net.connect(path);
  t.after(() => stream.destroy());
  stream.on("error", () => undefined).resume();
  for (let at = 1; at <= CHANGES; at += 10) {
    await sleep(begin + (at / RATE) * 1000 - performance.now());
    stream.write(Array.from({ length: 10 }, (_, more) => message(at + more)).join(""));
  }
  stream.end();
}

/** The latest version that any call has shown of each key, and what was shown that is older. */
class Shown {
  #versions = new Map();
  calls = 0;
  wrong = [];

  /** Makes a call, and compares what it shows of keys with what was shown before it began. */
  async call(what, keys, asked) {
    const before = new Map(this.#versions);
    const found = new Map((await asked()).filter((record) => record !== null).map((record) => [record.key, record.version]));
    this.calls += 1;
    for (const key of keys) {
      const [least, version] = [before.get(key), found.get(key)];
      if (least !== undefined && (version === undefined || compareVersions(version, least) < 0)) {
        this.wrong.push([what, key, version, least]);
      }
      if (version !== undefined && compareVersions(version, this.#versions.get(key) ?? [0, 0]) > 0) {
        this.#versions.set(key, version);
      }
    }
  }
}

async function scanned(client) {
  const records = [];
  for await (const record of client.scan({ limit: 15 })) {
    records.push(record);
  }
  return records;
}

test("no reader of regions that lag is shown an older version", ofTheProgram, async (t) => {
  const folder = folderOf(t);
  const begin = performance.now() + 500;
  const proxies = [];
  const feeds = [];
  for (const [at, lag] of [0, 150, 300].entries()) {
    const path = join(folder, String(at));
    const words = ["--stay", "--sessions=2", `--control=${path}-control`, '--bounds=["k20"]', `east=listen:${path}`];
    proxies.push(await proxy(t, (await region(t, {}, words)).address));
    proxies[at].most = 40_000;
    feeds.push(feed(t, path, begin + lag));
  }
  const client = open(t, proxies.map(({ address }) => address), { connections: 2, timeout: 60_000, retries: 10 });
  const shown = new Shown();
  let isOver = false;
  const readOn = async () => {
    while (!isOver) {
      const key = CHANGED[Math.floor(Math.random() * CHANGED.length)];
      await shown.call("read", [key], async () => [await client.read(key)]);
      await shown.call("get", CHANGED, () => client.get(CHANGED));
      await shown.call("scan", CHANGED, () => scanned(client));
    }
  };
  const reading = Promise.all([readOn(), readOn(), readOn()]);
  await Promise.all(feeds);
  isOver = true;
  await reading;
  assert.deepEqual(shown.wrong.slice(0, 5), []);
  const cuts = proxies.reduce((count, { cuts }) => count + cuts, 0);
  t.diagnostic(`${shown.calls} calls, ${cuts} connections cut`);
  assert(shown.calls > 10 && cuts > 0);
});

const images = (v, keys) => ({ east: keys.map((key) => JSON.stringify(image(key, { v }))) });

test("the region of a key", () => {
  const clients = [{}, {}, {}];
  const regions = new Regions(["g", "\uff5e"], clients);
  for (const [key, wanted] of [["", 0], ["fz", 0], ["g", 1], ["lz", 1], ["\uff5e", 2], ["\u{1f600}", 2]]) {
    assert.equal(regions.of(key), clients[wanted], key);
  }
});

test("the parts of a query", () => {
  const regions = new Regions(["g", "m"], [1, 2, 3]);
  for (const [query, wanted] of [
    [{}, ["1 -g", "2 g-m", "3 m-"]],
    [{ from: "h", to: "k" }, ["2 h-k"]],
    [{ after: "g", to: "m" }, ["2 g-m"]],
    [{ from: "m", to: "g" }, []],
    [{ from: "a", to: "g" }, ["1 a-g"]],
    [{ from: null, to: null }, ["1 -g", "2 g-m", "3 m-"]],
  ]) {
    const found = [...regions.parts(query)].map(([client, { from, to }]) => `${client} ${from ?? ""}-${to ?? ""}`);
    assert.deepEqual(found, wanted);
  }
});

test("tables that are refused", () => {
  for (const [bounds, clients] of [[["m"], [1]], [["m", "m"], [1, 2, 3]], [["\u{1f600}", "\uff5e"], [1, 2, 3]]]) {
    assert.throws(() => new Regions(bounds, clients), RangeError);
  }
});

test("two regions", ofTheProgram, async (t) => {
  const low = open(t, (await region(t, images("low", ["a", "c", "l"]))).address);
  const high = open(t, (await region(t, images("high", ["m", "n", "\u00fc"]))).address);
  await waitFor(low, "l");
  await waitFor(high, "\u00fc");
  const both = new Regions(["m"], [low, high]);
  assert.deepEqual(await keysOf(both.scan({ limit: 2 })), ["a", "c", "l", "m", "n", "\u00fc"]);
  assert.deepEqual(await keysOf(both.scan({ from: "c", to: "n", limit: 1 })), ["c", "l", "m"]);
  assert.deepEqual(await keysOf(await both.get(["n", "z", "a", "n"])), ["n", undefined, "a", "n"]);
  assert.deepEqual((await both.of("m").read("m")).fields, { v: "high" });
});
