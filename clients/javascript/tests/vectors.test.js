// The vectors: lines as a region takes them, and replies as it gives them; and JSON with whole numbers of 64 bits.

import assert from "node:assert/strict";
import { once } from "node:events";
import { readFileSync } from "node:fs";
import net from "node:net";
import { join } from "node:path";
import { test } from "node:test";
import { setTimeout as sleep } from "node:timers/promises";
import { ProtocolError, Refused } from "../src/index.js";
import { parse, stringify } from "../src/json.js";
import { fake, folderOf, ofTheProgram, open, region, vectors } from "./support.js";

const { exchanges, bounds, refused, broken } = JSON.parse(vectors("lookups"));

// What JavaScript can ask: 10.0 is 10, and a session has no other command.
const asked = exchanges.filter(({ line }) => !line.includes("10.0") && !line.includes("marks"));

/** What the client answers to a line's call, in the form of a reply; the text of a copy. */
async function answer(t, client, call) {
  switch (call.do) {
    case "read":
      return { row: plain(await client.read(call.key, { atLeast: call.version })) };
    case "get":
      // A list without keys is no line.
      return { rows: plain(await client.get(call.keys)) };
    case "scan": {
      const page = await client.page(call.query);
      return { next: page.next, rows: plain(page.records) };
    }
    default: {
      const path = join(folderOf(t), "copy");
      await client.copy(call.tablet, path, { need: call.need });
      return readFileSync(path, "utf8");
    }
  }
}

/** Records as plain objects. */
const plain = (answer) => (Array.isArray(answer) ? answer.map(plain) : answer && { ...answer });

/** Asks for an exchange, and compares what the client answers. */
async function check(t, client, { line, replies: [reply, ...text] }) {
  const call = parse(line);
  if (call.keys?.length === 0) {
    return;
  }
  const wanted = parse(reply);
  if (wanted.error !== undefined) {
    await assert.rejects(answer(t, client, call), (fault) => {
      assert(fault instanceof Refused, fault);
      assert.deepEqual(fault.reply, wanted);
      return true;
    });
  } else {
    assert.deepEqual(await answer(t, client, call), text.length > 0 ? `${text.join("\n")}\n` : wanted);
  }
}

/** Answers each line with the replies of the next exchange, a few bytes at a time, and keeps the lines. */
async function replay(t, step) {
  const lines = [];
  const answered = asked.filter(({ call }) => call.keys?.length !== 0);
  const server = net.createServer({ noDelay: true }, (socket) => {
    socket.on("data", async (data) => {
      lines.push(data.toString());
      const text = Buffer.from(answered[lines.length - 1].replies.map((reply) => `${reply}\n`).join(""));
      for (let start = 0; start < text.length; start += step) {
        socket.write(text.subarray(start, start + step));
        await sleep(0);
      }
    });
  });
  t.after(() => server.close());
  server.listen(0, "127.0.0.1");
  await once(server, "listening");
  return { address: `tcp://127.0.0.1:${server.address().port}`, lines, answered };
}

/** A line's members without those that are null, which say the same. */
function said(line) {
  return JSON.parse(stringify(parse(line)), (_, member) => (member === null ? undefined : member));
}

test("lines and answers", async (t) => {
  for (const step of [20, 1 << 20]) {
    const { address, lines, answered } = await replay(t, step);
    const client = open(t, address);
    for (const exchange of asked) {
      await check(t, client, exchange);
    }
    assert.deepEqual(lines.map((line) => said(line.trimEnd())), answered.map(({ line }) => said(line)));
    await client.close();
  }
});

test("faults", async (t) => {
  for (const [cases, kind] of [[refused, Refused], [broken, ProtocolError]]) {
    for (const { call, reply } of cases) {
      const client = open(t, await fake(t, [[`${reply}\n`]]));
      await assert.rejects(answer(t, client, call), (fault) => {
        assert(fault instanceof kind, `${reply}: ${fault}`);
        return kind !== Refused || (assert.deepEqual(fault.reply, JSON.parse(reply)), true);
      });
      await client.close();
    }
  }
});

test("answers of a region", ofTheProgram, async (t) => {
  // Numbers of the streams are as they are written: those of the file have one image a line.
  const lines = vectors("lookups").split("\n");
  const streams = { east: [], west: [] };
  let stream;
  for (const line of lines) {
    stream = /"(east|west)": \[$/.exec(line)?.[1] ?? stream;
    const [, written] = /^ {6}(\{"(?:fields|deleted)".*\}),?$/.exec(line) ?? [];
    if (written !== undefined) {
      streams[stream].push(written);
    }
  }
  assert.equal(streams.east.length + streams.west.length, 10);
  const client = open(t, (await region(t, streams, [`--bounds=${JSON.stringify(bounds)}`])).address);
  const path = join(folderOf(t), "copy");
  const isTaken = () => Promise.all([0, 1].map((tablet) => client.copy(tablet, path, { need: { east: 5, west: 5 } }))).then(Boolean, () => false);
  for (let tries = 0; !(await isTaken()); tries += 1) {
    assert(tries < 1000, "the region took no streams");
    await sleep(10);
  }
  for (const exchange of asked) {
    await check(t, client, exchange);
  }
});

test("numbers are whole", () => {
  for (const [text, value] of [
    ["[9223372036854775807]", [9223372036854775807n]],
    ["[-9223372036854775808]", [-9223372036854775808n]],
    ["[9007199254740991,-9007199254740991]", [9007199254740991, -9007199254740991]],
    ["[9007199254740992,0]", [9007199254740992n, 0]],
    ['{"a":9007199254740993,"b":[{},[],"x\\"9007199254740993",true,false,null,-1]}', { a: 9007199254740993n, b: [{}, [], 'x"9007199254740993', true, false, null, -1] }],
  ]) {
    assert.deepEqual(parse(text), value);
    assert.equal(stringify(value), text);
  }
});

test("a member with any name is one", () => {
  const value = parse('{"__proto__":9007199254740993}');
  assert.deepEqual(Object.entries(value), [["__proto__", 9007199254740993n]]);
  assert.deepEqual(Object.entries(JSON.parse('{"__proto__":1}')), [["__proto__", 1]]);
});

test("what is no JSON is refused by both readers", () => {
  const long = "[9007199254740993";
  for (const end of ["", "]]", ",]", ",,1]", " 1]", ':1]', ',01]', ',"a]', ',{"a"}]', ",{1:1}]", ",nul]", ',"\u0001"]', ",{,}]", ',{"a":}]', "]x"]) {
    assert.throws(() => parse(long + end), SyntaxError, end);
    assert.throws(() => JSON.parse(long + end), SyntaxError, end);
  }
});

test("numbers that a double may not have are refused", () => {
  for (const number of [2 ** 53, 1.5, NaN, Infinity, -(2 ** 60)]) {
    assert.throws(() => stringify({ number }), RangeError);
  }
});
