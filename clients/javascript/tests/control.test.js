// Control sessions of a running region, which the program that PNUTS names serves.

import assert from "node:assert/strict";
import { spawn } from "node:child_process";
import { once } from "node:events";
import net from "node:net";
import { join } from "node:path";
import { createInterface } from "node:readline";
import { test } from "node:test";
import { BadLine, ConnectionFailed, Control, ProtocolError, Refused } from "../src/index.js";
import { fake, folderOf, ofTheProgram, program, vectors } from "./support.js";

/** A region with a control socket, and a stream that comes over a socket. It is killed at the end of the test. */
async function start(t, folder) {
  const at = (name) => join(folder, name);
  const words = ["serve", "--stay", "--socket", at("clients"), "--control", at("control"), `east=listen:${at("east")}`];
  const running = spawn(program, words, { stdio: ["ignore", "pipe", "ignore"] });
  const ended = once(running, "exit");
  const kill = async () => {
    running.kill("SIGKILL");
    await ended;
  };
  t.after(kill);
  await once(running.stdout, "data");
  return { address: `unix:${at("control")}`, stream: at("east"), kill };
}

/** Writes messages of keys from a position on, and waits until they are taken. */
async function write({ stream }, first, ...keys) {
  const socket = net.connect(stream);
  const lines = createInterface({ input: socket })[Symbol.asyncIterator]();
  assert.deepEqual(JSON.parse((await lines.next()).value), { after: first - 1 });
  keys.forEach((key, at) => {
    socket.write(`${JSON.stringify({ at: first + at, image: { fields: {}, key, master: "w", version: [1, first + at] } })}\n`);
  });
  while (JSON.parse((await lines.next()).value).taken < first + keys.length - 1);
  socket.destroy();
}

test("words", ofTheProgram, async (t) => {
  const region = await start(t, folderOf(t));
  const control = new Control(region.address);
  t.after(() => control.close());
  await write(region, 1, "a", "z");
  assert.deepEqual(await control.marks(), { east: 2 });
  const { streams, rounds } = await control.stats();
  assert(rounds > 0);
  const [{ name, path, position, messages, reason, line }] = streams;
  assert.deepEqual({ name, path, position, messages, reason, line }, { name: "east", path: region.stream, position: 2, messages: 2, reason: null, line: null });
  const { next, missed, changes } = await control.notices(0);
  assert.deepEqual({ next, missed }, { next: 2, missed: false });
  assert.deepEqual(changes[1], { after: [1, 2], before: null, key: "z", number: 2 });
  assert.equal((await control.read("a")).key, "a");
  await assert.rejects(control.notices(0, 61), BadLine);
});

test("a watch", ofTheProgram, async (t) => {
  const folder = folderOf(t);
  const first = await start(t, folder);
  const control = new Control(first.address, { retries: 50 });
  const changes = control.watch();
  assert.deepEqual((await changes.next()).value, { next: 0, missed: true, changes: [] });
  const [{ value }] = await Promise.all([changes.next(), write(first, 1, "a")]);
  assert.deepEqual(value.changes, [{ after: [1, 1], before: null, key: "a", number: 1 }]);
  await first.kill();
  const second = await start(t, folder);
  await write(second, 1, "a", "b", "c");
  assert.deepEqual((await changes.next()).value, { next: 3, missed: true, changes: [] });
  const waiting = changes.next();
  await control.close();
  await assert.rejects(waiting, ConnectionFailed);
});

test("a watch of no region", async () => {
  const control = new Control("unix:/nowhere/control", { retries: 1 });
  await assert.rejects(control.watch(0).next(), ConnectionFailed);
});

/** What a control answers to a call, in the form of a reply. */
async function answer(control, { do: word, since, wait }) {
  if (word === "notices") {
    const { next, missed, changes } = await control.notices(since, wait);
    return missed ? { missed, next } : { next, notices: changes };
  }
  return word === "marks" ? { marks: await control.marks() } : control.stats();
}

test("vectors", async (t) => {
  const { exchanges, broken } = JSON.parse(vectors("control"));
  for (const { call, line, reply } of exchanges) {
    const lines = [];
    const server = net.createServer((socket) => socket.on("data", (data) => lines.push(data.toString()) && socket.write(`${reply}\n`)));
    const control = new Control(await fake(t, [], server));
    const wanted = JSON.parse(reply);
    if (wanted.error === undefined) {
      assert.deepEqual(await answer(control, call), wanted);
    } else {
      await assert.rejects(answer(control, call), (fault) => fault instanceof Refused && fault.reply.error === wanted.error);
    }
    assert.deepEqual(lines.map((each) => JSON.parse(each)), [JSON.parse(line)]);
    await control.close();
  }
  for (const { call, reply } of broken) {
    const control = new Control(await fake(t, [[`${reply}\n`]]));
    await assert.rejects(answer(control, call), ProtocolError);
    await control.close();
  }
});
