// The client: against the program, and against servers that fail; and the ways to a region: texts of addresses, TLS, and Unix sockets.

import assert from "node:assert/strict";
import { execFileSync } from "node:child_process";
import { once } from "node:events";
import { existsSync, readFileSync, readdirSync } from "node:fs";
import net from "node:net";
import { join } from "node:path";
import { test } from "node:test";
import { setTimeout as sleep } from "node:timers/promises";
import tls from "node:tls";
import { batchesOf } from "../src/client.js";
import { addressOf } from "../src/connection.js";
import * as all from "../src/index.js";
import { BadLine, ConnectionFailed, CopyBehind, ProtocolError, RecordBehind, TimedOut, compareVersions, eq, has } from "../src/index.js";
import { COUNT, KEYS, NONE, PEOPLE, fake, folderOf, freePort, keysOf, ofTheProgram, open, opened, region, waitFor } from "./support.js";

test("lookups", ofTheProgram, async (t) => {
  const client = await opened(t);
  const record = await client.read("k001", { atLeast: [1, 0] });
  assert.deepEqual([record.key, record.version, record.state, record.fields], ["k001", [1, 0], "one", { city: "Rome" }]);
  assert.deepEqual(record.contents, [{ fields: { city: "Rome" }, master: "w" }]);
  assert.equal(await client.read("z"), null);
  await assert.rejects(client.read("k001", { atLeast: [1, 1] }), (fault) => fault instanceof RecordBehind && fault.has[1] === 0);
  assert.deepEqual(await keysOf(await client.get([...KEYS, "z", "k000"])), [...KEYS, undefined, "k000"]);
});

test("keys whose lines would be too long", ofTheProgram, async (t) => {
  const client = await opened(t);
  for (const [text, lines] of [["\u0436".repeat(126), 1], ["\u0001".repeat(254), 3]]) {
    const keys = Array.from({ length: 100 }, (_, at) => `${text}${String(at).padStart(2, "0")}`);
    assert.equal(batchesOf(keys).length, lines);
    assert.deepEqual(await keysOf(await client.get([...keys, KEYS[0]])), [...new Array(100).fill(undefined), KEYS[0]]);
  }
});

test("texts that are no UTF-8", async (t) => {
  const client = open(t, "tcp://127.0.0.1:1");
  for (const call of [() => client.read("k\ud800"), () => client.get(["a", "k\ud800"]), () => client.page({ from: "k\ud800" })]) {
    await assert.rejects(call(), { name: "RangeError", message: 'no UTF-8: "k\\ud800"' });
  }
});

test("scans", ofTheProgram, async (t) => {
  const client = await opened(t);
  assert.deepEqual(await keysOf(client.scan({ limit: 7 })), KEYS);
  const where = [eq("city", "Rome"), has("city")];
  assert.deepEqual(await keysOf(client.scan({ from: "k010", to: "k016", where, limit: 2 })), ["k011", "k013", "k015"]);
  await assert.rejects(client.page({ limit: 1001 }), (fault) => fault instanceof BadLine && fault.member === "query");
});

test("copies", ofTheProgram, async (t) => {
  const client = await opened(t);
  const folder = folderOf(t);
  await client.copy(0, join(folder, "copy"), { need: { east: COUNT } });
  const text = readFileSync(join(folder, "copy"), "utf8");
  assert(text.startsWith('{"copy":1,"from":null,"to":null}\n{"at":250,"stream":"east"}\n') && text.endsWith('\n{"end":251}\n'));
  await assert.rejects(client.copy(0, join(folder, "other"), { need: { east: COUNT + 1 } }), (fault) => {
    assert.deepEqual([fault instanceof CopyBehind, fault.stream, fault.has, fault.wanted], [true, "east", COUNT, COUNT + 1]);
    return true;
  });
  assert.deepEqual(readdirSync(folder), ["copy"]);
});

test("many lines in flight, over a pool", ofTheProgram, async (t) => {
  const client = await opened(t, { connections: 2 }, ["--sessions=2"]);
  const keys = Array.from({ length: 20 * COUNT }, (_, at) => KEYS[at % COUNT]);
  assert.deepEqual(await keysOf(await Promise.all(keys.map((key) => client.read(key)))), keys);
});

test("a region that is killed and comes back", ofTheProgram, async (t) => {
  const port = await freePort();
  const killed = await region(t, PEOPLE, [], port);
  const client = open(t, killed.address, { retries: 20 });
  await waitFor(client, KEYS.at(-1));
  await killed.kill();
  const asked = client.read(KEYS[0]);
  await region(t, PEOPLE, [], port);
  await asked;
  await waitFor(client, KEYS.at(-1));
});

test("nobody listens", async (t) => {
  const client = open(t, `tcp://127.0.0.1:${await freePort()}`, { retries: 0 });
  await assert.rejects(client.read("k"), ConnectionFailed);
});

test("half a reply, and another session", async (t) => {
  const client = open(t, await fake(t, [['{"row":'], [NONE]]));
  assert.equal(await client.read("k"), null);
});

test("half a copy, and another session", async (t) => {
  const whole = '{"lines":2}\n{"copy":1,"from":null,"to":null}\n{"end":0}\n';
  const client = open(t, await fake(t, [[whole.slice(0, -5)], [whole]]));
  const path = join(folderOf(t), "copy");
  await client.copy(0, path);
  assert.equal(readFileSync(path, "utf8"), whole.slice(whole.indexOf("\n") + 1));
});

test("a late reply is never that of another line", async (t) => {
  const late = '{"row":{"contents":[{"deleted":true,"master":"w"}],"key":"k","state":"deleted","version":[1,1]}}\n';
  const client = open(t, await fake(t, [[NONE, 300, late + NONE], []]), { timeout: 200 });
  const asked = [client.read("a"), client.read("k")];
  assert.equal(await asked[0], null);
  await assert.rejects(asked[1], TimedOut);
  await sleep(150);
  assert.equal(await client.read("z").catch((fault) => fault.name), "TimedOut");
});

test("a silent connection is given up", async (t) => {
  const client = open(t, await fake(t, [[], [NONE]]), { timeout: 200 });
  await assert.rejects(client.read("k"), TimedOut);
  assert.equal(await client.read("k"), null);
});

test("no region", async (t) => {
  const client = open(t, await fake(t, [["HTTP/1.1 400 Bad Request\n"]]));
  await assert.rejects(client.read("k"), ProtocolError);
});

test("fewer rows than keys", async (t) => {
  const client = open(t, await fake(t, [['{"rows":[null]}\n']]));
  await assert.rejects(client.get(["a", "b"]), ProtocolError);
});

test("a refusal keeps the session", async (t) => {
  const client = open(t, await fake(t, [['{"error":"behind","has":null}\n', NONE]]));
  await assert.rejects(client.read("k", { atLeast: [1, 0] }), (fault) => fault instanceof RecordBehind && fault.has === null);
  assert.equal(await client.read("k"), null);
});

test("a client that was closed", async (t) => {
  const client = open(t, await fake(t, [[]]));
  const asked = client.read("k");
  await client.close();
  await assert.rejects(asked, ConnectionFailed);
  await assert.rejects(client.read("k"), ConnectionFailed);
});

test("a copy that cannot be written", async (t) => {
  const client = open(t, await fake(t, [['{"lines":1}\n{"end":0}\n']]));
  await assert.rejects(client.copy(0, join(folderOf(t), "none", "copy")), { code: "ENOENT" });
});

test("versions are ordered", () => {
  const versions = [[2, 0], [1, 5], [1, 0]];
  assert.deepEqual(versions.sort(compareVersions), [[1, 0], [1, 5], [2, 0]]);
});

test("all that has types is there, and no more", () => {
  const types = readFileSync(new URL("../index.d.ts", import.meta.url), "utf8");
  const typed = [...types.matchAll(/^export (?:class|function) (\w+)/gm)].map(([, name]) => name);
  assert.deepEqual(Object.keys(all).sort(), typed.sort());
  assert(existsSync(new URL("../package.json", import.meta.url)));
});

test("texts", () => {
  assert.deepEqual(addressOf("tcp://127.0.0.1:7071"), { host: "127.0.0.1", port: 7071, isTls: false });
  assert.deepEqual(addressOf("tcp://[::1]"), { host: "::1", port: 7070, isTls: false });
  assert.deepEqual(addressOf("tls://region.example"), { host: "region.example", port: 7070, isTls: true });
  assert.deepEqual(addressOf("unix:/run/pnuts.sock"), { path: "/run/pnuts.sock" });
  assert.deepEqual(addressOf("unix:///run/a b"), { path: "/run/a b" });
  for (const text of ["", "7070", "http://a:1", "tcp://", "tcp://a:x", "tcp://a:70700", "unix:", "tcp://a:1/path"]) {
    assert.throws(() => addressOf(text), TypeError, text);
  }
});

/** A key and a certificate for localhost. */
function certificate(t) {
  const folder = folderOf(t);
  const [key, cert] = [join(folder, "key.pem"), join(folder, "certificate.pem")];
  const words = "req -x509 -newkey ec -pkeyopt ec_paramgen_curve:prime256v1 -nodes -days 2 -subj /CN=localhost".split(" ");
  execFileSync("openssl", [...words, "-addext", "subjectAltName=DNS:localhost", "-keyout", key, "-out", cert], { stdio: "ignore" });
  return { key: readFileSync(key), cert: readFileSync(cert) };
}

test("TLS", async (t) => {
  const held = certificate(t);
  for (const [servername, isRight] of [["localhost", true], ["other.example", false]]) {
    const address = await fake(t, [[NONE]], tls.createServer(held));
    const options = { retries: 0, tls: { ca: held.cert, servername } };
    const asked = open(t, address.replace("tcp://127.0.0.1", "tls://localhost"), options).read("k");
    await (isRight ? asked : assert.rejects(asked, ConnectionFailed));
  }
});

test("Unix sockets", async (t) => {
  const path = join(folderOf(t), "region");
  const server = net.createServer((socket) => socket.on("data", () => socket.write(NONE))).listen(path);
  await once(server, "listening");
  const client = open(t, `unix:${path}`);
  assert.equal(await client.read("k"), null);
  await client.close();
  server.close();
});
