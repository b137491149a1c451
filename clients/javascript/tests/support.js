// What the tests need: a running region, a proxy before it, servers that do as they are told, and the vectors.

import { spawn } from "node:child_process";
import { once } from "node:events";
import { mkdtempSync, readFileSync, rmSync, writeFileSync } from "node:fs";
import net from "node:net";
import { tmpdir } from "node:os";
import { join } from "node:path";
import { createInterface } from "node:readline";
import { setTimeout as sleep } from "node:timers/promises";
import { Client } from "../src/index.js";

/** The built program, by PNUTS. Tests of it are skipped without. */
export const program = process.env.PNUTS;
export const ofTheProgram = { skip: program === undefined && "PNUTS names no program" };

export const NONE = '{"row":null}\n';
export const COUNT = 250;
export const KEYS = Array.from({ length: COUNT }, (_, at) => `k${String(at).padStart(3, "0")}`);
export const PEOPLE = { east: KEYS.map((key, at) => JSON.stringify(image(key, { city: at % 2 ? "Rome" : "Oslo" }))) };

export function vectors(name) {
  return readFileSync(new URL(`../../vectors/${name}.json`, import.meta.url), "utf8");
}

export function image(key, fields) {
  return { fields, key, master: "w", version: [1, 0] };
}

export function folderOf(t) {
  const folder = mkdtempSync(join(tmpdir(), "pnuts-"));
  t.after(() => rmSync(folder, { recursive: true }));
  return folder;
}

export async function freePort() {
  const server = net.createServer().listen(0, "127.0.0.1");
  await once(server, "listening");
  const { port } = server.address();
  server.close();
  await once(server, "close");
  return port;
}

/** The address of a region that takes streams of images, each as JSON, and what kills it. That is done at the end, too. */
export async function region(t, streams, words = [], port = undefined) {
  const folder = folderOf(t);
  const where = port ?? (await freePort());
  const named = Object.entries(streams).map(([name, images]) => {
    writeFileSync(join(folder, name), images.map((image, at) => `{"at":${at + 1},"image":${image}}\n`).join(""));
    return `${name}=${join(folder, name)}`;
  });
  const running = spawn(program, ["serve", `--port=${where}`, ...words, ...named], { stdio: ["ignore", "pipe", "ignore"] });
  const ended = once(running, "exit");
  const kill = async () => {
    running.kill("SIGKILL");
    await ended;
  };
  t.after(kill);
  await once(running.stdout, "data");
  return { address: `tcp://127.0.0.1:${where}`, kill };
}

/**
 * A server whose connections, one after another, are answered with replies: to each line the next one, after as many milliseconds
 * as a number before it says. It ends a connection after a reply without newline.
 */
export async function fake(t, connections, server = net.createServer()) {
  const left = [...connections];
  const sockets = [];
  const answer = (socket) => {
    const replies = left.shift() ?? [];
    sockets.push(socket);
    socket.on("error", () => undefined);
    socket.on("data", async () => {
      while (typeof replies[0] === "number") {
        await sleep(replies.shift());
      }
      const reply = replies.shift();
      if (reply !== undefined) {
        socket[reply.endsWith("\n") ? "write" : "end"](reply);
      }
    });
  };
  server.on(server.setSecureContext ? "secureConnection" : "connection", answer);
  server.listen(0, "127.0.0.1");
  await once(server, "listening");
  t.after(() => {
    sockets.forEach((socket) => socket.destroy());
    server.close();
  });
  return `tcp://127.0.0.1:${server.address().port}`;
}

/** A client that is closed at the end of the test. */
export function open(t, address, options) {
  const client = new Client(address, options);
  t.after(() => client.close());
  return client;
}

export async function waitFor(client, key) {
  for (let tries = 0; (await client.read(key)) === null; tries += 1) {
    if (tries === 1000) {
      throw new Error(`${key} did not come`);
    }
    await sleep(10);
  }
}

/** A client of a region that has taken all people. */
export async function opened(t, options, words) {
  const client = open(t, (await region(t, PEOPLE, words)).address, options);
  await waitFor(client, KEYS.at(-1));
  return client;
}

export async function keysOf(records) {
  const keys = [];
  for await (const record of records) {
    keys.push(record?.key);
  }
  return keys;
}

/** Where it is, and what shuts it. It cuts each connection after at most `most` bytes of replies, and all of them while it is shut. */
export async function proxy(t, address) {
  const { port } = new URL(address);
  const sockets = new Set();
  const made = { most: Infinity, cuts: 0, isShut: false, shut: () => ((made.isShut = true), sockets.forEach((socket) => socket.destroy())) };
  const server = net.createServer((socket) => {
    sockets.add(socket);
    socket.on("error", () => undefined);
    if (made.isShut) {
      socket.destroy();
      return;
    }
    let left = 1 + Math.random() * made.most;
    const behind = net.connect(port, "127.0.0.1");
    behind.on("error", () => socket.destroy());
    behind.on("close", () => socket.destroy());
    socket.on("close", () => behind.destroy());
    socket.pipe(behind);
    behind.on("data", (data) => {
      left -= data.length;
      socket.write(left > 0 ? data : data.subarray(0, Math.max(data.length + Math.floor(left), 0)));
      if (left <= 0) {
        made.cuts += 1;
        socket.end();
        behind.destroy();
      }
    });
  });
  server.listen(0, "127.0.0.1");
  await once(server, "listening");
  t.after(() => {
    made.shut();
    server.close();
  });
  return Object.assign(made, { address: `tcp://127.0.0.1:${server.address().port}` });
}

/** A line without the members that say what holds without them. */
export function plain(line) {
  if (typeof line !== "object" || line === null || Array.isArray(line)) {
    return line;
  }
  const isSaid = ([name, member]) => member != null && member.length !== 0 && !(name === "limit" && member === 100);
  return Object.fromEntries(Object.entries(line).filter(isSaid).map(([name, member]) => [name, plain(member)]).sort());
}

/** A region whose table changes, and the lines that it was asked beside that. */
export async function tabled(t) {
  const sockets = new Set();
  const region = { table: null, unknown: [] };
  const replyTo = (line) => {
    const asked = JSON.stringify(plain(JSON.parse(line)));
    const found = region.table.find((entry) => JSON.stringify(plain(entry.line)) === asked);
    if (found === undefined) {
      region.unknown.push(line);
      return '{"error":"unknown"}\n';
    }
    return [JSON.stringify(found.reply), ...(found.text ?? [])].map((text) => `${text}\n`).join("");
  };
  const server = net.createServer((socket) => {
    sockets.add(socket);
    socket.on("error", () => undefined);
    if (region.table === null) {
      socket.destroy();
      return;
    }
    createInterface({ input: socket }).on("line", (line) => socket.destroyed || socket.write(replyTo(line)));
  });
  region.become = (table) => {
    region.table = table;
    if (table === null) {
      sockets.forEach((socket) => socket.destroy());
    }
  };
  server.listen(0, "127.0.0.1");
  await once(server, "listening");
  region.address = `tcp://127.0.0.1:${server.address().port}`;
  t.after(() => {
    region.become(null);
    server.close();
  });
  return region;
}
