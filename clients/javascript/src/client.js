// A client of one region, or of several of the same streams.

import { randomUUID } from "node:crypto";
import { rename, rm, writeFile } from "node:fs/promises";
import { basename, dirname, join } from "node:path";
import { setTimeout as sleep } from "node:timers/promises";
import { Pool, addressOf } from "./connection.js";
import { Attempts, Order, Seen, withLater } from "./failover.js";
import { stringify } from "./json.js";
import { answerOf, page, row, rowsOf, text } from "./replies.js";

/** How many keys a line may have, and how many bytes they may have in it, each with a comma. */
const MAX_KEYS = 100;
const MAX_SIZE = 65_536 - '{"do":"get","keys":[]}'.length;

/** Reads from a region, or from several. Any number of calls may be made at once; their lines are in flight together. */
export class Client {
  #pools;
  #order;
  /** What was seen; undefined of one region. */
  #seen;
  #timeout;
  #retries;
  #isClosed = false;

  constructor(address, { connections = 1, timeout = 10_000, retries = 3, remember = 10_000, tls } = {}) {
    const addresses = [address].flat();
    if (addresses.length === 0) {
      throw new TypeError("there is no region");
    }
    this.#pools = addresses.map((each) => new Pool(addressOf(each), tls, connections));
    this.#order = new Order(addresses);
    this.#seen = addresses.length > 1 ? new Seen(remember) : undefined;
    this.#timeout = timeout;
    this.#retries = retries;
  }

  /** How many sessions it has begun. */
  get sessions() {
    return this.#pools.reduce((count, pool) => count + pool.sessions, 0);
  }

  async read(key, { atLeast } = {}) {
    const version = this.#seen === undefined ? atLeast : this.#seen.atLeast(key, atLeast);
    const record = await this.ask({ do: "read", key, version }, row);
    this.#seen?.take(key, record);
    return record;
  }

  async get(keys) {
    const asked = batchesOf(keys).map((batch) => this.ask({ do: "get", keys: batch }, rowsOf(batch.length)));
    const found = (await Promise.all(asked)).flat();
    const older = this.#seen?.older(keys, found) ?? [];
    const later = new Map((await this.#readAll(older)).map((record) => [record?.key, record]));
    return found.map((record, at) => later.get(keys[at]) ?? record);
  }

  async *scan(query = {}) {
    for await (const records of this.pages(query)) {
      yield* records;
    }
  }

  async *pages(query = {}) {
    for (let next = query; next !== null; ) {
      const page = await this.page(next);
      yield page.records;
      next = page.next;
    }
  }

  async page(query = {}) {
    const found = await this.ask({ do: "scan", query }, page);
    const older = this.#seen?.olderOf(query, found) ?? [];
    return older.length > 0 ? { ...found, records: withLater(query, found.records, await this.#readAll(older)) } : found;
  }

  async copy(tablet, path, { need } = {}) {
    await writeWhole(path, await this.ask({ do: "copy", tablet, need }, text));
  }

  async close() {
    this.#isClosed = true;
    this.#pools.forEach((pool) => pool.close());
  }

  /** The answer to a command. All commands only read, so where a connection broke, or a region cannot answer, it is asked again. */
  async ask(command, meaning) {
    const line = `${stringify(command)}\n`;
    const attempts = new Attempts(this.#order, this.#retries, performance.now() + this.#timeout);
    for (;;) {
      const now = performance.now();
      const chosen = attempts.next(now);
      try {
        const reply = await this.#pools[chosen.region].ask(line, command.do === "copy", chosen.until - now);
        const answer = answerOf(command, reply, meaning);
        attempts.answered(chosen);
        return answer;
      } catch (fault) {
        if (this.#isClosed) {
          throw fault;
        }
        await sleep(attempts.failed(chosen, fault, performance.now()));
      }
    }
  }

  /** The records of keys in the versions that were seen of them, or later ones. */
  #readAll(wanted) {
    return Promise.all(wanted.map(({ key, version }) => this.read(key, { atLeast: version })));
  }
}

/** Keys in lists of at most 100, in their order, for lines that are not too long. */
export function batchesOf(keys) {
  const batches = [];
  let left = 0;
  for (const key of keys) {
    const size = Buffer.byteLength(JSON.stringify(key)) + 1;
    if (batches.length === 0 || batches.at(-1).length === MAX_KEYS || size > left) {
      batches.push([]);
      left = MAX_SIZE;
    }
    batches.at(-1).push(key);
    left -= size;
  }
  return batches;
}

/** Writes a file beside the path, and moves it there. */
async function writeWhole(path, text) {
  const beside = join(dirname(path), `.${basename(path)}.${randomUUID()}`);
  try {
    await writeFile(beside, text, { flag: "wx", mode: 0o600 });
    await rename(beside, path);
  } catch (fault) {
    await rm(beside, { force: true });
    throw fault;
  }
}
