// The control socket of a region: how it goes, and what changes in it.

import { setTimeout as sleep } from "node:timers/promises";
import { Client } from "./client.js";
import { ConnectionFailed } from "./errors.js";
import { pause } from "./failover.js";

const LONGEST_WAIT = 60;
/** Greater than the number of any change. What came after it is never known, but for the last number. */
const LAST = 10n ** 18n;

export class Control extends Client {
  #address;
  #options;
  #watching = new Set();

  constructor(address, options = {}) {
    super(address, options);
    this.#address = address;
    this.#options = { retries: 3, ...options };
  }

  async marks() {
    return this.ask({ do: "marks" }, (reply) => reply.marks);
  }

  async stats() {
    return this.ask({ do: "stats" }, (reply) => (reply.streams === undefined ? undefined : reply));
  }

  async notices(since, wait = 0) {
    const found = ({ next, missed = false, notices }) => (missed || notices ? { next, missed, changes: notices ?? [] } : undefined);
    return this.ask({ do: "notices", since, wait }, found);
  }

  async *watch(since = LAST) {
    const client = new Control(this.#address, { ...this.#options, connections: 1, timeout: (LONGEST_WAIT + 10) * 1000, retries: 0 });
    this.#watching.add(client);
    try {
      for (let next = since, tries = 0, sessions = 0; ; ) {
        const found = await client.notices(next, LONGEST_WAIT).catch((fault) => {
          if (!(fault instanceof ConnectionFailed) || !this.#watching.has(client) || (tries += 1) > this.#options.retries) {
            throw fault;
          }
        });
        if (found === undefined) {
          await sleep(pause(tries));
          continue;
        }
        // In another session the region may have begun anew.
        const isOther = sessions > 0 && sessions !== client.sessions;
        [next, tries, sessions] = [found.next, 0, client.sessions];
        if (isOther || found.missed || found.changes.length > 0) {
          yield isOther ? { next, missed: true, changes: [] } : found;
        }
      }
    } finally {
      this.#watching.delete(client);
      await client.close();
    }
  }

  async close() {
    const clients = [...this.#watching];
    this.#watching.clear();
    await Promise.all([super.close(), ...clients.map((client) => client.close())]);
  }
}
