// Several regions that are read as one.

import { compareKeys, within } from "./replies.js";

/** Each region has the keys of a range: the first those below the first bound, each other those from its bound on. */
export class Regions {
  #bounds;
  #clients;

  constructor(bounds, clients) {
    if (clients.length !== bounds.length + 1) {
      throw new RangeError(`${bounds.length} bounds take ${bounds.length + 1} regions, not ${clients.length}`);
    }
    if (bounds.some((bound, at) => at > 0 && compareKeys(bounds[at - 1], bound) >= 0)) {
      throw new RangeError("the bounds do not rise");
    }
    this.#bounds = [...bounds];
    this.#clients = [...clients];
  }

  /** The client of the region that has a key. */
  of(key) {
    const at = this.#bounds.findIndex((bound) => compareKeys(key, bound) < 0);
    return this.#clients.at(at);
  }

  async get(keys) {
    const found = new Array(keys.length);
    const shares = new Map(this.#clients.map((client) => [client, []]));
    keys.forEach((key, index) => shares.get(this.of(key)).push(index));
    const take = async ([client, indexes]) => {
      const records = await client.get(indexes.map((index) => keys[index]));
      records.forEach((record, at) => (found[indexes[at]] = record));
    };
    await Promise.all([...shares].map(take));
    return found;
  }

  async *scan(query = {}) {
    for (const [client, part] of this.parts(query)) {
      yield* client.scan(part);
    }
  }

  /** What a query asks of each region that has keys of its range, in key order. */
  *parts(query) {
    for (const [at, client] of this.#clients.entries()) {
      const part = within(query, this.#bounds[at - 1], this.#bounds[at]);
      if (part !== undefined) {
        yield [client, part];
      }
    }
  }
}
