// Several regions of the same streams: which is asked next, how long one that failed is left alone, and the versions that a client has shown,
// so that no region shows it an older one. There is no socket, and no clock of its own.

import { ConnectionFailed, CopyBehind, NoEntry, OutOfMemory, RecordBehind, Recovering, TimedOut } from "./errors.js";
import { compareKeys, compareVersions, covers, shows } from "./replies.js";

/** After what a line is asked of another region. */
const OF_ANOTHER = [ConnectionFailed, TimedOut, Recovering, RecordBehind, CopyBehind, NoEntry, OutOfMemory];

/** How many milliseconds to wait before another try: 100, and twice as many each time, at most 1,000. */
export const pause = (tries) => Math.min(50 * 2 ** tries, 1000);

/** For how many milliseconds a region is left alone after failures in a row: 100, then twice as many each time, at most 10,000. */
export const backoff = (failures) => Math.min(50 * 2 ** failures, 10_000);

/** Regions in the order in which they are asked. A try is a region, by its number, and how many of its failures were known then. */
export class Order {
  #regions;

  constructor(names) {
    this.names = names;
    this.#regions = names.map(() => ({ known: 0, failures: 0, until: 0 }));
  }

  /**
   * The first region that was not tried and is not left alone, else the one whose time ends first. Where it failed
   * before, it is left alone by all others while this one finds out.
   */
  next(now, tried) {
    const waits = this.#regions.map(({ until }, at) => (tried.has(at) ? undefined : Math.max(until - now, 0)));
    const left = waits.filter((wait) => wait !== undefined);
    if (left.length === 0) {
      return undefined;
    }
    const wait = Math.min(...left);
    const region = waits.indexOf(wait);
    const chosen = this.#regions[region];
    if (chosen.failures > 0 && wait === 0) {
      chosen.until = now + backoff(chosen.failures);
    }
    return { region, known: chosen.known };
  }

  /** The region is well, unless it has failed since it was chosen. */
  answered({ region, known }) {
    if (this.#regions[region].known === known) {
      Object.assign(this.#regions[region], { failures: 0, until: 0 });
    }
  }

  /** The region is left alone from now on. Of tries at once the first failure counts. */
  failed({ region, known }, now) {
    if (this.#regions[region].known === known) {
      const failures = this.#regions[region].failures + 1;
      this.#regions[region] = { known: known + 1, failures, until: now + backoff(failures) };
    }
  }
}

/** The tries of one line: each region once a round, and up to `retries` more rounds, before the deadline. */
export class Attempts {
  #order;
  #retries;
  #deadline;
  #rounds = 0;
  #tried = new Set();
  /** What each region said last. */
  #said = [];

  constructor(order, retries, deadline) {
    this.#order = order;
    this.#retries = retries;
    this.#deadline = deadline;
  }

  get #count() {
    return this.#order.names.length;
  }

  /** The next try, and its deadline: the regions of a round that are left have equal shares of the time that is left. */
  next(now) {
    const found = this.#order.next(now, this.#tried);
    const left = this.#count - this.#tried.size;
    this.#tried.add(found.region);
    return { ...found, until: now + (this.#deadline - now) / left };
  }

  answered(done) {
    this.#order.answered(done);
  }

  /** How many milliseconds to wait before the next try. Throws the fault, with what other regions said, where there is none. */
  failed(done, fault, now) {
    this.#said[done.region] = undefined;
    const others = this.#order.names.map((address, at) => ({ address, fault: this.#said[at] }));
    const ended = () => withOthers(fault, others.filter((other) => other.fault !== undefined));
    if (!(this.#count > 1 ? OF_ANOTHER : [ConnectionFailed]).some((kind) => fault instanceof kind)) {
      throw ended();
    }
    this.#order.failed(done, now);
    this.#said[done.region] = fault;
    let wait = 0;
    if (this.#tried.size === this.#count) {
      this.#tried.clear();
      this.#rounds += 1;
      wait = pause(this.#rounds);
    }
    if (this.#rounds > this.#retries || now + wait >= this.#deadline) {
      throw ended();
    }
    return wait;
  }
}

function withOthers(fault, others) {
  if (others.length > 0) {
    fault.others = others;
    fault.message += ` (${others.map((other) => `${other.address}: ${other.fault.message}`).join("; ")})`;
  }
  return fault;
}

/** The versions of the keys that were seen last, at most `size` of them. */
export class Seen {
  #size;
  /** Each key with its version, and whether that was a deletion; the key that was seen last comes last. */
  #sights = new Map();

  constructor(size) {
    this.#size = size;
  }

  /** The later of a version that is asked for and the one that was seen of a key. */
  atLeast(key, asked) {
    const version = this.#sights.get(key)?.version;
    return version !== undefined && (asked == null || compareVersions(asked, version) < 0) ? version : asked;
  }

  /** Notes the record that a region has of a key. Where a later version was seen, it gives that. */
  take(key, record) {
    const known = this.#sights.get(key);
    if (known !== undefined && (record === null || compareVersions(record.version, known.version) < 0)) {
      return known.version;
    }
    if (record !== null) {
      this.#sights.delete(key);
      this.#sights.set(key, { version: record.version, isDeleted: record.state === "deleted" });
      if (this.#sights.size > this.#size) {
        this.#sights.delete(this.#sights.keys().next().value);
      }
    }
    return undefined;
  }

  /** The keys of which a later version was seen than these records have, each with that. */
  older(keys, records) {
    return keys.map((key, at) => ({ key, version: this.take(key, records[at]) })).filter(({ version }) => version !== undefined);
  }

  /** The keys of a page of which a later version was seen, and, where there are no conditions, those that it lacks. */
  olderOf(query, { records, next }) {
    const keys = records.map(({ key }) => key);
    const found = this.older(keys, records);
    if (query.where?.length > 0) {
      return found;
    }
    const shown = new Set(keys);
    const isLacking = (key) => !shown.has(key) && covers(query, key) && (next === null || compareKeys(key, next.after) <= 0);
    for (const [key, { version, isDeleted }] of this.#sights) {
      if (!isDeleted && isLacking(key)) {
        found.push({ key, version });
      }
    }
    return found;
  }
}

/** The records of a page with later ones in their places, as far as these are what the query asks for. */
export function withLater(query, records, later) {
  const shown = new Map(records.map((record) => [record.key, record]));
  for (const record of later.filter((each) => each !== null)) {
    shown.delete(record.key);
    if (shows(query, record)) {
      shown.set(record.key, record);
    }
  }
  return [...shown.values()].sort((one, other) => compareKeys(one.key, other.key));
}
