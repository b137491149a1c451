// Records as a region holds them, what a scan asks for, a range of keys and conditions on fields, and what replies mean: of each, index.d.ts says
// more. Another command is one more meaning here, undefined of what is no reply to it.

import { inspect } from "node:util";
import { BadLine, CopyBehind, NoEntry, OutOfMemory, ProtocolError, RecordBehind, Recovering, Refused } from "./errors.js";
import { stringify } from "./json.js";

export class Record {
  constructor({ contents, key, state, version }) {
    this.contents = contents;
    this.key = key;
    this.state = state;
    this.version = version;
  }

  get fields() {
    return this.state === "one" ? this.contents[0].fields : undefined;
  }
}

export function compareVersions([generation, number], [otherGeneration, otherNumber]) {
  return generation - otherGeneration || number - otherNumber;
}

const KINDS = new Map([
  ["too-long", BadLine],
  ["not-json", BadLine],
  ["bad-shape", BadLine],
  ["out-of-range", BadLine],
  ["read-only", BadLine],
  ["recovering", Recovering],
  ["behind", RecordBehind],
  ["no-entry", NoEntry],
  ["memory", OutOfMemory],
]);

/** What a reply to a command says; throws what it refuses. */
export function answerOf(command, reply, meaning) {
  if (typeof reply?.error === "string") {
    throw refusalOf(reply, command.key);
  }
  const answer = reply ? meaning(reply) : undefined;
  if (answer === undefined) {
    throw new ProtocolError(`no reply to ${stringify(command).slice(0, 80)}: ${inspect(reply).slice(0, 200)}`);
  }
  return answer;
}

export const row = (reply) => recordOf(reply.row);

export function rowsOf(count) {
  return (reply) => (reply.rows?.length === count ? rows(reply) : undefined);
}

export function page(reply) {
  const records = rows(reply);
  const isNext = reply.next === null || Array.isArray(reply.next?.where);
  return records && isNext ? { records, next: reply.next } : undefined;
}

export const text = (reply) => reply.text;

function rows(reply) {
  const records = Array.isArray(reply.rows) ? reply.rows.map(recordOf) : undefined;
  return records?.includes(undefined) ? undefined : records;
}

function recordOf(row) {
  const isRow = typeof row?.key === "string" && row.contents?.length > 0 && row.version?.length === 2;
  return isRow ? new Record(row) : row === null ? null : undefined;
}

/** The error of a reply that has a member `error`, to a command that has a key. */
function refusalOf(reply, key) {
  const kind = KINDS.get(reply.error) ?? Refused;
  return kind === RecordBehind && "stream" in reply ? new CopyBehind(reply) : new kind(reply, key);
}

export const has = (field) => ["has", field];
export const eq = (field, value) => ["eq", field, value];
export const lt = (field, value) => ["lt", field, value];
export const gt = (field, value) => ["gt", field, value];
export const prefix = (field, text) => ["prefix", field, text];

/** How two keys are ordered: by their bytes, and not as JavaScript orders texts. */
export function compareKeys(one, other) {
  const end = Math.min(one.length, other.length);
  let at = 0;
  while (at < end && one.charCodeAt(at) === other.charCodeAt(at)) {
    at += 1;
  }
  return at < end ? rankOf(one.charCodeAt(at)) - rankOf(other.charCodeAt(at)) : one.length - other.length;
}

/** The order of a unit of 16 bits: surrogates stand for characters that come after all others. */
function rankOf(unit) {
  return unit >= 0xd800 && unit < 0xe000 ? unit + 0x10000 : unit;
}

/** Whether a key is in the range of a query. */
export function covers({ from, after, to }, key) {
  const isPast = (from == null || compareKeys(key, from) >= 0) && (after == null || compareKeys(key, after) > 0);
  return isPast && (to == null || compareKeys(key, to) < 0);
}

/** Whether a record of its range is what a query asks for: a content with fields meets all conditions. */
export function shows({ where }, { contents }) {
  return contents.some(({ fields }) => fields !== undefined && (where ?? []).every((condition) => holds(fields, condition)));
}

function holds(fields, [word, field, wanted]) {
  const found = Object.hasOwn(fields, field) ? fields[field] : undefined;
  if (found === undefined || word === "has") {
    return found !== undefined;
  }
  const isText = typeof wanted === "string";
  if ((typeof found === "string") !== isText) {
    return false;
  }
  if (word === "prefix") {
    return found.startsWith(wanted);
  }
  const sign = isText ? compareKeys(found, wanted) : Number(found > wanted) - Number(found < wanted);
  return Math.sign(sign) === { eq: 0, lt: -1, gt: 1 }[word];
}

/** The part of a query from `low` on and below `high`, undefined where no key can be there. No end is null or undefined. */
export function within(query, low, high) {
  const from = greater(query.from, low);
  const to = high != null && (query.to == null || compareKeys(high, query.to) < 0) ? high : query.to;
  const first = greater(from, query.after);
  return to != null && first != null && compareKeys(first, to) >= 0 ? undefined : { ...query, from, to };
}

function greater(one, other) {
  if (one == null || other == null) {
    return one ?? other;
  }
  return compareKeys(one, other) < 0 ? other : one;
}
