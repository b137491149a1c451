// The types of the package. What each call does is said here.

/** A text, or a whole number of 64 bits: a number where it is a safe integer, else a BigInt. */
export type Value = string | number | bigint;
export type Fields = { readonly [name: string]: Value };

/** The generation and the number of a version. The generation is compared first. */
export type Version = readonly [generation: number, number: number];

export type Content =
  | { readonly fields: Fields; readonly deleted?: undefined; readonly master: string }
  | { readonly deleted: true; readonly fields?: undefined; readonly master: string };

export type State = "one" | "deleted" | "conflict";

/** A record as a region holds it: its greatest version, with every content that came with it, at least one. */
export class Record {
  private constructor();
  readonly key: string;
  readonly version: Version;
  readonly state: State;
  readonly contents: readonly [Content, ...Content[]];
  /** The fields of the one content, undefined of a deletion or a conflict: see `state` and `contents`. */
  get fields(): Fields | undefined;
}

/** Less than 0 where the first version is older, 0 where both are one. */
export function compareVersions(one: Version, other: Version): number;

export type Condition =
  | readonly ["has", string]
  | readonly ["eq" | "lt" | "gt", string, Value]
  | readonly ["prefix", string, string];

/** The field is there. */
export function has(field: string): Condition;
/** The field is this text, or this number. */
export function eq(field: string, value: Value): Condition;
/** The field is a text less than this one, by bytes, or a number less than this one. */
export function lt(field: string, value: Value): Condition;
/** The field is a text greater than this one, by bytes, or a number greater than this one. */
export function gt(field: string, value: Value): Condition;
/** The field is a text that begins with this one. */
export function prefix(field: string, text: string): Condition;

/** The records from `from` on, below `to` and above `after`, that meet all conditions; `limit` rows a page, by default 100. */
export interface Query {
  readonly from?: string | null;
  readonly to?: string | null;
  readonly after?: string | null;
  readonly limit?: number;
  readonly where?: readonly Condition[];
}

/** Records in key order, and the query for those that follow, null where these are the last. */
export interface Page {
  readonly records: Record[];
  readonly next: Query | null;
}

export interface Options {
  /** How many connections are open to each region at most, each a session of it: by default 1. */
  readonly connections?: number;
  /** How many milliseconds a line waits for its reply: by default 10,000; Infinity for ever. */
  readonly timeout?: number;
  /** How often a line is asked again where the connection breaks, or where no region can answer it: by default 3. */
  readonly retries?: number;
  /** Of how many keys a client of several regions keeps the version that it saw: by default 10,000. */
  readonly remember?: number;
  /** What `connect` of node:tls takes, for tls:// addresses: by default the machine's own certificates. */
  readonly tls?: object;
}

/** What one region and several have in common. */
interface Reads {
  /** The records of keys, in their order, null where there is none. More than 100 are asked for in several lines. */
  get(keys: readonly string[]): Promise<(Record | null)[]>;
  /** What a query asks for, page by page, without deleted records. While the region changes, each page is of its own moment. */
  scan(query?: Query): AsyncGenerator<Record, void, undefined>;
}

/** Reads from a region, or from several. Any number of calls may be made at once; their lines are in flight together. */
export class Client implements Reads {
  /**
   * A region at tcp://HOST:PORT, tls://HOST:PORT or unix:PATH, or several of the same streams. Connections are opened when they are
   * needed, and anew where they broke. The first region that can answer does, and none shows an older version than was seen of the
   * last keys.
   */
  constructor(address: string | readonly string[], options?: Options);
  /** The record of a key, a deleted one too. With `atLeast`: RecordBehind where the region has not taken that version yet. */
  read(key: string, options?: { readonly atLeast?: Version }): Promise<Record | null>;
  get(keys: readonly string[]): Promise<(Record | null)[]>;
  scan(query?: Query): AsyncGenerator<Record, void, undefined>;
  pages(query?: Query): AsyncGenerator<Record[], void, undefined>;
  /** Of several regions it may have more rows than the limit. */
  page(query?: Query): Promise<Page>;
  /**
   * Writes a copy of a tablet to a file, which is there whole or not at all. With positions of streams as `need`: CopyBehind
   * where the tablet does not reach them.
   */
  copy(tablet: number, path: string, options?: { readonly need?: { readonly [stream: string]: number } }): Promise<void>;
  /** Ends all sessions. Calls that wait fail. */
  close(): Promise<void>;
}

/** How far streams were taken, by their names. */
export type Marks = { readonly [stream: string]: number };

/** A change of a record: its number, and the record's version before it, null where there was none, and after it. */
export interface Notice {
  readonly number: number;
  readonly key: string;
  readonly before: Version | null;
  readonly after: Version;
}

/** Changes, and the number to ask with next. Missed: some are not known, so all is to be read anew. */
export interface Notices {
  readonly next: number;
  readonly missed: boolean;
  readonly changes: readonly Notice[];
}

/** A stream: what was read of it, and up to which position it was taken; the reason and line are of its last fault. */
export interface StreamStats {
  readonly name: string;
  readonly path: string;
  readonly state: "waiting" | "open" | "ended" | "failed";
  readonly position: number;
  readonly messages: number;
  readonly bytes: number;
  /** Seconds since the last message, null before the first. */
  readonly since: number | null;
  readonly reason: string | null;
  readonly line: number | null;
  /** Whose stream a publisher said it is, and the broker's newest position that one told, `heard` seconds ago; null where none did. */
  readonly stream?: string | null;
  readonly newest?: number | null;
  readonly heard?: number | null;
}

/** How many lines were answered, and how many of these refused. */
export interface LineCounts {
  readonly answered: number;
  readonly refused: number;
}

/** How many there were, how many microseconds they took together, and how many took at most `most`, but more than the bucket before. */
export interface TimeCounts {
  readonly buckets: readonly { readonly count: number; readonly most: number }[];
  readonly count: number;
  readonly total: number;
}

/** What a region has done so far: seconds that it runs, bytes of memory, rounds, and the connections and lines of clients. */
export interface Stats {
  readonly version: string;
  readonly uptime: number;
  readonly bytes: number;
  readonly rounds: number;
  readonly connections: { readonly accepted: number; readonly idle: number; readonly open: number; readonly refused: number };
  /** All of them and, where the region says it, those of each kind. */
  readonly lines: LineCounts & { readonly kinds?: { readonly [kind: string]: LineCounts } };
  readonly streams: readonly StreamStats[];
  /** What each tablet holds, where the region says it: records, and how many of them are deletions. */
  readonly tablets?: readonly { readonly deleted: number; readonly records: number }[];
  /** Bytes of the records that unread replies keep, their limit, and how many clients were ended for it, where the region says it. */
  readonly unread?: { readonly bytes: number; readonly ended: number; readonly limit: number };
  /** How long lines took, from when they were at hand until they had their replies, and how long rounds, where the region says it. */
  readonly times?: { readonly lines: TimeCounts; readonly rounds: TimeCounts };
}

/** The control socket of a region, as unix:/run/pnuts/control. It reads records, too. */
export class Control extends Client {
  constructor(address: string, options?: Options);
  marks(): Promise<Marks>;
  stats(): Promise<Stats>;
  /** What changed after a number. Where that is nothing, it waits for it this many seconds, at most 60, less than the timeout. */
  notices(since: number, wait?: number): Promise<Notices>;
  /**
   * The changes after a number as they come, or from now on, in a session of its own. Some are missed where it is given no number,
   * and after the connection broke, for the region may have begun anew; it breaks again where that is not there after more tries.
   */
  watch(since?: number): AsyncGenerator<Notices, void, undefined>;
}

/** One region more than bounds: the first has the keys below the first bound, each other those from its bound on. */
export class Regions implements Reads {
  constructor(bounds: readonly string[], clients: readonly Client[]);
  /** The client of the region that has a key. */
  of(key: string): Client;
  get(keys: readonly string[]): Promise<(Record | null)[]>;
  scan(query?: Query): AsyncGenerator<Record, void, undefined>;
}

/** The base of all errors of this package. Of a client of several regions the error is the last one's, with what the others said. */
export class PnutsError extends Error {
  readonly others: readonly { readonly address: string; readonly fault: PnutsError }[];
}
/** The region could not be reached, or the connection ended before the reply. */
export class ConnectionFailed extends PnutsError {}
/** The reply did not come in time. Another try may get it. */
export class TimedOut extends PnutsError {}
/** What came is no reply to what was sent: the other side is no region, or one of another version. */
export class ProtocolError extends PnutsError {}

/** The region refused the line. */
export class Refused extends PnutsError {
  readonly reply: { readonly error: string; readonly [member: string]: unknown };
}
/** The line was at fault, or its `member`. */
export class BadLine extends Refused {
  readonly reason: "too-long" | "not-json" | "bad-shape" | "out-of-range" | "read-only";
  readonly member?: string;
}
/** A tablet that the answer needs was lost and has not adopted a copy yet. */
export class Recovering extends Refused {
  readonly tablet: number;
}
/** The record of `key` is not there in the version that was required. `has` is its version, null where it is absent. */
export class RecordBehind extends Refused {
  readonly key?: string;
  readonly has: Version | null;
}
/** The copy does not reach what was asked for: of `stream` it has `has`, and `wanted` was wanted. */
export class CopyBehind extends Refused {
  readonly stream: string;
  readonly has: number;
  readonly wanted: number;
}
/** The reader was not let into a tablet. Another try may be. */
export class NoEntry extends Refused {}
/** The region had no memory for the answer. Another try may get it. */
export class OutOfMemory extends Refused {}
