// Where a region is: TCP, TLS over TCP, or a Unix socket; and the sessions of one there, each with any number of lines in flight.

import { isUtf8 } from "node:buffer";
import net from "node:net";
import tls from "node:tls";
import { ConnectionFailed, ProtocolError, TimedOut } from "./errors.js";
import { parse } from "./json.js";

const DEFAULT_PORT = 7070;

/** Where tcp://HOST:PORT, tls://HOST:PORT or unix:PATH is, as node:net takes it. */
export function addressOf(text) {
  const path = /^unix:(?:\/\/)?(.+)$/s.exec(text)?.[1];
  if (path !== undefined) {
    return { path };
  }
  const [, scheme, host, port] = /^(tcp|tls):\/\/(\[[\d:.a-f]+\]|[^/:?#@[\]]+)(?::(\d+))?$/i.exec(text) ?? [];
  if (host === undefined || Number(port) > 65535) {
    throw new TypeError(`no address of a region: ${text}`);
  }
  return { host: host.replace(/[[\]]/g, ""), port: Number(port ?? DEFAULT_PORT), isTls: scheme === "tls" };
}

/** Opens a socket there. For TLS the configuration is as node:tls takes it, by default the machine's own certificates. */
export function connect(address, configuration) {
  const { isTls, ...where } = { ...address, noDelay: true, autoSelectFamily: address.host !== undefined };
  if (isTls) {
    return tls.connect({ servername: net.isIP(where.host) ? "" : where.host, ...where, ...configuration });
  }
  return net.connect(where);
}

/** For more milliseconds than this no timer can be set. */
const MAX_TIMER = 2 ** 31 - 1;

/** A session, with any number of lines in flight. */
export class Connection {
  #socket;
  #pipeline = new Pipeline();
  #unsent = [];
  /** Why it ended, once it has. */
  fault;

  constructor(address, configuration) {
    this.#socket = connect(address, configuration);
    this.#socket.on("data", (data) => this.#receive(data));
    this.#socket.on("error", (fault) => this.end(new ConnectionFailed(`the connection broke: ${fault.message}`, { cause: fault })));
    this.#socket.on("close", () => this.end(new ConnectionFailed("the region closed the connection")));
  }

  /** How many lines are in flight, none once it has ended. */
  get size() {
    return this.#pipeline.size;
  }

  /**
   * The reply to a line, within milliseconds. A call that gives up is still counted among those that wait, so that each
   * later reply goes to its own call. Where nothing came meanwhile, the connection ends.
   */
  ask(line, hasLines, milliseconds) {
    return new Promise((resolve, reject) => {
      const before = this.#pipeline.lines;
      const giveUp = () => {
        reject(new TimedOut("no reply in time"));
        if (this.#pipeline.lines === before) {
          this.end(new ConnectionFailed("nothing came for as long as a call waits"));
        }
      };
      const timer = milliseconds < MAX_TIMER ? setTimeout(giveUp, milliseconds) : undefined;
      const once = (settle) => (value) => {
        clearTimeout(timer);
        settle(value);
      };
      this.#pipeline.send({ hasLines, resolve: once(resolve), reject: once(reject) });
      this.#send(line);
    });
  }

  /** Ends the session. Calls without a reply fail with the first fault. */
  end(fault) {
    this.fault ??= fault;
    this.#socket.destroy();
    const { constructor, message } = this.fault;
    // Each call has its own, as it is told what other regions said.
    this.#pipeline.abandon().forEach((call) => call.reject(new constructor(message, { cause: this.fault })));
  }

  /** Lines that are asked for together go out together. */
  #send(line) {
    if (this.#unsent.push(line) === 1) {
      process.nextTick(() => this.#socket.write(this.#unsent.splice(0).join("")));
    }
  }

  #receive(data) {
    try {
      this.#pipeline.receive(data);
    } catch (fault) {
      this.end(fault);
    }
  }
}

const NEWLINE = 10;

/** How many bytes of a line make the other side no region. A page of 1,000 rows has fewer. */
const MAX_LINE = 64 * 1024 * 1024;

/** Calls in the order of their lines. Each has `resolve`, for its reply, and `hasLines` where lines of text follow that. */
export class Pipeline {
  #sent = new Set();
  /** How many lines came. */
  lines = 0;
  /** Pieces of a line whose end has not come, and their bytes. */
  #part = [];
  #size = 0;
  /** The lines of a copy that is under way, and how many are still to come. */
  #text = [];
  #left = 0;

  /** How many lines are in flight. */
  get size() {
    return this.#sent.size;
  }

  send(call) {
    this.#sent.add(call);
  }

  /** The calls that have no reply, which they will not get any more. */
  abandon() {
    const calls = [...this.#sent];
    this.#sent.clear();
    return calls;
  }

  /** Gives their replies to the calls for which these bytes complete one. */
  receive(data) {
    const end = data.lastIndexOf(NEWLINE) + 1;
    if (end > 0) {
      this.#takeLines(this.#part.length > 0 ? Buffer.concat([...this.#part, data.subarray(0, end)]) : data.subarray(0, end));
      this.#part = [];
      this.#size = 0;
    }
    if (end < data.length) {
      this.#part.push(data.subarray(end));
      this.#size += data.length - end;
    }
    if (this.#size > MAX_LINE) {
      throw new ProtocolError("a reply does not end");
    }
  }

  #takeLines(text) {
    for (let start = 0, end; start < text.length; start = end) {
      end = text.indexOf(NEWLINE, start) + 1;
      this.lines += 1;
      this.#takeLine(text.subarray(start, end));
    }
  }

  #takeLine(line) {
    const [call] = this.#sent;
    if (call === undefined) {
      throw new ProtocolError("a reply came to no line");
    }
    let reply;
    if (this.#left > 0) {
      this.#text.push(line);
      this.#left -= 1;
      reply = { text: Buffer.concat(this.#left === 0 ? this.#text : []) };
    } else {
      reply = replyOf(line);
      this.#left = call.hasLines ? linesOf(reply) : 0;
      this.#text = [];
    }
    if (this.#left === 0) {
      this.#sent.delete(call);
      call.resolve(reply);
    }
  }
}

function replyOf(line) {
  if (!isUtf8(line)) {
    throw new ProtocolError("a reply is no UTF-8");
  }
  try {
    return parse(line.toString("utf8", 0, line.length - 1));
  } catch (fault) {
    throw new ProtocolError("a reply is no JSON", { cause: fault });
  }
}

/** How many lines of text follow a reply, 0 after a refusal. */
function linesOf(reply) {
  if (typeof reply?.error === "string") {
    return 0;
  }
  if (!(reply?.lines > 0)) {
    throw new ProtocolError("no reply to a copy");
  }
  return reply.lines;
}

/** The connections to one region. */
export class Pool {
  #address;
  #tls;
  #connections;
  #isClosed = false;
  /** How many sessions it has begun. */
  sessions = 0;

  constructor(address, tls, connections) {
    this.#address = address;
    this.#tls = tls;
    this.#connections = new Array(Math.max(connections, 1)).fill(undefined);
  }

  /** The reply to a line, within milliseconds. */
  ask(line, hasLines, milliseconds) {
    return this.#connection().ask(line, hasLines, milliseconds);
  }

  close() {
    this.#isClosed = true;
    this.#connections.forEach((connection) => connection?.end(new ConnectionFailed("the client was closed")));
  }

  /** The connection with the fewest lines in flight, where one that is not open has none. */
  #connection() {
    if (this.#isClosed) {
      throw new ConnectionFailed("the client was closed");
    }
    const sizes = this.#connections.map((connection) => connection?.size ?? 0);
    const least = sizes.indexOf(Math.min(...sizes));
    if (this.#connections[least]?.fault !== undefined || this.#connections[least] === undefined) {
      this.#connections[least] = new Connection(this.#address, this.#tls);
      this.sessions += 1;
    }
    return this.#connections[least];
  }
}
