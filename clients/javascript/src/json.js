// JSON with whole numbers of 64 bits: one that is no safe integer is a BigInt.

const LONG = /[:,[]-?\d{16}/;
const TOKEN = /"(?:[^"\\]|\\.)*"|-?(?:0|[1-9]\d*)(?:\.\d+)?(?:[eE][-+]?\d+)?|true|false|null|[{}[\]:,]/y;

/** The value of a text. That of another reader where it has no long number. */
export function parse(text) {
  return LONG.test(text) ? new Reader(text).whole() : JSON.parse(text);
}

/** A surrogate that stands alone. */
const ALONE = /\p{Surrogate}/u;

/**
 * The text of a value. A number that a double has not for certain is refused, as its text may be that of another, and so is a text
 * that is no UTF-8.
 */
export function stringify(value) {
  if (typeof value === "bigint") {
    return value.toString();
  }
  if (Array.isArray(value)) {
    return `[${value.map(stringify).join(",")}]`;
  }
  if (typeof value === "object" && value !== null) {
    const members = Object.entries(value).filter(([, member]) => member !== undefined);
    return `{${members.map(([name, member]) => `${JSON.stringify(name)}:${stringify(member)}`).join(",")}}`;
  }
  if (typeof value === "number" && !Number.isSafeInteger(value)) {
    throw new RangeError(`no safe integer, nor a BigInt: ${value}`);
  }
  if (ALONE.test(value)) {
    throw new RangeError(`no UTF-8: ${JSON.stringify(value)}`);
  }
  return JSON.stringify(value);
}

class Reader {
  #text;
  #at = 0;

  constructor(text) {
    this.#text = text;
  }

  whole() {
    const value = this.#value(this.#token());
    if (this.#at < this.#text.length) {
      throw new SyntaxError("something follows the value");
    }
    return value;
  }

  #token() {
    TOKEN.lastIndex = this.#at;
    const token = TOKEN.exec(this.#text)?.[0];
    if (token === undefined) {
      throw new SyntaxError(`no JSON at ${this.#at}`);
    }
    this.#at += token.length;
    return token;
  }

  #value(token) {
    if (token === "[") {
      return this.#items("]", (items, first) => items.push(this.#value(first)), []);
    }
    if (token === "{") {
      return this.#items("}", (members, first) => this.#member(members, first), {});
    }
    const value = JSON.parse(token);
    return typeof value === "number" && /^-?\d+$/.test(token) && !Number.isSafeInteger(value) ? BigInt(token) : value;
  }

  /** What is in brackets, each item from its first token on. */
  #items(end, take, items) {
    let token = this.#token();
    if (token === end) {
      return items;
    }
    for (;;) {
      take(items, token);
      const separator = this.#token();
      if (separator === end) {
        return items;
      }
      if (separator !== ",") {
        throw new SyntaxError(`no separator at ${this.#at}`);
      }
      token = this.#token();
    }
  }

  #member(members, first) {
    const name = JSON.parse(first);
    if (typeof name !== "string" || this.#token() !== ":") {
      throw new SyntaxError(`no member at ${this.#at}`);
    }
    // Defined, as an assignment to `__proto__` makes no member.
    const value = this.#value(this.#token());
    Object.defineProperty(members, name, { value, configurable: true, enumerable: true, writable: true });
  }
}
