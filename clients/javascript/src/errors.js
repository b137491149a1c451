// What a call fails with, as index.d.ts says of each: what the region refused, and what went wrong on the way to it.

export class PnutsError extends Error {
  others = [];

  get name() {
    return this.constructor.name;
  }
}

export class ConnectionFailed extends PnutsError {}
export class TimedOut extends PnutsError {}
export class ProtocolError extends PnutsError {}

export class Refused extends PnutsError {
  constructor(reply) {
    const { error, ...members } = reply;
    super([error, ...Object.entries(members).map(([name, member]) => `${name} ${member}`)].join(", "));
    this.reply = reply;
  }
}

export class BadLine extends Refused {
  constructor(reply) {
    super(reply);
    this.reason = reply.error;
    this.member = reply.member;
  }
}

/** Refusals that have these members of the reply. */
const refusalWith = (...members) =>
  class extends Refused {
    constructor(reply) {
      super(reply);
      members.forEach((name) => (this[name] = reply[name]));
    }
  };

export class Recovering extends refusalWith("tablet") {}
export class RecordBehind extends refusalWith("has") {
  constructor(reply, key) {
    super(reply);
    this.key = key;
  }
}
export class CopyBehind extends refusalWith("stream", "has", "wanted") {}
export class NoEntry extends Refused {}
export class OutOfMemory extends Refused {}
