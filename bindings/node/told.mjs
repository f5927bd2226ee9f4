// What this package throws, and how a sandbox stands: index.d.mts says what each means.
const WHY = ["", "the bytes are no image", "there is no such sandbox", "there is no table of names",
  "the table of names is broken", "the table doesn't have the name"];

export const Cause = Object.freeze({ FETCH: "Fetch", ILLEGAL: "Illegal", BREAK: "Break", LOAD: "Load", STORE: "Store" });
const CAUSES = ["", ...Object.values(Cause)]; // by the numbers of sfi_run.h

export const hexadecimal = (address) => address.toString(16).padStart(8, "0");

export class Refused extends Error {
  constructor(findings, first) {
    const place = `first=V${first.rule} sandbox=${first.sandbox} at=${hexadecimal(first.address)}`;
    super(`rules are broken in the image: findings=${findings} ${place}`);
    Object.assign(this, { findings, first });
  }
}

const FAULTS = ["", "Magic", "Count", "Short", "Code", "Data", "GuardRoom", "Start", "Gates", "Init", "Overlap", "Trailing"];

export class NoImage extends Error {
  constructor(fault) {
    super(`the bytes are no image: layout fault ${fault} ${FAULTS[fault]}`);
    this.fault = fault;
  }
}

export class TooLarge extends Error {
  constructor(sandbox, what, size, most) {
    super(`sandbox ${sandbox} has ${size} bytes of ${what}, and this host takes at most ${most}`);
    Object.assign(this, { sandbox, what, size, most });
  }
}

export class NoName extends Error {
  constructor(name, why) {
    super(`${name}: ${WHY[why] ?? why}`);
    this.why = why;
  }
}

export const Ended = Object.freeze({ NO_FUNCTION: "NoFunction", BUSY: "Busy", TRAPPED: "Trapped", STEPS_USED: "StepsUsed",
  REFUSED: "Refused", STOPPED: "Stopped", GONE: "Gone", TIMED_OUT: "TimedOut", INTERRUPTED: "Interrupted" });
const ENDED = {
  NoFunction: "no bundle or word of the sandbox's code begins there",
  Busy: "the sandbox is in the midst of a run, which `turn` and `events` go on with, and `stop` ends",
  Trapped: "it trapped",
  StepsUsed: "its steps are used (what may take more steps is begun by `enter`, and goes on by `events`)",
  Refused: "it calls a gate, and no handler replied",
  Stopped: "a handler stopped the sandbox",
  Gone: "a handler reset, entered or removed the sandbox, or set its registers",
  TimedOut: "its time is over",
  Interrupted: "it is interrupted",
};

/** What is said of a call that is over: why, and how the sandbox stood, if it is there. */
function whyEnded(cause, event, more) {
  if (cause === Ended.TRAPPED) return `${ENDED[cause]}, ${event.cause} at ${hexadecimal(event.address)}`;
  if (cause === Ended.REFUSED) return `${ENDED[cause]} (service ${event.service} at ${hexadecimal(event.pc)}${more})`;
  return ENDED[cause];
}

export class NotReturned extends Error {
  /** `now` says of the sandbox how it stands since, and `more` of the call that it was refused. */
  constructor(what, cause, event, now, more = "") {
    super(now ? `${what} is over: ${whyEnded(cause, event, more)}. Of the sandbox: ${now}` : `${what} didn't begin: ${ENDED[cause]}`);
    Object.assign(this, { cause, event });
  }
}

export class WrongArguments extends TypeError {
  constructor(functionName, signature, given, why) {
    super(`${functionName}${signature}: ${why}`);
    Object.assign(this, { functionName, signature, given, why });
  }
}

export class TooLong extends RangeError {
  constructor(functionName, size, room) {
    super(`${functionName}: texts and bytes take ${size} bytes of the sandbox's stack, and may take ${room}`);
    Object.assign(this, { functionName, size, room });
  }
}

export class WrongSignature extends Error {
  constructor(functionName, stated, claimed) {
    super(`${functionName}: the host states ${stated}, and the image claims ${claimed}`);
    Object.assign(this, { functionName, stated, claimed });
  }
}

/** What `serve` throws where it refuses a call, with the reason. */
export class Refusal extends Error {}

export class OutsideData extends Error {}
export class NotWaiting extends Error {}
export class NotEntered extends Error {}
export class NotRunning extends Error {}
export class Meets extends Error {}
export class NotTaken extends Error {}
export class WrongSnapshot extends Error {}

export class Ready {}
export class Stopped {}

export class Exited {
  constructor(number) {
    this.number = number;
  }
}

export class Trapped {
  constructor(cause, address) {
    Object.assign(this, { cause, address });
  }
}

export class Call {
  #sandbox;
  #stands;

  /** Of struct sfi_run_event. `stands` tells whether the sandbox hasn't gone on since. */
  constructor([, service, gate, pc, a0, a1, a2, a3, a4, a5, a6, a7], sandbox, stands) {
    Object.assign(this, { service, a0, a1, a2, a3, a4, a5, a6, a7, gate, pc });
    this.#sandbox = sandbox;
    this.#stands = stands;
  }

  get sandbox() {
    return this.#sandbox;
  }

  get isWaiting() {
    return this.#stands();
  }

  reply(a0, a1 = this.a1) {
    this.#now().reply(a0, a1);
  }

  exit(number) {
    this.#now().exit(number);
  }

  #now() {
    if (!this.isWaiting) throw new NotWaiting(`sandbox ${this.#sandbox.number} no longer stands at this call`);
    return this.#sandbox;
  }
}

/** How a sandbox stands, by the words of struct sfi_run_event. */
export function eventOf(kind, told, sandbox, stands) {
  if (kind === 1) return new Ready();
  if (kind === 2) return new Call(told, sandbox, stands);
  if (kind === 3) return new Exited(told[1]);
  if (kind === 4) return new Trapped(CAUSES[told[1]], told[4]);
  if (kind === 5) return new Stopped();
  throw new Error(`the library answered with an event of kind ${kind}, which this package doesn't know`);
}
