// Worlds and their sandboxes, over the calls of sfi_run.h: index.d.mts says what each does.
import { argument, bytesOf, counted, optionsOf, word } from "./given.mjs";
import { NoMemory, usualLibrary } from "./library.mjs";
import { Limit, TURN } from "./limit.mjs";
import { Call, Ended, Exited, Meets, NoImage, NoName, NotEntered, NotReturned, NotRunning, NotWaiting, OutsideData, Ready, Refusal,
  Refused, Stopped, Trapped, eventOf, hexadecimal } from "./told.mjs";

export const EXIT = 0; // the service
const SMALL = 1 << 20; // bytes for which there is room, also where the data have fewer
const ARGUMENTS = 8;
const LONGEST_NAME = 255;
const REGISTERS = 33; // words of struct sfi_run_registers
const CALLABLE = "it has stopped, and can be called";
const BACK = "it stands again at the call at which it was called";
export const STRUCT_BYTES = 16; // of struct sfi_run_world, which begins as zeros, and struct sfi_run_console

/** Has `count` words stand in the passage: these numbers, as `taken` takes them, and then zeros. */
function passWords(library, numbers, count = numbers.length, taken = word) {
  const at = library.passage(4 * count);
  const words = library.words(count, at).fill(0);
  numbers.forEach((number, index) => { words[index] = taken(number); });
  return at;
}

/** What frees a struct by a call of the library, and the block that it begins. */
export const freeing = (library, call, at) => () => {
  library.calls[call](at);
  library.give(at);
};

/** Frees what nothing refers to any more, between tasks of node's: so never during a call. */
export const dropped = new FinalizationRegistry((free) => free());

/** What struct sfi_verdict says of a status. */
function fault(status, [, layoutFault, , , findings, sandbox, address, rule]) {
  if (status === 1) return new Refused(findings, { sandbox, address, rule });
  if (status === 2) return new NoImage(layoutFault);
  if (status === 3) return new NoMemory("there was no memory for the world of the image");
  return new Error(`the library answered with status ${status}, which this package doesn't know`);
}

/** Has a call make something of an image in the struct at that address, or frees it by another and throws why there is none. */
export function make(library, call, freed, at, image) {
  const status = library.calls[call](...image, at, library.told);
  if (status === 0) return;
  freeing(library, freed, at)();
  throw fault(status, library.words(8));
}

/** What the sandboxes of a world share. Where the library has the world, the image's bytes follow: it is asked for names. */
export class Held {
  /** That of an image's bytes. */
  static of(library, image) {
    const bytes = bytesOf(image);
    const at = library.put(bytes, STRUCT_BYTES);
    const placed = [at + BigInt(STRUCT_BYTES), BigInt(bytes.length)];
    make(library, "load", "free", at, placed);
    return new Held(library, at, placed);
  }

  /** A world that is there, and where its image's bytes are, which `keeps` has, if they don't follow it. */
  constructor(library, at, image, keeps) {
    this.at = at;
    this.library = library;
    this.free = freeing(library, "free", at);
    this.isOpen = true;
    this.moves = 0; // each reply, stop and entry has its number
    this.limit = undefined; // that of the call whose handler runs
    this.seats = [];
    this.image = image;
    this.seat(image, keeps);
    dropped.register(this, this.free, this);
  }

  /** Takes note of the sandboxes of an image that have no seat yet, and gives the seats: what the objects of each share. */
  seat(image, keeps) {
    const first = this.seats.length;
    const count = Number(this.library.calls.count(this.at));
    for (let number = first; number < count; number++) {
      // goneOn: its last reply, stop or entry. entered: how it came to the pc and registers that it has, also by a reset. before: how
      // many steps it had done where it was restored, less those that the library counts since
      this.seats.push({ number, place: number - first, image, keeps, goneOn: 0, entered: 0, before: 0n });
    }
    return this.seats.slice(first);
  }

  /** Takes note that a sandbox was entered, reset or removed, or that its registers were set. */
  enter(seat) {
    seat.goneOn = ++this.moves;
    seat.entered = seat.goneOn;
  }

  /** Where its number is no more what it was, its object knows. */
  remove(seat) {
    this.enter(seat);
    this.seats.splice(seat.number, 1);
    this.seats.forEach((other, number) => { other.number = number; });
  }

  has(seat) {
    return this.seats[seat.number] === seat;
  }

  close() {
    if (!this.isOpen) return;
    this.isOpen = false;
    this.seats.forEach((seat) => this.enter(seat));
    this.seats = [];
    dropped.unregister(this);
    this.free();
  }
}

export const heldBy = new WeakMap(); // what a world holds, and what a module does
export const seatOf = new WeakMap(); // of a sandbox

/** The bytes of a module's image, or of that of which a world was made. */
export function imageOf(holder) {
  const { library, image: [at, length], isOpen } = heldBy.get(holder);
  if (!isOpen) throw new RangeError("the world or the module is closed");
  return library.copy(at, Number(length));
}

/** Throws why a call of the library changed nothing of a world, if so. */
function changes(status) {
  if (status === 4) throw new Meets("a sandbox of the module would lie where one of the world does");
  if (status === 5 || status === 6) throw new NoMemory("there was no memory, or no number left, for a sandbox more");
  if (status !== 0) throw new Error(`the library answered with status ${status}, which this package doesn't know`);
}

export class World {
  constructor(held) {
    heldBy.set(this, held);
  }

  get sandboxes() {
    const held = heldBy.get(this);
    return held.seats.map((seat) => new Sandbox(held, seat));
  }

  add(module) {
    const held = heldBy.get(this);
    const { library, at, image, isOpen } = heldBy.get(module);
    if (!held.isOpen || !isOpen || library !== held.library) {
      throw new RangeError("the world or the module is closed, or the module is one of another library");
    }
    changes(library.calls.add(held.at, at, library.told));
    return held.seat(image, module).map((seat) => new Sandbox(held, seat));
  }

  remove(sandbox) {
    const held = heldBy.get(this);
    const seat = seatOf.get(sandbox);
    if (!held.has(seat)) throw new RangeError("the sandbox isn't one of this world, or no more");
    changes(held.library.calls.remove(held.at, seat.number));
    held.remove(seat);
  }

  close() {
    heldBy.get(this).close();
  }

  [Symbol.dispose]() {
    this.close();
  }
}

export async function load(image, library) {
  return new World(Held.of(library ?? await usualLibrary(), image));
}

const outside = (at, count) => new OutsideData(`${count} bytes at ${hexadecimal(at)}`);

/** Runs a sandbox through its start, which has to exit: what `Sandbox.call` does of a function that is entered. */
export let finishStart;
/** Both words of what a function answers: `Sandbox.call64` with these options, where `prepare` is called when the function is entered
 * and nothing of it has run. */
export let callFunction;
/** Has a sandbox that is entered go on with these registers, which is no other entry. Whether it can. */
export let resume;
/** The entries of an image's table, as `export_at` or `import_at` gives them: the name and number at an index, if there is one. */
export let entryAt;
/** How many steps a sandbox has done, as a bigint. */
export let doneBy;
/** Has a sandbox have done so many steps. */
export let countFrom;

export class Sandbox {
  #held;
  #seat;

  constructor(held, seat) {
    this.#held = held;
    this.#seat = seat;
    seatOf.set(this, seat);
  }

  get number() {
    return this.#seat.number;
  }

  #open() {
    if (!this.#held.has(this.#seat)) throw new RangeError(this.#held.isOpen ? "the sandbox is removed" : "the world is closed");
    return this.#held;
  }

  #call(name, ...words) {
    const { library, at } = this.#open();
    return library.calls[name](at, this.#seat.number, ...words);
  }

  /** Whether a call did what it is for, after which a Call that was told before is no more. */
  #changed(name, ...words) {
    const isDone = this.#call(name, ...words) !== 0;
    if (isDone) this.#seat.goneOn = ++this.#held.moves;
    return isDone;
  }

  /** The same of a call that enters it. */
  #entered(name, ...words) {
    const isDone = this.#changed(name, ...words);
    if (isDone) this.#held.enter(this.#seat);
    return isDone;
  }

  #told(name, ...words) {
    const held = this.#open();
    const kind = this.#call(name, ...words, held.library.told);
    const told = held.library.words(12);
    const { goneOn } = this.#seat;
    return eventOf(kind, told, this, () => this.#seat.goneOn === goneOn);
  }

  turn(steps) {
    return this.#told("turn", word(steps));
  }

  until(stops, steps) {
    const at = passWords(this.#open().library, stops);
    return this.#told("until", at, BigInt(stops.length), word(steps));
  }

  get event() {
    return this.#told("event");
  }

  events(steps, limits) {
    return this.#events(counted(steps) + this.#counted, new Limit(limits));
  }

  *#events(end, limit) {
    for (let now = this.#counted; ; now = this.#counted) {
      const { isOver } = limit;
      let event = this.turn(isOver ? 0 : Math.min(Math.max(0, end - now), TURN));
      if (event instanceof Ready || event instanceof Call) {
        now = this.#counted;
        if (event instanceof Ready && now < end && !isOver) continue; // there were more steps than this turn takes
        if (now >= end || isOver) event = new Ready();
      }
      yield event;
      if (!(event instanceof Call) || event.isWaiting) return;
    }
  }

  run(steps, serve, limits) {
    let last;
    for (const event of this.events(steps, limits)) {
      last = event;
      if (event instanceof Call) serve?.(event);
    }
    return last;
  }

  reply(a0, a1) {
    if (!this.#changed("reply", word(a0), word(a1))) throw new NotWaiting(`sandbox ${this.number} stands at no call`);
  }

  exit(number) {
    if (!this.#changed("exit", word(number))) throw new NotWaiting(`sandbox ${this.number} stands at no call`);
  }

  read(at, count) {
    if (!Number.isInteger(count) || count < 0 || !this.#mayHave(count)) throw outside(at, count);
    const { library } = this.#open();
    const room = library.passage(count);
    if (!this.#call("read", word(at), BigInt(count), room, BigInt(count))) throw outside(at, count);
    return library.copy(room, count);
  }

  write(at, data) {
    const bytes = bytesOf(data);
    const count = bytes.length;
    if (!this.#mayHave(count) || !this.#call("write", word(at), this.#open().library.pass(bytes), BigInt(count))) throw outside(at, count);
  }

  stop() {
    if (!this.#changed("stop")) throw new NotRunning(`sandbox ${this.number} has stopped already`);
  }

  reset() {
    this.#entered("reset");
    this.#seat.before = 0n;
  }

  /** Whether its data may have so many bytes: nothing larger is made room for. */
  #mayHave(count) {
    return count <= SMALL || count <= this.data.size;
  }

  /** a0 to a7, in the passage. Those that are left are 0. */
  #arguments(given) {
    if (given.length > ARGUMENTS) throw new RangeError("there are at most eight arguments");
    return passWords(this.#open().library, given, ARGUMENTS, argument);
  }

  enter(pc, given = []) {
    if (!this.#entered("enter", word(pc), this.#arguments(given))) {
      throw new NotEntered(`sandbox ${this.number} can't be entered at ${hexadecimal(pc)}`);
    }
  }

  call(at, ...given) {
    return this.#called(at, given)[0];
  }

  call64(at, ...given) {
    const [low, high] = this.#called(at, given);
    return (BigInt(high) << 32n) | BigInt(low);
  }

  #called(at, given) {
    const options = optionsOf(given);
    const frame = this.#begin(word(typeof at === "string" ? this.export(at) : at), given);
    return this.#finish(frame, options);
  }

  /** The name and number that a call of the library finds at an index. */
  #entryAt(call, index) {
    const { library } = this.#open();
    const { image, place } = this.#seat;
    const room = library.passage(LONGEST_NAME);
    if (library.calls[call](...image, place, index, room, library.told, library.told + 4n) !== 0) return undefined;
    const [length, number] = library.words(2);
    return { entry: Buffer.from(library.copy(room, length)).toString("latin1"), number };
  }

  /** Enters a function. Its frame: what is run, how the sandbox was entered for it, what is said of the sandbox after a failure,
   * and if that was at a call, what it found there. Where it can't be entered, nothing changes. */
  #begin(pc, given) {
    const { library } = this.#open();
    const at = this.#arguments(given);
    const seat = this.#seat;
    const found = { goneOn: seat.goneOn, entered: seat.entered };
    const what = `the call of ${hexadecimal(pc)} in sandbox ${this.number}`;
    if (this.#entered("enter", pc, at)) return { what, entered: seat.entered, after: CALLABLE };
    if (this.#entered("call_back", pc, at, library.told)) {
      return { what, entered: seat.entered, after: BACK, found, kept: library.words(REGISTERS).slice() };
    }
    const { event } = this;
    throw new NotReturned(what, event instanceof Ready ? Ended.BUSY : Ended.NO_FUNCTION, event);
  }

  static {
    finishStart = (sandbox, given) => {
      const frame = { what: `the start in sandbox ${sandbox.number}`, entered: sandbox.#seat.entered, after: "it has stopped" };
      sandbox.#finish(frame, optionsOf([given]));
    };
    callFunction = (sandbox, pc, words, given, prepare) => {
      const options = optionsOf([given]);
      return sandbox.#finish(sandbox.#begin(word(pc), words), options, prepare);
    };
    resume = (sandbox, { pc, x }) => sandbox.#call("set_registers", passWords(sandbox.#open().library, [pc, ...x])) !== 0;
    entryAt = (sandbox, call, index) => sandbox.#entryAt(call, index);
    doneBy = (sandbox) => BigInt.asUintN(64, sandbox.#call("steps") + sandbox.#seat.before);
    countFrom = (sandbox, steps) => { sandbox.#seat.before = steps - sandbox.#call("steps"); };
  }

  /** The two words of what the frame answers. However it ends, it is over then. */
  #finish(frame, options, prepare) {
    const held = this.#held;
    const { limit } = options;
    limit.around = held.limit;
    held.limit = limit;
    try {
      prepare?.();
      return this.#result(frame, options);
    } finally {
      held.limit = limit.around;
      this.#end(frame);
    }
  }

  #result(frame, { steps, serve, limit }) {
    let last;
    let high = 0;
    for (const event of this.#events(steps + this.#counted, limit)) {
      last = event;
      if (!(event instanceof Call)) break;
      if (event.service === EXIT) {
        high = event.a1;
        event.exit(event.a0);
      } else if (serve) {
        this.#serve(frame, event, serve);
        if (this.#isGone(frame)) throw this.#failure(frame, Ended.GONE, this.#held.has(this.#seat) ? this.event : undefined);
      }
    }
    if (last instanceof Exited) return [last.number, high];
    if (last instanceof Ready) throw this.#failure(frame, limit.cause ?? Ended.STEPS_USED, last);
    if (last instanceof Trapped) throw this.#failure(frame, Ended.TRAPPED, last);
    throw this.#failure(frame, last instanceof Stopped ? Ended.STOPPED : Ended.REFUSED, last);
  }

  #serve(frame, call, serve) {
    try {
      serve(call);
    } catch (error) {
      if (!(error instanceof Refusal)) throw error;
      throw this.#failure(frame, Ended.REFUSED, call, `, ${error.message}`);
    }
  }

  /** Whether a handler entered the sandbox for something else: of the frame nothing is left then. */
  #isGone(frame) {
    return this.#seat.entered !== frame.entered;
  }

  /** Has the sandbox stand at the call again at which it was called, or else stop. */
  #end(frame) {
    if (!this.#held.has(this.#seat)) return;
    if (!frame.kept || this.#isGone(frame)) {
      this.#changed("stop");
    } else {
      this.#call("set_registers", passWords(this.#held.library, frame.kept));
      Object.assign(this.#seat, frame.found);
    }
  }

  #failure({ what, after }, cause, event, more) {
    const now = cause === Ended.GONE ? CALLABLE : after;
    return new NotReturned(what, cause, event, event ? now : "it is no longer there", more);
  }

  get steps() {
    return Number(doneBy(this));
  }

  /** How many of them the library counts: those before it was restored aren't among them. */
  get #counted() {
    return Number(BigInt.asUintN(64, this.#call("steps")));
  }

  get registers() {
    this.#call("registers", this.#open().library.told);
    const [pc, ...x] = this.#held.library.words(REGISTERS);
    return { pc, x };
  }

  set registers({ pc, x }) {
    if (x.length !== 32) throw new RangeError(`${x.length} registers, not 32`);
    if (!this.#entered("set_registers", passWords(this.#open().library, [pc, ...x]))) {
      throw new NotEntered(`sandbox ${this.number} can't go on with these registers`);
    }
  }

  get pc() {
    return this.registers.pc;
  }

  get data() {
    this.#call("data", this.#open().library.told);
    const [base, size] = this.#held.library.words(2);
    return { base, size };
  }

  /** What the image's table says: the call, and the name where it takes one. */
  #named(call, name) {
    const { library } = this.#open();
    const { image, place } = this.#seat;
    const text = new TextEncoder().encode(name ?? "");
    const words = name === undefined ? [] : [library.pass(text), BigInt(text.length)];
    const why = library.calls[call](...image, place, ...words, library.told);
    if (why !== 0) throw new NoName(name ?? "the version", why);
    return library.words(1)[0];
  }

  export(name) {
    return this.#named("export", name);
  }

  imported(name) {
    return this.#named("import", name);
  }

  get api() {
    return this.#named("api");
  }
}
