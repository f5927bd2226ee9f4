/** Why a sandbox trapped. Accepted code never meets the first two. */
export declare const Cause: {
  readonly FETCH: "Fetch"; readonly ILLEGAL: "Illegal"; readonly BREAK: "Break"; readonly LOAD: "Load"; readonly STORE: "Store";
};
export type Cause = (typeof Cause)[keyof typeof Cause];
/** The version of this package. */
export declare const VERSION: string;
type Bytes = ArrayBuffer | ArrayBufferView;

/** A rule that is broken, 1 for V1 and so on, and where: the sandbox, and the address of the instruction's first byte, or of
 * the bytes that are none; for V9 that of the gate. */
export interface Finding { readonly sandbox: number; readonly address: number; readonly rule: number }

/** An image in which rules are broken `findings` times, the `first` time there. */
export declare class Refused extends Error { readonly findings: number; readonly first: Finding }
/** Bytes that are no image, by the layout's `fault` of that number, 1 to 11. */
export declare class NoImage extends Error { readonly fault: number }
/** A sandbox that has `size` bytes of `what`, of which the host takes `most`. */
export declare class TooLarge extends Error { readonly sandbox: number; readonly what: "code" | "data"; readonly size: number; readonly most: number }
/** A name for which there is no address. `why` is the number by which sfi_run.h tells the reason. */
export declare class NoName extends Error { readonly why: number }
/** Why a call of a function is over without a result: it can't be entered there; its sandbox is in the midst of a run; it
 * trapped; its steps are used; a call of it got no reply; a handler stopped its sandbox; or reset, entered or removed it, or set
 * its registers; its time is over; it is interrupted. */
export declare const Ended: {
  readonly NO_FUNCTION: "NoFunction"; readonly BUSY: "Busy"; readonly TRAPPED: "Trapped"; readonly STEPS_USED: "StepsUsed";
  readonly REFUSED: "Refused"; readonly STOPPED: "Stopped"; readonly GONE: "Gone"; readonly TIMED_OUT: "TimedOut"; readonly INTERRUPTED: "Interrupted";
};
export type Ended = (typeof Ended)[keyof typeof Ended];
/** A call of a function that is over without a result. The `event` is how the sandbox stood when it ended, if it is there. */
export declare class NotReturned extends Error { readonly cause: Ended; readonly event?: Event }
/** Arguments that the signature of a function doesn't take, by their count, type or range. Nothing has run. */
export declare class WrongArguments extends TypeError {
  readonly functionName: string; readonly signature: string; readonly given: readonly unknown[]; readonly why: string;
}
/** Texts and bytes that a call would take to the sandbox, `size` bytes of its stack, where there is room for `room`. Nothing has
 * run. */
export declare class TooLong extends RangeError { readonly functionName: string; readonly size: number; readonly room: number }
/** An image that claims another signature for a name than its host states. */
export declare class WrongSignature extends Error { readonly functionName: string; readonly stated: string; readonly claimed: string }
/** An address that isn't one of the sandbox's data. */
export declare class OutsideData extends Error {}
/** A reply to a sandbox that stands at no call, or no longer at the call that is replied to. */
export declare class NotWaiting extends Error {}
/** An entry into a sandbox that hasn't stopped, or at an address where no bundle or word of its code begins; or registers that
 * it mustn't hold. */
export declare class NotEntered extends Error {}
/** A sandbox that is to be stopped, and has stopped already. */
export declare class NotRunning extends Error {}
/** Sandboxes that are to be added to a world, where one would lie on an address that one of the world's takes up. */
export declare class Meets extends Error {}
/** A world of which no snapshot is taken now: a sandbox has trapped, or stands within a bundle (in words: between the steps of an
 * address), where no host may have it go on. It is taken after some more steps, or at the next call. */
export declare class NotTaken extends Error {}
/** Bytes that are no snapshot of that image. */
export declare class WrongSnapshot extends Error {}
/** There was no memory for what was asked. */
export declare class NoMemory extends Error {}

/** The sandbox can take a turn, and doesn't stand at a call. */
export declare class Ready { private readonly kind: "ready" }
/** The sandbox has stopped, by `stop`. */
export declare class Stopped { private readonly kind: "stopped" }
/** The sandbox has stopped, by `exit`. */
export declare class Exited { readonly number: number }
/** The sandbox has stopped, at an instruction that trapped. The address is that of the access, or else the pc. */
export declare class Trapped { readonly cause: Cause; readonly address: number }

/** The sandbox stands at a call of a gate, and waits for a reply. The service is the gate's; the gate is its place among
 * the sandbox's gates, 0 to 63, and pc is its address. */
export declare class Call {
  readonly service: number;
  readonly a0: number; readonly a1: number; readonly a2: number; readonly a3: number;
  readonly a4: number; readonly a5: number; readonly a6: number; readonly a7: number;
  readonly gate: number;
  readonly pc: number;
  readonly sandbox: Sandbox;
  /** Whether the sandbox still stands at this call. */
  readonly isWaiting: boolean;
  /** Has the sandbox go on after the call in its next turn, with these in a0 and a1. Without an a1 that of the call stays.
   * Throws RangeError where one isn't from 0 to 2^32 - 1: -1 is `-1 >>> 0` here; and NotWaiting. */
  reply(a0: number, a1?: number): void;
  /** Has the sandbox stop at the call, with that number. Throws as `reply` does. */
  exit(number: number): void;
}

export type Event = Ready | Call | Exited | Trapped | Stopped;
/** pc, and the registers x0 to x31. */
export interface Registers { readonly pc: number; readonly x: readonly number[] }
/** The addresses of a sandbox's data. */
export interface Region { readonly base: number; readonly size: number }
/** What ends a run before its steps are used, some ten milliseconds later: that so many milliseconds have passed since it began; and that
 * the signal is aborted (by a handler, or where the loop over events awaits), or the array's first number isn't 0, as a worker sets it
 * that shares its memory. The sandbox can go on then, in the next run. */
export interface Limits { timeout?: number; interrupt?: AbortSignal | Int32Array }
/** The most steps of a call in all, 1,000,000 if none are given, and what replies to its calls of gates of other services. Its limits
 * are those of the calls that `serve` makes, too. */
export interface CallOptions extends Limits { steps?: number; serve?: (call: Call) => void }

/** A sandbox of a world. After it is removed, or the world is closed, every call of it throws RangeError. */
export declare class Sandbox {
  private constructor();
  /** Its number in the world, from 0. */
  readonly number: number;
  /** Runs it for at most `steps` steps, and no further than its next call: how it stands then. An instruction that is done and
   * a call that is replied to are a step each. One that stands at a call already, or has stopped, does none. */
  turn(steps: number): Event;
  /** The same, but the turn ends, too, before an instruction at one of the addresses `stops`. Its first step is made in any
   * case, so that it goes on from a stop. */
  until(stops: readonly number[], steps: number): Event;
  /** How it stands. */
  readonly event: Event;
  /** Runs it for at most `steps` steps in all: yields each call, which is to be replied to before the next event is asked
   * for, and last how it stands then. A call that comes when all steps are used counts as Ready here: it is the first event of
   * the next run. One that isn't replied to is the last event. Steps that the loop's body has the sandbox do count, too. */
  events(steps: number, limits?: Limits): Generator<Event, void, void>;
  /** Such a loop, in which `serve` replies to each call: the last event. */
  run(steps: number, serve?: (call: Call) => void, limits?: Limits): Event;
  /** Replies to the call at which it stands. Throws NotWaiting where it stands at no call. */
  reply(a0: number, a1: number): void;
  /** The other reply: it stops at the call, with that number. */
  exit(number: number): void;
  /** The `count` bytes of its data from address `at` on. Throws OutsideData where one isn't of its data. */
  read(at: number, count: number): Uint8Array;
  /** Writes these bytes into its data from an address on, or none of them and throws OutsideData. */
  write(at: number, data: Bytes): void;
  /** Stops it, whether it is ready or stands at a call: no turn runs it, and it takes no reply. Its data, pc, registers and
   * steps stay, and `enter` may enter it again. Throws NotRunning where it has stopped already. */
  stop(): void;
  /** Takes it back to what it was when its world was made, whatever it did and wherever it stands. */
  reset(): void;
  /** Makes it ready at pc, where it has stopped, with at most eight arguments in a0 to a7 and 0 in those that are left. Throws
   * NotEntered where it hasn't stopped, or no bundle or word of its code begins at pc, and RangeError where an argument is no
   * integer from -2^31 to 2^32 - 1 (a negative one is taken modulo 2^32). */
  enter(pc: number, given?: readonly number[]): void;
  /** Calls a function, by its address or the name of an export: enters it with at most eight arguments, runs it, and answers
   * its result, with which it exits. `serve` may call functions, too: while one waits for its reply, the other runs on its
   * stack, and then it waits again. Throws NoName, and RangeError as `enter` does, before anything runs. Where it doesn't return,
   * NotReturned tells the cause, and the call is over: the sandbox has stopped, with its data as they are, or stands again at
   * the call at which it was called, and the next call of it is right. So it is where `serve` throws, which passes on. */
  call(at: number | string, ...given: [...number[], CallOptions] | number[]): number;
  /** The same of a function whose result has 64 bits. Of one whose result has 32, the upper half is what it leaves in a1. */
  call64(at: number | string, ...given: [...number[], CallOptions] | number[]): bigint;
  /** How many steps it has done. */
  readonly steps: number;
  /** Its pc and registers. Set, they make it ready, whether it was ready, stood at a call or had stopped; x0 stays 0. That
   * throws NotEntered where no bundle or word of its code begins at pc, or a register would hold what it mustn't. */
  registers: Registers;
  /** The address of its next instruction. */
  readonly pc: number;
  /** Where its data lie. */
  readonly data: Region;
  /** The address of a function to call, or of an object of the data, as the image says. Throws NoName where there is none. */
  export(name: string): number;
  /** The address of a gate, at which pc is when it is called. Throws NoName where there is none. */
  imported(name: string): number;
  /** The version of the host's interface for which the code is made. Throws NoName where there is no table. */
  readonly api: number;
}

/** The sandboxes of an image, to which those of others may be added. It is freed by `close`, or when nothing refers to it any more. */
export declare class World {
  private constructor();
  /** Of one image 1 to 16; none once the world is closed. */
  readonly sandboxes: Sandbox[];
  /** Adds the sandboxes of a module, beside those that are there, of which nothing changes: these new ones, each ready at its start,
   * with the numbers after theirs. Throws Meets, NoMemory, and RangeError where one is closed; nothing changes then. */
  add(module: Module): Sandbox[];
  /** Removes a sandbox, whatever it did: what it had is gone. Those of higher numbers have a number less by one then, which
   * their objects know. Throws RangeError where it isn't there, and NoMemory; nothing changes then. A Console has to be made anew. */
  remove(sandbox: Sandbox): void;
  /** Frees the world. */
  close(): void;
  [Symbol.dispose](): void;
}

/** Checks the image's own bytes, and makes the world of its sandboxes, each ready at its start. Throws Refused or NoImage where
 * it isn't accepted, NoMemory where there is no memory for it, and TypeError where it is no bytes. */
export declare function load(image: Bytes, library?: Library): Promise<World>;

/** The module sfi_run.wasm with a memory of its own, which the worlds share that are loaded with it. */
export declare class Library {
  private constructor();
  /** The module of that path, or the one that SFI_RUN_MODULE names, or the one beside this file. */
  static load(path?: string | URL): Promise<Library>;
}

/** What a function takes and gives, as an image claims it of its exports and imports, or its host states it: `(ii)i` is that of two
 * signed integers, which gives a third. Between the parentheses there is a letter for each parameter, and after them that of the
 * result:
 *
 * y, c   an integer of 8 bits, signed and unsigned: a number from -128 to 127, and from 0 to 255
 * h, k   an integer of 16 bits: a number from -32768 to 32767, and from 0 to 65535
 * t      a bool: a boolean. What a sandbox gives is true unless its lowest 8 bits are 0
 * i, u   an integer of 32 bits, signed and unsigned: a number from -2^31 to 2^32 - 1 for both, or a boolean
 * l, m   an integer of 64 bits, signed and unsigned: a bigint, or a number that is exact
 * f, d   a float and a double: a number
 * p      an address: a number from 0 to 2^32 - 1
 * s      a text that ends in a byte 0: a string, in UTF-8. As a result null is the address 0
 * b      bytes that are read, and their number: what has bytes; not as a result
 * w      bytes that are read and written, and their number: what has bytes; not as a result
 * v      nothing: undefined; only as a result
 *
 * A parameter takes one register, or two (l, m, d, b and w), and a function has at most eight. What a sandbox gives of 8 or 16 bits is
 * what the lowest bits of the register say. What an image claims may be false: then calls go wrong, and nothing gets out of the
 * sandbox. But by it the image chooses of which types a handler's values are, unless the host states signatures. */
export type Signature = string;
/** What goes into a function by its signature; without one a number. */
export type Value = number | bigint | boolean | string | Bytes;

/** Gets each call of the gate of its name. By its import's signature it gets the values, bytes as a Uint8Array, and answers the
 * result's: for a text an address of the sandbox's, or null. What it leaves in a buffer (w) is written back. A call with a text or
 * bytes that don't lie in the sandbox's data is refused, and one beyond the 16 bytes of these that a run's handlers get for each step
 * that it may take. Without a signature it is a CallHandler. */
export type Handler = (...given: any[]) => number | bigint | boolean | readonly [number, number] | void | null;
/** Gets the Call, and answers its result: of an integer the lowest 32 bits, 64 bits as a pair [low, high], or 0; nothing that counts,
 * once it has replied by `call.reply`. */
export type CallHandler = (call: Call) => number | boolean | readonly [number, number] | void | null;
/** The handler, which gets the Call where its import has a signature, too. */
export declare function byCall(handler: CallHandler): Handler;

/** What a plug-in is loaded with: the sandbox's number, 0 if none is given; the most steps of a call, and its limits; handlers by the names of imports;
 * and signatures that the host states, of exports and imports: with them, also {}, no claim of the image holds, and names that they
 * don't have go by words. Where the plug-in is a stranger's, state them. */
export interface PluginOptions extends Limits {
  number?: number; steps?: number; handlers?: Record<string, Handler>; signatures?: Record<string, Signature>;
}

/** A sandbox of an image of its own, whose names and signatures are what the image says of itself. An export that has a signature takes
 * its values. Arguments of another count, type or range throw WrongArguments, and texts and bytes that don't fit TooLong: both before
 * anything runs. Texts and bytes are copied onto the sandbox's stack, where they stay as long as the call, and may take half of what
 * is left of it, or 1024 bytes where the image doesn't say how much it has. What the sandbox leaves in a buffer (w) is copied back when
 * the call returns. A text that it gives is read up to its byte 0; OutsideData tells that it doesn't lie in its data. */
export declare class Plugin {
  private constructor();
  /** Loads the image, and runs the sandbox of that number, 0 if none is given, through its start, which has to exit. Handlers
   * whose name the image doesn't import are never called. A call has at most `steps` steps. Throws what `load` does, NotReturned,
   * and WrongSignature. For TypeScript a plug-in that its own handlers call is `const plugin: Plugin = await ..`. */
  static load(image: Bytes, options?: PluginOptions & { library?: Library }): Promise<Plugin>;
  readonly world: World;
  readonly sandbox: Sandbox;
  /** Its exports, each a function, which takes and gives values by its signature, or else at most eight words and one. */
  readonly exports: { readonly [name: string]: (...given: Value[]) => any };
  /** The signatures that hold, by the names of exports and imports: what the host states, or what the image claims where it states
   * none, unless there are more than 512 exports or imports with their claims. A name that isn't there has none. */
  readonly signatures: { readonly [name: string]: Signature };
  /** The address of an export. Throws NoName. */
  address(name: string): number;
  /** Calls an export: by its signature, if it has one, and else as `callWords`. Throws NoName, and what `Sandbox.call` does. */
  call(name: string, ...given: Value[]): any;
  /** Calls an export, also one that has a signature, with at most eight words: the word of its result. Throws likewise. */
  callWords(name: string, ...given: number[]): number;
  /** The same, with a result of 64 bits: `Sandbox.call64` says of which functions. */
  call64(name: string, ...given: number[]): bigint;
  /** The plug-in as bytes: `snapshots.take`. */
  snapshot(): Uint8Array;
  /** A plug-in of that image as it was when the snapshot was taken, whose start isn't run again. Throws what `snapshots.restore` does,
   * and WrongSignature. */
  static restore(image: Bytes, snapshot: Bytes, options?: PluginOptions & { library?: Library }): Promise<Plugin>;
  close(): void;
  [Symbol.dispose](): void;
}

/** The sandboxes of a world as bytes, which have the data, registers and steps of each, and how it stands, and not what a Console keeps.
 * Whatever the bytes are, each restored sandbox stays in its own data: who can write a snapshot decides what these are and where its
 * code goes on, and no more. */
export declare namespace snapshots {
  /** A snapshot of a world of that image, in which nothing changes. Throws NotTaken. */
  function take(world: World, image: Bytes): Uint8Array;
  /** A world of the image, or of a module of it, whose sandboxes are those of the snapshot. Throws WrongSnapshot where that is of
   * another image, cut or changed, and what `load` does. */
  function restore(image: Bytes | Module, snapshot: Bytes, library?: Library): Promise<World>;
}

/** A host's own limits, below those of images' formats, before memory is asked for. */
export declare namespace sizes {
  /** Throws TooLarge where a sandbox of the image has more bytes of code or of data than that. Nothing else is looked at: of bytes that
   * are no image nothing is said, and `load` refuses them. */
  function check(image: Bytes, most?: { code?: number; data?: number }): void;
}

/** An image that is checked and decoded once. Its worlds share the decoded code, which nothing writes, and each has its data,
 * registers and steps for itself. They may be closed in any order, and after the module. */
export declare class Module {
  private constructor();
  /** Checks and decodes the image's own bytes. Throws what `load` does. */
  static load(image: Bytes, library?: Library): Promise<Module>;
  /** A world of the image: what `load` makes of its bytes, with nothing checked or decoded anew. Throws NoMemory. */
  world(): World;
  /** A plug-in in a world of its own: what `Plugin.load` makes of the image. */
  instance(options?: PluginOptions): Plugin;
  /** Frees the module. Its worlds stay. */
  close(): void;
  [Symbol.dispose](): void;
}

/** The console of `sfi run`: what it keeps of each sandbox of a world is its output, how far it has read the input, and its
 * mailbox. */
export declare class Console {
  /** One in which each sandbox reads the bytes `given` from their beginning. */
  constructor(world: World, given?: Bytes);
  readonly world: World;
  /** What each sandbox has put. */
  readonly output: Uint8Array[];
  /** Replies to a call. Whether the turn goes on. */
  serve(call: Call): boolean;
  /** A turn of at most `steps` steps, which ends at a yield, too. A call that comes when they are used is served in the next
   * turn. Throws NoMemory where there is no memory for what is put: then the sandbox stands at that call. */
  turn(sandbox: Sandbox, steps: number): void;
  /** So many rounds of a turn of each sandbox, as `sfi run --rounds COUNT --quantum STEPS` has them. */
  rounds(count: number, steps: number): void;
  /** What `sfi run` prints of a sandbox. */
  line(sandbox: Sandbox): string;
}
