// A sandbox of an image of its own, whose functions are called by their names, and call the host's by theirs.
import { STEPS, counted } from "./given.mjs";
import { Allowance, callBySignature, serveBySignature } from "./passing.mjs";
import { claimed, parsed, textOf } from "./signatures.mjs";
import { restore, take } from "./snapshots.mjs";
import { NoName, WrongSignature } from "./told.mjs";
import { entryAt, finishStart, imageOf, load } from "./world.mjs";

const NO_SUCH_NAME = 5;
const MOST_ENTRIES = 512; // of the exports, or the imports, in which signatures are looked for: in more it would take long
const [STACK, ABOVE] = [".stack", ".room"]; // the claims of how many bytes the stack has, and of how many lie above it

/** The signatures that an image claims of exports or imports, by their names: the first of each name that is there. */
function claimedBy(sandbox, call) {
  const [names, found] = [new Set(), new Map()];
  const count = entryAt(sandbox, call, MOST_ENTRIES) ? 0 : MOST_ENTRIES;
  for (let index = 0; index < count; index++) {
    const { entry, number } = entryAt(sandbox, call, index) ?? {};
    if (entry === undefined) break;
    names.add(entry);
    const claim = number === 0 ? claimed(entry) : undefined;
    if (claim && !found.has(claim.name)) found.set(claim.name, claim.signature);
  }
  return new Map([...found].filter(([name]) => names.has(name)));
}

/** The number that is claimed, if there is one. */
function claimedNumber(sandbox, name) {
  try {
    return sandbox.imported(name);
  } catch (error) {
    if (error instanceof NoName) return undefined;
    throw error;
  }
}

/** What the table of a sandbox claims: signatures of exports and imports, and its stack. */
export const claimsOf = (sandbox) => ({
  exports: claimedBy(sandbox, "export_at"),
  imports: claimedBy(sandbox, "import_at"),
  stack: { size: claimedNumber(sandbox, STACK), above: claimedNumber(sandbox, ABOVE) ?? 0 },
});

/** The signatures that hold, which a host states, in place of these claims. */
function inPlaceOf({ exports, imports, stack }, signatures) {
  const stated = new Map(Object.entries(signatures).map(([name, text]) => {
    const signature = typeof text === "string" ? parsed(text) : undefined;
    if (!signature) throw new TypeError(`${name}: ${JSON.stringify(text)} is no signature of at most eight words`);
    for (const claims of [exports, imports]) {
      const other = claims.get(name);
      if (other && textOf(other) !== text) throw new WrongSignature(name, text, textOf(other));
    }
    return [name, signature];
  }));
  return { exports: stated, imports: stated, stack };
}

const byCalls = new WeakSet();

/** The handler, which gets the Call where its import has a signature, too. */
export function byCall(handler) {
  if (typeof handler !== "function") throw new TypeError("a handler is a function");
  const found = (call) => handler(call);
  byCalls.add(found);
  return found;
}

/** The lowest 32 bits of an integer that a handler answered. */
function wordOf(number) {
  if (!Number.isInteger(number) && typeof number !== "boolean") {
    throw new TypeError("a handler answers an integer, two of them, or nothing");
  }
  return number >>> 0;
}

/** Replies as a handler answered, unless it has replied itself. */
function reply(call, answer) {
  if (!call.isWaiting) return;
  if (Array.isArray(answer) && answer.length === 2) call.reply(wordOf(answer[0]), wordOf(answer[1]));
  else call.reply(wordOf(answer ?? 0));
}

export class Plugin {
  #steps;
  #limits;
  #claims;
  #handlers = new Map(); // by the addresses of gates

  static async load(image, { library, ...options } = {}) {
    return Plugin.of(await load(image, library), options, claimsOf);
  }

  static async restore(image, snapshot, { library, ...options } = {}) {
    return Plugin.#made(await restore(image, snapshot, library), options, claimsOf);
  }

  /** In that world, through its start. `claims` tells what the table of a sandbox claims. */
  static of(world, options, claims) {
    return Plugin.#made(world, options, claims, (plugin) => finishStart(plugin.sandbox, plugin.#options()));
  }

  /** In that world, which is closed where it can't be. */
  static #made(world, { number = 0, steps = STEPS, handlers = {}, signatures, timeout, interrupt } = {}, claims, begin) {
    try {
      const plugin = new Plugin(world, number, { steps, limits: { timeout, interrupt }, handlers, signatures, claims });
      begin?.(plugin);
      return plugin;
    } catch (error) {
      world.close();
      throw error;
    }
  }

  constructor(world, number, { steps, limits, handlers, signatures, claims }) {
    this.world = world;
    this.sandbox = world.sandboxes[number];
    if (!this.sandbox) throw new RangeError(`there is no sandbox ${number}`);
    this.#steps = steps;
    this.#limits = limits;
    const claimed = claims(this.sandbox);
    this.#claims = signatures === undefined ? claimed : inPlaceOf(claimed, signatures);
    for (const [name, handler] of Object.entries(handlers)) this.#handle(name, handler);
    this.exports = new Proxy(Object.freeze({}), { get: (_, name) => this.#function(name) });
  }

  /** Those whose name the image doesn't import are never called. */
  #handle(name, handler) {
    if (typeof handler !== "function") throw new TypeError(`the handler ${name} is no function`);
    const signature = byCalls.has(handler) ? undefined : this.#claims.imports.get(name);
    const serve = signature
      ? (call, allowance) => serveBySignature({ name, signature }, handler, call, allowance)
      : (call) => reply(call, handler(call));
    try {
      this.#handlers.set(this.sandbox.imported(name), serve);
    } catch (error) {
      if (error.why !== NO_SUCH_NAME) throw error;
    }
  }

  #called(address, given) {
    return this.sandbox.call(address, ...given, this.#options());
  }

  /** Those of one run. */
  #options() {
    const allowance = new Allowance(counted(this.#steps));
    return { ...this.#limits, steps: this.#steps, serve: (call) => this.#handlers.get(call.pc)?.(call, allowance) };
  }

  #function(name) {
    if (typeof name !== "string") return undefined;
    try {
      return this.#caller(name);
    } catch (error) {
      if (error instanceof NoName) return undefined;
      throw error;
    }
  }

  /** The function that calls an export: by its signature, if it has one. */
  #caller(name) {
    const address = this.address(name);
    const signature = this.#claims.exports.get(name);
    if (!signature) return (...given) => this.#called(address, given);
    return (...given) => callBySignature(this.sandbox, address, { name, signature }, given, this.#claims.stack, this.#options());
  }

  get signatures() {
    const found = [...this.#claims.imports, ...this.#claims.exports];
    return Object.fromEntries(found.map(([name, signature]) => [name, textOf(signature)]));
  }

  address(name) {
    return this.sandbox.export(name);
  }

  call(name, ...given) {
    return this.#caller(name)(...given);
  }

  callWords(name, ...given) {
    return this.#called(this.address(name), given);
  }

  call64(name, ...given) {
    return this.sandbox.call64(this.address(name), ...given, this.#options());
  }

  snapshot() {
    return take(this.world, imageOf(this.world));
  }

  close() {
    this.world.close();
  }

  [Symbol.dispose]() {
    this.close();
  }
}
