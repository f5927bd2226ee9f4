// The module sfi_run.wasm and its memory: sfi_run.h says what each call does and what a caller owes.
import { readFile } from "node:fs/promises";
import { setFlagsFromString } from "node:v8";

export const VERSION = "0.1.0";
const NUMBER = VERSION.split(".").reduce((number, part) => number * 256 + Number(part), 0);
const OLDEST = 20; // the oldest node, of which an older one says of the module that it is wrong
const TOLD_BYTES = 256; // more than any struct that a call writes
// A module with a memory whose addresses have 64 bits, and nothing else.
const WIDE = Uint8Array.of(0, 97, 115, 109, 1, 0, 0, 0, 5, 3, 1, 4, 0);

/** There was no memory for what was asked. */
export class NoMemory extends Error {}

/** An instance of the module: `library.calls.load` is its call sfi_run_load. Addresses in its memory are BigInts. */
export class Library {
  #exports;
  #bytes = new Uint8Array();
  #passage;
  #passageSize = TOLD_BYTES;

  /** The module of that path, or the one that SFI_RUN_MODULE names, or the one beside this file. */
  static async load(path = process.env.SFI_RUN_MODULE || new URL("sfi_run.wasm", import.meta.url)) {
    if (parseInt(process.versions.node) < OLDEST) throw new Error(`node ${OLDEST} or later is wanted, and this is ${process.versions.node}`);
    if (!WebAssembly.validate(WIDE)) setFlagsFromString("--experimental-wasm-memory64"); // before node 24
    const bytes = await readFile(path).catch((cause) => {
      throw new Error(`${cause.message}; tools/build_node.py makes the module, or SFI_RUN_MODULE has to name it`, { cause });
    });
    const { instance } = await WebAssembly.instantiate(bytes);
    return new Library(instance.exports);
  }

  constructor(exported) {
    this.#exports = exported;
    const named = Object.entries(exported).map(([name, call]) => [name.replace("sfi_run_", ""), call]);
    this.calls = { ...Object.fromEntries(named), free: exported.sfi_run_free };
    if (this.calls.version() >> 8 !== NUMBER >> 8) throw new Error("sfi_run.wasm is of another version than this package");
    this.told = this.room(TOLD_BYTES); // what a call writes there is copied before the next call
    this.#passage = this.room(TOLD_BYTES);
  }

  /** The memory's bytes, which are elsewhere once it has grown. */
  get bytes() {
    const { buffer } = this.#exports.memory;
    if (this.#bytes.buffer !== buffer) this.#bytes = new Uint8Array(buffer);
    return this.#bytes;
  }

  /** So many words of the memory, as they stand there until it grows. */
  words(count, at = this.told) {
    return new Uint32Array(this.bytes.buffer, Number(at), count);
  }

  /** A block of `length` bytes, which hold anything. */
  room(length) {
    const at = this.#exports.malloc(BigInt(length || 1));
    if (!at) throw new NoMemory("the module has no memory left");
    return at;
  }

  /** A block with `bytes`, after `zeros` zeros. */
  put(bytes, zeros = 0) {
    const at = this.room(zeros + bytes.length);
    const place = Number(at);
    this.bytes.fill(0, place, place + zeros).set(bytes, place + zeros);
    return at;
  }

  /** A block with room for `length` bytes, until it is asked for the next time. */
  passage(length) {
    if (length > this.#passageSize) {
      const wider = this.room(length);
      this.give(this.#passage);
      this.#passage = wider;
      this.#passageSize = length;
    }
    return this.#passage;
  }

  /** Has these bytes stand in the passage. */
  pass(bytes) {
    const at = this.passage(bytes.length);
    this.bytes.set(bytes, Number(at));
    return at;
  }

  copy(at, length) {
    return this.bytes.slice(Number(at), Number(at) + length);
  }

  give(at) {
    this.#exports.free(at);
  }
}

let usual;

/** The library that `Library.load` finds, which is loaded once. */
export function usualLibrary() {
  usual ??= Library.load().catch((error) => {
    usual = undefined;
    throw error;
  });
  return usual;
}
