// What a call by signature takes into the sandbox's memory and out of it: the bytes of texts and buffers. Addresses and lengths that
// come from there may be any: they are compared with where the data lie before anything is read.
import { bytesOf } from "./given.mjs";
import { Unfit, split, taken, textOf, unlike, valueOf, wordsOf } from "./signatures.mjs";
import { OutsideData, Refusal, TooLong, hexadecimal } from "./told.mjs";
import { callFunction, resume } from "./world.mjs";

const [STACK, A0] = [2, 10]; // registers
const ALIGNED = 16; // of each block of bytes on the stack
const PIECE = 256; // bytes of a text that are read first
const ROOM = 1024; // bytes of the stack that the texts and bytes of a call may take where the image doesn't say how much it has
const TOP = 16; // the stack begins so far below the data's end, and below the room above it
const BYTES_OF_A_STEP = 16; // of texts and bytes, that handlers may get for each step that a run may take

/** Texts and bytes that are more than a run's handlers may get. */
class TooMuch extends Error {}

/** How many bytes of texts and bytes the handlers of a run of so many steps get at most: its host copies no more, however cheap each
 * call of a gate is. */
export class Allowance {
  #steps;
  #left;

  constructor(steps) {
    this.#steps = steps;
    this.#left = BYTES_OF_A_STEP * steps;
  }

  /** Takes note that they get so many. Throws TooMuch where these are too many. */
  take(count) {
    if (count > this.#left) {
      const most = BYTES_OF_A_STEP * this.#steps;
      throw new TooMuch(`a run of ${this.#steps} steps hands ${most} bytes of texts and bytes to its handlers at most`);
    }
    this.#left -= count;
  }
}

/** How many bytes of a stack { size, above } the texts and bytes of a call may take: half of what is left where the stack pointer is so
 * far below the data's end. */
function roomOf({ size, above }, used = 0) {
  return size === undefined ? ROOM : Math.floor(Math.max(size - Math.max(used - above - TOP, 0), 0) / 2);
}

/** How much of the stack some bytes take. */
const sizeOf = (blocks) => blocks.reduce((size, { data }) => size + Math.ceil(data.length / ALIGNED) * ALIGNED, 0);

/** Calls a function of { name, signature } at an address with these arguments: its result. The image claims `stack`,
 * how many bytes it has and how many lie above it. */
export function callBySignature(sandbox, pc, { name, signature }, given, stack, options) {
  const { words, blocks } = taken(name, signature, given);
  const size = sizeOf(blocks);
  if (size > roomOf(stack)) throw new TooLong(name, size, roomOf(stack));
  const result = callFunction(sandbox, pc, words, options, () => blocks.length && lay(sandbox, name, blocks, stack));
  for (const block of blocks) {
    if (block.buffer !== undefined) bringBack(sandbox, name, block);
  }
  return valueAt(sandbox, signature.result, result);
}

/** Has the bytes lie below the stack pointer of a function that is entered, the stack pointer below them, and their addresses in the
 * registers. Throws TooLong where they don't fit there. */
function lay(sandbox, name, blocks, stack) {
  const [{ pc, x }, { base, size: whole }, size] = [sandbox.registers, sandbox.data, sizeOf(blocks)];
  const used = base + whole - x[STACK];
  const room = used >= 0 && used <= whole ? Math.min(whole - used, roomOf(stack, used)) : 0;
  if (size > room) throw new TooLong(name, size, room);
  for (const block of blocks) {
    x[STACK] -= sizeOf([block]);
    block.at = x[STACK];
    x[A0 + block.register] = block.at;
    if (block.data.length) sandbox.write(block.at, block.data);
  }
  if (!resume(sandbox, { pc, x })) throw new TooLong(name, size, 0);
}

/** Has a buffer hold what its bytes in the sandbox have become. */
function bringBack(sandbox, name, { buffer, data, at }) {
  const view = bytesOf(buffer);
  if (view.length !== data.length) throw new RangeError(`${name}: a buffer of ${data.length} bytes has ${view.length} now`);
  if (data.length) view.set(sandbox.read(at, data.length));
}

/** A function's result. */
function valueAt(sandbox, letter, words) {
  if (letter === "v") return undefined;
  if (letter !== "s") return valueOf(letter, words);
  return words[0] === 0 ? null : textAt(sandbox, words[0]);
}

/** The text from an address up to a byte 0, where each byte that isn't UTF-8 is U+FFFD. Throws OutsideData where an address of it isn't
 * one of the sandbox's data, and TooMuch. */
function textAt(sandbox, at, allowance) {
  const { base, size } = sandbox.data;
  const found = [];
  for (let now = at; now >= base && now < base + size;) {
    const piece = sandbox.read(now, Math.min(PIECE << found.length, base + size - now));
    const end = piece.indexOf(0);
    allowance?.take(end < 0 ? piece.length : end);
    found.push(end < 0 ? piece : piece.subarray(0, end));
    if (end >= 0) return Buffer.concat(found).toString("utf8");
    now += piece.length;
  }
  throw new OutsideData(`a text at ${hexadecimal(at)}`);
}

/** So many bytes from an address on. Throws likewise. */
function bytesAt(sandbox, at, count, allowance) {
  const { base, size } = sandbox.data;
  if (count && !(at >= base && at + count <= base + size)) throw new OutsideData(`${count} bytes at ${hexadecimal(at)}`);
  allowance.take(count);
  return sandbox.read(at, count);
}

/** Replies to a call of a gate, as a handler of { name, signature } answers to its arguments. What it leaves in a buffer is written
 * back. */
export function serveBySignature({ name, signature }, handler, call, allowance) {
  const { sandbox } = call;
  const what = `${name}${textOf(signature)}`;
  const parts = split(signature.parameters, [call.a0, call.a1, call.a2, call.a3, call.a4, call.a5, call.a6, call.a7]);
  const values = parts.map(({ letter, words }, index) => argumentOf(sandbox, letter, words, allowance, `${what}: argument ${index + 1}`));
  const buffers = parts.flatMap(({ letter, words: [at] }, index) => (letter === "w" ? [{ at, view: values[index] }] : []));
  const sizes = buffers.map(({ view }) => view.length);
  const answer = handler(...values);
  if (!call.isWaiting) return;
  const words = answeredWords(what, signature.result, answer);
  buffers.forEach(({ at, view }, index) => {
    if (view.length !== sizes[index]) throw new RangeError(`${what}: the handler's buffer of ${sizes[index]} bytes has ${view.length} now`);
    if (view.length) sandbox.write(at, view);
  });
  call.reply(...words);
}

/** An argument of a handler. Refuses the call where an address or a length lies, and where the run's handlers get no more. */
function argumentOf(sandbox, letter, words, allowance, what) {
  try {
    if (letter === "s") return textAt(sandbox, ...words, allowance);
    return letter === "b" || letter === "w" ? bytesAt(sandbox, ...words, allowance) : valueOf(letter, words);
  } catch (error) {
    if (error instanceof TooMuch) throw new Refusal(`${what} is too long, as ${error.message}`);
    if (!(error instanceof OutsideData)) throw error;
    throw new Refusal(`${what}, ${error.message}, isn't in its data`);
  }
}

/** The words of what a handler answered. */
function answeredWords(what, result, answer) {
  if (typeof answer?.then === "function") throw new TypeError(`${what}: the handler has to answer at once, and not by a promise`);
  if (result === "v" || (result === "s" && (answer === null || answer === undefined))) return [0];
  const letter = result === "s" ? "p" : result;
  try {
    return wordsOf(letter, answer);
  } catch (error) {
    if (!(error instanceof Unfit)) throw error;
    throw new TypeError(`${what}: the handler has to answer ${unlike(letter, answer)}`);
  }
}
