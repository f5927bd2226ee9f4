// Signatures: what a function takes and gives, as `(ii)i`, which index.d.mts explains; the words of values, and the values of words.
import { bytesOf } from "./given.mjs";
import { WrongArguments } from "./told.mjs";

const WORDS = { y: 1, c: 1, h: 1, k: 1, t: 1, i: 1, u: 1, l: 2, m: 2, f: 1, d: 2, p: 1, s: 1, b: 2, w: 2 };
const MOST_WORDS = 8;
const SIGNATURE = /^\(([ychktiulmfdpsbw]*)\)([ychktiulmfdpsv])$/;
const NO_TEXT = /\0/;
const WORD = 2 ** 32;
export const WANTED = { y: "an integer from -128 to 127", c: "an integer from 0 to 255", h: "an integer from -32768 to 32767",
  k: "an integer from 0 to 65535", t: "a boolean", i: "an integer from -2^31 to 2^32 - 1", u: "an integer from -2^31 to 2^32 - 1", p: "an integer from 0 to 2^32 - 1",
  l: "an integer from -2^63 to 2^63 - 1", m: "an integer from 0 to 2^64 - 1", f: "a number that a float holds", d: "a number",
  s: "a string without \\0", b: "what has bytes", w: "what has bytes" };

/** A value that a letter hasn't. */
export class Unfit extends Error {}

/** The signature of that text, { parameters, result }, if it is one. */
export function parsed(text) {
  const [, parameters, result] = SIGNATURE.exec(text) ?? [];
  if (result === undefined || parameters.length > MOST_WORDS || countOf(parameters) > MOST_WORDS) return undefined;
  return { parameters, result };
}

const countOf = (letters) => [...letters].reduce((count, letter) => count + WORDS[letter], 0);

export const textOf = ({ parameters, result }) => `(${parameters})${result}`;

/** The name and signature that an entry of a table of names claims, as `.add(ii)i`, if it is such a claim. */
export function claimed(entry) {
  const end = entry.lastIndexOf("(");
  const name = entry.slice(1, Math.max(end, 1));
  const signature = parsed(entry.slice(end));
  if (!entry.startsWith(".") || !name || name.startsWith(".") || !signature) return undefined;
  return { name, signature };
}

function truth(value) {
  if (typeof value !== "boolean") throw new Unfit();
  return Number(value);
}

function integer(value, low, high) {
  const number = typeof value === "boolean" ? Number(value) : value;
  if (!Number.isInteger(number) || number < low || number > high) throw new Unfit();
  return number;
}

/** An integer of 64 bits, a BigInt or a number that is exact, as its two words. */
function pairOf(value, low, high) {
  if (typeof value !== "bigint" && !Number.isSafeInteger(value)) throw new Unfit();
  const number = BigInt(value);
  if (number < low || number > high) throw new Unfit();
  return [Number(BigInt.asUintN(32, number)), Number(BigInt.asUintN(32, number >> 32n))];
}

function number(value) {
  if (typeof value !== "number") throw new Unfit();
  return value;
}

/** As the type has it, if it isn't made infinite. */
function rounded(value) {
  const float = Math.fround(number(value));
  if (Number.isFinite(value) && !Number.isFinite(float)) throw new Unfit();
  return float;
}

const wordsIn = ({ buffer }) => [...new Uint32Array(buffer)];

const TAKE = {
  y: (value) => [integer(value, -128, 127) >>> 0],
  c: (value) => [integer(value, 0, 255) >>> 0],
  h: (value) => [integer(value, -32768, 32767) >>> 0],
  k: (value) => [integer(value, 0, 65535) >>> 0],
  t: (value) => [truth(value)],
  i: (value) => [integer(value, -(2 ** 31), WORD - 1) >>> 0],
  u: (value) => [integer(value, -(2 ** 31), WORD - 1) >>> 0],
  p: (value) => [integer(value, 0, WORD - 1)],
  l: (value) => pairOf(value, -(2n ** 63n), 2n ** 63n - 1n),
  m: (value) => pairOf(value, 0n, 2n ** 64n - 1n),
  f: (value) => wordsIn(Float32Array.of(rounded(value))),
  d: (value) => wordsIn(Float64Array.of(number(value))),
};

const GIVE = {
  y: ([word]) => (word << 24) >> 24,
  c: ([word]) => word & 255,
  h: ([word]) => (word << 16) >> 16,
  k: ([word]) => word & 65535,
  t: ([word]) => (word & 255) !== 0,
  i: ([word]) => word | 0,
  u: ([word]) => word,
  p: ([word]) => word,
  l: ([low, high]) => BigInt.asIntN(64, (BigInt(high) << 32n) | BigInt(low)),
  m: ([low, high]) => (BigInt(high) << 32n) | BigInt(low),
  f: (words) => new Float32Array(Uint32Array.from(words).buffer)[0],
  d: (words) => new Float64Array(Uint32Array.from(words).buffer)[0],
};

/** The words of a value that lies in registers. Throws Unfit where the letter hasn't this value. */
export const wordsOf = (letter, value) => TAKE[letter](value);

/** The value of the first of these words, of a letter of those whose values lie in registers: of a narrow one that of its lowest bits. */
export const valueOf = (letter, words) => GIVE[letter](words.slice(0, WORDS[letter]));

/** The bytes of a text, of bytes, or of a buffer, copied. Throws Unfit where the letter hasn't this value. */
export function dataOf(letter, value) {
  if (letter !== "s") {
    if (!(value instanceof ArrayBuffer) && !ArrayBuffer.isView(value)) throw new Unfit();
    return bytesOf(value).slice();
  }
  if (typeof value !== "string" || NO_TEXT.test(value) || !value.isWellFormed()) throw new Unfit();
  return new TextEncoder().encode(`${value}\0`);
}

/** A value in a message. */
function shown(value) {
  if (typeof value === "bigint") return `${value}n`;
  if (typeof value === "string") return JSON.stringify(value.length > 40 ? `${value.slice(0, 40)}..` : value);
  return typeof value === "object" && value ? value.constructor?.name ?? "an object" : String(value);
}

/** What a letter wants, beside a value that it hasn't. */
export const unlike = (letter, value) => `${WANTED[letter]}, and not ${shown(value)}`;

/** What a0 to a7 get of these arguments, and the blocks of bytes that have to lie in the sandbox first: { register, data, buffer }, of
 * which a register gets the address. Throws WrongArguments. */
export function taken(name, signature, given) {
  const { parameters } = signature;
  const wrong = (why) => new WrongArguments(name, textOf(signature), given, why);
  if (given.length !== parameters.length) throw wrong(`${parameters.length} arguments are wanted, and not ${given.length}`);
  const [words, blocks] = [[], []];
  [...parameters].forEach((letter, index) => {
    try {
      if (letter in TAKE) {
        words.push(...wordsOf(letter, given[index]));
        return;
      }
      const data = dataOf(letter, given[index]);
      blocks.push({ register: words.length, data, buffer: letter === "w" ? given[index] : undefined });
      words.push(...(letter === "s" ? [0] : [0, data.length]));
    } catch (error) {
      if (!(error instanceof Unfit)) throw error;
      throw wrong(`argument ${index + 1} has to be ${unlike(letter, given[index])}`);
    }
  });
  return { words, blocks };
}

/** Each letter with those of the words that are its own. */
export function split(letters, words) {
  let at = 0;
  return [...letters].map((letter) => {
    const own = words.slice(at, at + WORDS[letter]);
    at += WORDS[letter];
    return { letter, words: own };
  });
}
