// What callers give: numbers of 32 bits, arguments, steps, options, and bytes.
import { Limit } from "./limit.mjs";

export const STEPS = 1_000_000; // of a call, unless others are given
export const MOST = 0xffffffff; // of a word

/** A number of 32 bits: WebAssembly would cut a larger one. */
export function word(value) {
  if (!Number.isInteger(value) || value < 0 || value > MOST) throw new RangeError(`${value} isn't a number from 0 to 2^32 - 1`);
  return value;
}

/** An argument as such a number: of a negative one modulo 2^32. */
export function argument(value) {
  if (!Number.isInteger(value) || value < -(2 ** 31) || value > MOST) {
    throw new RangeError(`${String(value)} isn't an integer from -2^31 to 2^32 - 1`);
  }
  return value >>> 0;
}

/** How many steps a run has. */
export function counted(steps) {
  if (!Number.isSafeInteger(steps) || steps < 0) throw new RangeError(`steps is ${String(steps)}, and has to be at least 0`);
  return steps;
}

/** The options after the arguments of a call, which are taken off. */
export function optionsOf(given) {
  const last = given.at(-1);
  if (typeof last !== "object") return { steps: STEPS, limit: new Limit() };
  if (last === null || Array.isArray(last)) throw new TypeError("after the arguments comes an object with `steps` or `serve`");
  const { steps = STEPS, serve, ...limits } = given.pop();
  if (serve !== undefined && typeof serve !== "function") throw new TypeError("`serve` is a function");
  return { steps: counted(steps), serve, limit: new Limit(limits) };
}

export function bytesOf(data) {
  if (data instanceof ArrayBuffer) return new Uint8Array(data);
  if (!ArrayBuffer.isView(data)) throw new TypeError("what has bytes is wanted: a Uint8Array, a Buffer, or an ArrayBuffer");
  return new Uint8Array(data.buffer, data.byteOffset, data.byteLength);
}
