// How fast the WebAssembly module checks an image that is in its memory already, as scan.c does with the library:
//
//     node [--experimental-wasm-memory64] scan.mjs MODULE IMAGE REPEATS
//
// Prints megabytes (10^6) a second, the best of 5 groups of REPEATS calls. Ends in 1 where the image isn't accepted.
import { readFileSync } from "node:fs";

const [path, file, repeats] = process.argv.slice(2);
const image = readFileSync(file);
const { instance } = await WebAssembly.instantiate(readFileSync(path));
const { memory, sfi_c_check, __heap_base } = instance.exports;
const verdict = Math.ceil(Number(__heap_base.value) / 16) * 16;
const bytes = verdict + 32;
const pages = Math.ceil((bytes + image.length - memory.buffer.byteLength) / 65536);
if (pages > 0) {
  try {
    memory.grow(BigInt(pages));
  } catch {
    memory.grow(pages); // some versions of node take a number
  }
}
new Uint8Array(memory.buffer).set(image, bytes);
let best = Infinity;
for (let group = 0; group < 5; group++) {
  const begun = performance.now();
  for (let i = 0; i < Number(repeats); i++) {
    sfi_c_check(BigInt(bytes), BigInt(image.length), BigInt(verdict));
  }
  best = Math.min(best, performance.now() - begun);
}
const status = new Uint32Array(memory.buffer, verdict, 1)[0];
if (status !== 0) process.exit(1);
console.log(`${((image.length * Number(repeats)) / best / 1000).toFixed(1)} MB/s`);
