// Checks the image on standard input by the WebAssembly module, and lists its first findings:
//
//     node [--experimental-wasm-memory64] host.mjs MODULE [CAPACITY] < IMAGE
//     node [--experimental-wasm-memory64] host.mjs MODULE 0 SIZE < IMAGE
//     node [--experimental-wasm-memory64] host.mjs MODULE parts < IMAGE
//
// The image's own bytes; room for CAPACITY findings, 2 if absent. With SIZE it hands the module SIZE bytes at a time,
// and prints the verdict alone. With `parts` it tells what is in an image that is accepted, as parts.c does. It ends in
// the verdict's status.
import { readFileSync } from "node:fs";

const FINDING_BYTES = 12; // struct sfi_finding: sandbox, address, rule
const VERDICT_WORDS = 8; // struct sfi_verdict
const STREAM_BYTES = 952; // struct sfi_stream
const PART_WORDS = 12; // struct sfi_part, whose two offsets are two words each
const GATE_WORDS = 2; // struct sfi_gate: address, service
const GATES_MOST = 64; // of a sandbox
const PAGE = 65536;

// `memory.grow` takes a BigInt by the standard, and a number in some versions of node.
function grow(memory, pages) {
  try {
    memory.grow(BigInt(pages));
  } catch {
    memory.grow(pages);
  }
}

// An instance with the image in its memory, and before it `room` bytes that a call may write.
async function instanceWith(module, image, room) {
  const { instance } = await WebAssembly.instantiate(module);
  const { memory, __heap_base } = instance.exports;
  // After the module's own data and stack.
  const written = Math.ceil(Number(__heap_base.value) / 16) * 16;
  const bytes = written + room;
  const wanted = bytes + image.length - memory.buffer.byteLength;
  if (wanted > 0) grow(memory, Math.ceil(wanted / PAGE));
  new Uint8Array(memory.buffer).set(image, bytes);
  return { calls: instance.exports, memory, written, bytes };
}

// The verdict's words, and the findings that there is room for, three words each.
async function judge(module, image, capacity) {
  const room = 4 * VERDICT_WORDS + FINDING_BYTES * capacity;
  const { calls, memory, written, bytes } = await instanceWith(module, image, room);
  const array = written + 4 * VERDICT_WORDS;
  calls.sfi_c_findings(...[bytes, image.length, array, capacity, written].map(BigInt));
  const words = new Uint32Array(memory.buffer, written, VERDICT_WORDS);
  const listed = Math.min(words[4], capacity);
  return { words, found: new Uint32Array(memory.buffer, array, 3 * listed) };
}

// The verdict's words on an image of which the module is handed `size` bytes at a time.
async function judgeInPieces(module, image, size) {
  const room = STREAM_BYTES + 4 * VERDICT_WORDS;
  const { calls, memory, written, bytes } = await instanceWith(module, new Uint8Array(size), room);
  const verdict = written + STREAM_BYTES;
  calls.sfi_c_begin(BigInt(written));
  for (let at = 0; at < image.length; at += size) {
    const piece = image.subarray(at, at + size);
    new Uint8Array(memory.buffer).set(piece, bytes);
    calls.sfi_c_feed(...[written, bytes, piece.length].map(BigInt));
  }
  calls.sfi_c_end(...[written, verdict].map(BigInt));
  return new Uint32Array(memory.buffer, verdict, VERDICT_WORDS);
}

const hexadecimal = (address) => address.toString(16).padStart(8, "0");

// The lines of what is in the image: of each sandbox, of where it lies in the image, and of each of its gates.
async function linesOfParts(module, image) {
  const room = 4 * (PART_WORDS + GATE_WORDS * GATES_MOST);
  const { calls, memory, written, bytes } = await instanceWith(module, image, room);
  const array = written + 4 * PART_WORDS;
  const place = [BigInt(bytes), BigInt(image.length)];
  const lines = [];
  for (let number = 0; calls.sfi_c_part(...place, number, BigInt(written)) === 0; number++) {
    const words = [...new Uint32Array(memory.buffer, written, PART_WORDS)];
    const [format, codeBase, codeSize, dataBase, dataSize, start, gates, initSize] = words;
    const [codeOffset, initOffset] = new BigUint64Array(memory.buffer, written + 32, 2);
    const regions = `code ${hexadecimal(codeBase)} ${codeSize} data ${hexadecimal(dataBase)} ${dataSize}`;
    lines.push(`sandbox ${number} ${regions} start ${hexadecimal(start)} gates ${gates} init ${initSize}`);
    lines.push(`bytes format ${format} code ${codeOffset} init ${initOffset}`);
    calls.sfi_c_gates(...place, number, BigInt(array), BigInt(GATES_MOST));
    const told = new Uint32Array(memory.buffer, array, GATE_WORDS * gates);
    for (let at = 0; at < told.length; at += GATE_WORDS) {
      lines.push(`gate ${hexadecimal(told[at])} ${told[at + 1]}`);
    }
  }
  return lines;
}

function lineOf([status, fault, sandboxes, bundles, findings, sandbox, address, rule]) {
  if (status === 0) return `accepted sandboxes=${sandboxes} bundles=${bundles}`;
  if (status === 2) return `layout fault ${fault}`;
  return `refused findings=${findings} first=V${rule} sandbox=${sandbox} at=${hexadecimal(address)}`;
}

const [path, asked = "2", size] = process.argv.slice(2);
const [module, image] = [readFileSync(path), readFileSync(0)];
const tells = asked === "parts";
const { words, found } = size
  ? { words: await judgeInPieces(module, image, Number(size)), found: [] }
  : await judge(module, image, tells ? 0 : Number(asked));
if (tells) {
  if (words[0] === 0) console.log((await linesOfParts(module, image)).join("\n"));
} else {
  for (let i = 0; i < found.length; i += 3) {
    console.log(`${found[i]} ${hexadecimal(found[i + 1])} V${found[i + 2]}`);
  }
  console.log(lineOf(words));
}
process.exitCode = words[0];
