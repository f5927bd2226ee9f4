// Snapshots: the sandboxes of a world as bytes, and a world again that goes on as that would have. sfi_run_snapshot.h says what the bytes
// mean, which are its own, and index.d.mts what each call does.
import { createHash } from "node:crypto";
import { bytesOf } from "./given.mjs";
import { Call, Exited, NotEntered, NotTaken, Ready, Stopped, Trapped, WrongSnapshot, hexadecimal } from "./told.mjs";
import { countFrom, doneBy, imageOf, load, resume } from "./world.mjs";

const [MAGIC, VERSION] = [Buffer.from("SNAP"), 1];
const [HEAD, SANDBOX, SUM] = [44, 156, 4]; // bytes: before the first sandbox, of each before its data, and at the end
const DIGEST = 8; // where the image's SHA-256 begins
const KINDS = new Map([[Ready, 1], [Call, 2], [Exited, 3], [Stopped, 5]]); // by the numbers of sfi_run.h
// What the lowest eight bits of a CRC-32 become, that of ISO 3309.
const CRC = Uint32Array.from({ length: 256 }, (_, low) => {
  let sum = low;
  for (let bit = 0; bit < 8; bit++) sum = (sum >>> 1) ^ (sum & 1 ? 0xedb88320 : 0);
  return sum;
});

const digestOf = (image) => createHash("sha256").update(image).digest();

function crc32(bytes) {
  let sum = 0xffffffff;
  for (const byte of bytes) sum = (sum >>> 8) ^ CRC[(sum ^ byte) & 0xff];
  return ~sum >>> 0;
}

/** These numbers as words of 32 bits. */
function words(...numbers) {
  const bytes = Buffer.alloc(4 * numbers.length);
  numbers.forEach((number, place) => bytes.writeUInt32LE(number, 4 * place));
  return bytes;
}

/** Whether a host may have a sandbox go on with the registers that it has. Nothing changes. */
function goesOn(sandbox, registers, hasStopped) {
  const isSet = resume(sandbox, registers);
  if (isSet && hasStopped) sandbox.stop();
  return isSet;
}

/** What a snapshot has of a sandbox. */
function taken(sandbox) {
  const { number, event, registers, data } = sandbox;
  if (event instanceof Trapped) throw new NotTaken(`sandbox ${number} has trapped`);
  if (!(event instanceof Exited) && !goesOn(sandbox, registers, event instanceof Stopped)) {
    throw new NotTaken(`sandbox ${number} stands at ${hexadecimal(registers.pc)}, within a bundle or the steps of an address`);
  }
  const steps = Buffer.alloc(8);
  steps.writeBigUInt64LE(doneBy(sandbox));
  const stands = words(KINDS.get(event.constructor), event instanceof Exited ? event.number : 0, registers.pc, ...registers.x);
  return Buffer.concat([stands, steps, words(data.base, data.size), sandbox.read(data.base, data.size)]);
}

export function take(world, image) {
  const { sandboxes } = world;
  if (!sandboxes.length) throw new RangeError("the world is closed, or has no sandbox");
  const content = Buffer.concat([MAGIC, words(VERSION), digestOf(bytesOf(image)), words(sandboxes.length), ...sandboxes.map(taken)]);
  return Buffer.concat([content, words(crc32(content))]);
}

/** What a snapshot has of the sandbox that begins there. */
function parsedAt(bytes, at) {
  const [kind, number, pc, ...x] = Array.from({ length: 35 }, (_, place) => bytes.readUInt32LE(at + 4 * place));
  const region = { base: bytes.readUInt32LE(at + 148), size: bytes.readUInt32LE(at + 152) };
  const steps = bytes.readBigUInt64LE(at + 140);
  return { kind, number, registers: { pc, x }, steps, region, data: bytes.subarray(at + SANDBOX, at + SANDBOX + region.size) };
}

/** What a snapshot of that image has of each sandbox. */
function parsed(image, snapshot) {
  const given = bytesOf(snapshot);
  const bytes = Buffer.from(given.buffer, given.byteOffset, given.byteLength);
  const end = bytes.length - SUM;
  if (end < HEAD || crc32(bytes.subarray(0, end)) !== bytes.readUInt32LE(end)) {
    throw new WrongSnapshot("the bytes are no whole snapshot: their CRC-32 is another");
  }
  if (!bytes.subarray(0, 4).equals(MAGIC) || bytes.readUInt32LE(4) !== VERSION) {
    throw new WrongSnapshot("the bytes are no snapshot of this version");
  }
  const digest = bytes.subarray(DIGEST, DIGEST + 32);
  if (!digest.equals(digestOf(image))) {
    throw new WrongSnapshot(`it is a snapshot of another image, whose SHA-256 is ${digest.toString("hex")}`);
  }
  const found = [];
  let at = HEAD;
  for (let left = bytes.readUInt32LE(HEAD - 4); left > 0; left--) {
    if (end - at < SANDBOX) throw new WrongSnapshot("it ends before its last sandbox");
    found.push(parsedAt(bytes, at));
    at += SANDBOX + found.at(-1).region.size;
  }
  if (at !== end) throw new WrongSnapshot("it doesn't end after its last sandbox");
  return found;
}

/** Has a new sandbox stand as that did. */
function putBack(sandbox, { kind, number, registers, steps, region, data }) {
  const wrong = new WrongSnapshot(`sandbox ${sandbox.number} can't stand as it says`);
  sandbox.write(region.base, data);
  try {
    sandbox.registers = registers;
  } catch (error) {
    throw error instanceof NotEntered ? wrong : error;
  }
  if (kind === KINDS.get(Exited) && sandbox.event instanceof Call) sandbox.exit(number);
  else if (kind === KINDS.get(Stopped)) sandbox.stop();
  countFrom(sandbox, steps);
  const { pc, x } = sandbox.registers;
  if (KINDS.get(sandbox.event.constructor) !== kind || pc !== registers.pc || x.some((value, place) => value !== registers.x[place])) {
    throw wrong;
  }
}

/** Has the sandboxes of a new world of an image stand as those of a snapshot did. */
function putAllBack(world, all) {
  const { sandboxes } = world;
  const isSame = (it, place) => sandboxes[place].data.base === it.region.base && sandboxes[place].data.size === it.region.size;
  if (all.length !== sandboxes.length || !all.every(isSame)) throw new WrongSnapshot("its sandboxes aren't those of the image");
  all.forEach((it, place) => putBack(sandboxes[place], it));
}

export async function restore(image, snapshot, library) {
  const isModule = typeof image?.world === "function";
  const all = parsed(isModule ? imageOf(image) : bytesOf(image), snapshot);
  const world = isModule ? image.world() : await load(image, library);
  try {
    putAllBack(world, all);
    return world;
  } catch (error) {
    world.close();
    throw error;
  }
}
