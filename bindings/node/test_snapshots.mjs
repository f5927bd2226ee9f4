// Tests of snapshots, which test.mjs runs: a restored world goes on as the first one does, step by step, and what is no snapshot of an
// image is refused. bindings/counts.s is that of all languages' tests.
import assert from "node:assert/strict";
import { createHash } from "node:crypto";
import { readFileSync } from "node:fs";
import { crc32 } from "node:zlib";
import { Call, Module, NoImage, NotTaken, Plugin, WrongSnapshot, load, snapshots } from "./index.mjs";
import { SOURCE } from "./test_calls.mjs";

const STEPS = 400; // that both worlds do one by one
const COUNTS = readFileSync(new URL("../counts.s", import.meta.url), "utf8");
const HEAD = 44; // bytes of a snapshot before its first sandbox

/** With the right sum of what else it has. */
function resummed(snapshot) {
  const bytes = Buffer.from(snapshot);
  bytes.writeUInt32LE(crc32(bytes.subarray(0, -4)), bytes.length - 4);
  return bytes;
}

const kindAndFields = (event) => [event.constructor.name, { ...event }];
const state = (world) => world.sandboxes.map((it) =>
  [kindAndFields(it.event), it.registers, it.steps, it.data, it.read(it.data.base, it.data.size)]);

/** A step of each sandbox, or an answer. */
function step(world) {
  for (const sandbox of world.sandboxes) {
    const event = sandbox.turn(1);
    if (!(event instanceof Call)) continue;
    if (event.service === 0) event.exit(event.a0);
    else event.reply((event.a0 * 77 + event.a1) >>> 0);
  }
}

/** A snapshot, taken as soon as each sandbox stands where it can be. */
function settled(world, image) {
  for (;;) {
    try {
      return snapshots.take(world, image);
    } catch (error) {
      if (!(error instanceof NotTaken)) throw error;
      step(world);
    }
  }
}

function goOnAlike(first, second) {
  assert.deepEqual(state(first), state(second));
  for (let done = 0; done < STEPS; done++) {
    step(first);
    step(second);
    assert.deepEqual(state(first), state(second));
  }
}

/** An image, and a snapshot of it. */
async function snapshotOf(built) {
  const image = built(COUNTS);
  return { image, snapshot: settled(await load(image), image) };
}

const isRefused = (image, snapshot, why) =>
  assert.rejects(snapshots.restore(image, snapshot), (error) => error instanceof WrongSnapshot && why.test(error.message));

/** `loops` is the source of a sandbox that calls once, and loops then. */
export const snapshotTests = (built, loops) => ({
  async "snapshots: as the first would"() {
    for (const line of ["", ".format 2\n", ".format words\n", ".format single\n"]) {
      const image = built(line + COUNTS);
      const [world, module] = [await load(image), await Module.load(image)];
      for (const steps of [0, 1, 37, 98, 151, 199]) {
        for (let done = 0; done < steps; done++) step(world);
        const snapshot = settled(world, image);
        assert.equal(snapshot.toString("latin1", 0, 4), "SNAP");
        const before = state(world);
        assert.deepEqual([snapshots.take(world, image), state(world)], [snapshot, before]);
        const second = await snapshots.restore(steps % 2 ? module : image, snapshot);
        assert.deepEqual(snapshots.take(second, image), snapshot);
        goOnAlike(world, second);
      }
    }
  },
  async "snapshots: each way to stand"() {
    const image = built(loops);
    const ways = [() => {}, (it) => it.turn(100), (it) => it.turn(100).exit(42), (it) => it.stop(), (it) => { it.turn(100); it.stop(); }];
    for (const way of ways) {
      const world = await load(image);
      way(world.sandboxes[0]);
      goOnAlike(world, await snapshots.restore(image, snapshots.take(world, image)));
    }
  },
  async "snapshots: a call waits in both"() {
    const image = built(loops);
    const world = await load(image);
    const call = world.sandboxes[0].turn(100);
    const second = await snapshots.restore(image, snapshots.take(world, image));
    assert.ok(call.isWaiting);
    second.sandboxes[0].event.reply(1, 2);
    call.reply(1, 2);
    assert.deepEqual(state(world), state(second));
    for (const it of [world, second]) it.sandboxes[0].reset();
    assert.deepEqual([state(second), second.sandboxes[0].steps], [state(world), 0]);
  },
  async "snapshots: steps that are many, and runs after them"() {
    const image = built(loops);
    const snapshot = snapshots.take(await load(image), image);
    snapshot.writeBigUInt64LE(2n ** 64n - 1n, HEAD + 140);
    const again = await snapshots.restore(image, resummed(snapshot));
    assert.deepEqual(snapshots.take(again, image), resummed(snapshot));
    const [sandbox] = again.sandboxes;
    assert.equal(sandbox.run(1000, (call) => call.reply(0)).constructor.name, "Ready");
    assert.equal(sandbox.steps, 999);
  },
  async "snapshots: plug-ins"() {
    const handlers = { ask: (call) => call.a0 + 1 };
    const plugin = await Plugin.load(built(SOURCE), { handlers });
    plugin.exports.parse(77);
    const again = await Plugin.restore(built(SOURCE), plugin.snapshot(), { handlers });
    assert.deepEqual(again.sandbox.read(again.address("noted"), 4), Uint8Array.of(77, 0, 0, 0));
    const uses = [plugin, again].map((it) => [it.exports.get(61), it.exports.parse(9), it.exports.sum_by(5)]);
    assert.deepEqual(uses[0], uses[1]);
    assert.deepEqual(again.snapshot(), plugin.snapshot());
    plugin.close();
    assert.throws(() => plugin.snapshot(), /is closed/);
    assert.throws(() => snapshots.take(plugin.world, built(SOURCE)), /is closed/);
  },
  async "snapshots: what cannot be taken"() {
    const image = built(".sandbox 256\n nop\n nop\n ebreak\n");
    const world = await load(image);
    const [sandbox] = world.sandboxes;
    sandbox.turn(1);
    const before = state(world);
    assert.throws(() => snapshots.take(world, image), new RegExp(`stands at 0${sandbox.pc.toString(16)}, within a bundle`));
    assert.deepEqual(state(world), before);
    sandbox.turn(300);
    assert.throws(() => snapshots.take(world, image), /has trapped/);
  },
  async "snapshots: another image"() {
    const { snapshot } = await snapshotOf(built);
    await isRefused(built(COUNTS.replace(".word 5", ".word 6")), snapshot, /another image/);
    const ofNothing = Buffer.from(snapshot);
    createHash("sha256").digest().copy(ofNothing, 8);
    await assert.rejects(snapshots.restore(new Uint8Array(), resummed(ofNothing)), NoImage);
    for (const image of [undefined, null, 5, "image"]) await assert.rejects(snapshots.restore(image, snapshot), TypeError);
  },
  async "snapshots: changed bytes and lengths"() {
    const { image, snapshot } = await snapshotOf(built);
    for (let at = 0; at < snapshot.length; at++) {
      const changed = Buffer.from(snapshot);
      changed[at] ^= 1 << at % 8;
      await isRefused(image, changed, /CRC-32/);
      await isRefused(image, snapshot.subarray(0, at), /CRC-32/);
      if (at >= 8) await isRefused(image, resummed(snapshot.subarray(0, at)), /ends before|end after|version|another image|of the image|no whole/);
    }
    await isRefused(image, Buffer.concat([snapshot, Buffer.alloc(1)]), /CRC-32/);
    await isRefused(image, resummed(Buffer.concat([snapshot, Buffer.alloc(1)])), /doesn't end/);
  },
  async "snapshots: forged words"() {
    const { image, snapshot } = await snapshotOf(built);
    const forged = [[0, 0, /version/], [4, 2, /version/], [HEAD, 4, /can't stand/], [HEAD, 9, /can't stand/], [HEAD, 2, /can't stand/],
      [HEAD, 3, /can't stand/], [HEAD + 8, 0x01000002, /can't stand/], [HEAD + 8, 0, /can't stand/], [HEAD + 12, 1, /can't stand/],
      [HEAD + 12 + 4 * 26, 5, /can't stand/], [HEAD + 12 + 4 * 24, 0, /can't stand/], [HEAD + 148, 0x01900000, /of the image/],
      [HEAD + 152, 511, /ends before|of the image|doesn't end/], [HEAD + 152, 2 ** 32 - 1, /doesn't end|ends before/], [40, 1, /doesn't end/],
      [40, 99, /ends before/]];
    for (const [at, word, why] of forged) {
      const changed = Buffer.from(snapshot);
      changed.writeUInt32LE(word, at);
      await isRefused(image, resummed(changed), why);
    }
  },
});
