// Tests of runs that a time, a worker or a signal ends, and of what runs leave that are cut short.
import assert from "node:assert/strict";
import { Worker } from "node:worker_threads";
import { Call, Ended, Plugin, Ready, load } from "./index.mjs";
import { SOURCE } from "./test_calls.mjs";

const MANY = Number.MAX_SAFE_INTEGER - 1e9; // steps that no test waits for
const SOON = 20; // milliseconds
const LOOPS = `
.sandbox 256
.gate tell 5
        la   s0, count
again:  lw   t0, 0(s0)
        addi t0, t0, 7
        sw   t0, 0(s0)
        andi a0, t0, 1023
        bnez a0, again
        mv   a0, t0
        call tell
        sw   a0, 4(s0)
        j    again
.data
count:  .word 0, 0
`;

const endsBy = (cause) => (error) => error.cause === cause;
const answer = (call) => call.reply((call.a0 * 77) % 4096, call.a1);

async function stopped(image) {
  const sandbox = (await load(image)).sandboxes[0];
  sandbox.stop();
  return sandbox;
}

function isEnded(sandbox, cause, limits) {
  assert.throws(() => sandbox.call("spin", 7, { steps: MANY, ...limits }), endsBy(cause));
  assert.equal(sandbox.call("get", 61), 1061);
}

export const limitTests = (built) => ({
  async "a time ends a call"() {
    const sandbox = await stopped(built(SOURCE));
    const before = performance.now();
    isEnded(sandbox, Ended.TIMED_OUT, { timeout: SOON });
    assert.ok(performance.now() - before >= SOON);
    isEnded(sandbox, Ended.TIMED_OUT, { timeout: 0 });
    assert.equal(sandbox.call("get", 61, { timeout: 60_000 }), 1061);
  },
  async "a worker ends a call"() {
    const sandbox = await stopped(built(SOURCE));
    const interrupt = new Int32Array(new SharedArrayBuffer(4));
    const text = `setTimeout(() => Atomics.store(require("node:worker_threads").workerData, 0, 1), ${SOON})`;
    const worker = new Worker(text, { eval: true, workerData: interrupt });
    await new Promise((done) => { worker.once("online", done); });
    isEnded(sandbox, Ended.INTERRUPTED, { interrupt });
    await worker.terminate();
  },
  async "a handler ends the call that it serves"() {
    const sandbox = await stopped(built(SOURCE));
    const own = new AbortController();
    const serve = (call) => { if (call.a0 === 3) own.abort(); call.reply(call.a0, 0); };
    assert.throws(() => sandbox.call("sum_by", 5, { serve, interrupt: own.signal }), endsBy(Ended.INTERRUPTED));
    assert.equal(sandbox.call("get", 61), 1061);
  },
  async "calls of handlers end, too"() {
    const sandbox = await stopped(built(SOURCE));
    const late = (call) => { assert.throws(() => sandbox.call("spin", 7, { steps: MANY }), endsBy(Ended.TIMED_OUT)); call.reply(0, 0); };
    assert.throws(() => sandbox.call("parse", 7, { steps: MANY, serve: late, timeout: SOON }), endsBy(Ended.TIMED_OUT));
    assert.equal(sandbox.call("get", 61), 1061);
  },
  async "a plug-in's calls"() {
    const own = new AbortController();
    const it = await Plugin.load(built(SOURCE), { steps: MANY, timeout: SOON, interrupt: own.signal });
    for (const call of [() => it.exports.spin(), () => it.call64("spin"), () => it.callWords("spin")]) {
      assert.throws(call, /is over: its time is over/);
      assert.equal(it.exports.get(61), 1061);
    }
    own.abort();
    assert.throws(() => it.exports.get(61), /it is interrupted/);
    await assert.rejects(Plugin.load(built(".sandbox 256\n.gate exit 0\non: j on\n"), { steps: MANY, timeout: 0 }), /its time is over/);
  },
  async "what is no limit"() {
    const sandbox = await stopped(built(SOURCE));
    for (const timeout of [-1, NaN, "1"]) assert.throws(() => sandbox.call("get", 1, { timeout }), RangeError);
    for (const interrupt of [true, {}, new Uint8Array(4)]) assert.throws(() => sandbox.events(1, { interrupt }), TypeError);
  },
  async "runs that are cut go on as one"() {
    const [whole, cut] = await Promise.all([load(built(LOOPS)), load(built(LOOPS))]).then((worlds) => worlds.map((it) => it.sandboxes[0]));
    for (const steps of [1, 99_999, 100_000, 100_001, 1_234_567]) {
      whole.run(steps, answer);
      for (let timeout = 0; cut.steps < whole.steps; timeout += 0.5) {
        assert.ok(cut.run(whole.steps - cut.steps, answer, { timeout }) instanceof Ready);
      }
      assert.deepEqual(cut.registers, whole.registers);
      assert.deepEqual(cut.read(cut.data.base, cut.data.size), whole.read(whole.data.base, whole.data.size));
      assert.ok(!(whole.event instanceof Call) || cut.event instanceof Call);
    }
  },
});
