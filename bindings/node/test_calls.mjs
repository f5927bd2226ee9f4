// Tests of calls of functions that don't return, and of 64 bits, which test.mjs runs: bindings/calls.s is that of all languages'
// tests, which have the same cases.
import assert from "node:assert/strict";
import { readFileSync } from "node:fs";
import { Call, Ended, NotReturned, Plugin, Ready, load } from "./index.mjs";

export const SOURCE = readFileSync(new URL("../calls.s", import.meta.url), "utf8");
const FUNCTIONS = ["get", "noted", "parse", "sum_by", "wide", "wild", "spin"];
const STEPS = 10_000;

class Unserved extends Error {} // a host's own

/** What handlers do to the sandbox of a call, in that world. */
const raises = () => { throw new Unserved(); };
const saysNothing = () => {};
const stops = ({ sandbox }) => sandbox.stop();
const resets = ({ sandbox }) => sandbox.reset();
const entersAnother = ({ sandbox }) => {
  sandbox.stop();
  sandbox.enter(sandbox.export("get"), [1]);
};
const callsAnother = ({ sandbox }) => {
  sandbox.stop();
  assert.equal(sandbox.call("get", 1), 1001);
};
const setsRegisters = ({ sandbox }) => { sandbox.registers = sandbox.registers; };
const removes = ({ sandbox }, world) => world.remove(sandbox);
const closes = (_, world) => world.close();
const answers = (call) => call.reply(call.a0);
const LOST = [removes, closes];

// What is called, what its handler does, and how that call ends.
const CASES = [["parse", raises, Unserved], ["parse", saysNothing, Ended.REFUSED], ["parse", undefined, Ended.REFUSED],
  ["parse", stops, Ended.STOPPED], ["parse", resets, Ended.GONE], ["parse", entersAnother, Ended.GONE],
  ["parse", callsAnother, Ended.GONE], ["parse", setsRegisters, Ended.GONE], ["parse", removes, Ended.GONE],
  ["parse", closes, Ended.GONE], ["wild", undefined, Ended.TRAPPED], ["spin", undefined, Ended.STEPS_USED]];

/** A world of the plug-in, whose sandbox has stopped, and what is asked of it. */
async function failing(image) {
  const world = await load(image);
  const [sandbox] = world.sandboxes;
  sandbox.stop();
  const at = Object.fromEntries(FUNCTIONS.map((name) => [name, sandbox.export(name)]));
  return {
    world, sandbox, at,
    noted: () => new Uint32Array(sandbox.read(at.noted, 4).buffer)[0],
    /** How a call ends: the host's own error, or its cause. */
    ended(name, handler, argument = 7, steps = STEPS) {
      const serve = handler && ((call) => handler(call, world));
      try {
        return sandbox.call(at[name], argument, { steps, serve });
      } catch (error) {
        if (error instanceof NotReturned) return error.cause;
        if (error instanceof Unserved) return Unserved;
        throw error;
      }
    },
    isRight() {
      assert.equal(sandbox.call(at.get, 61), 1061);
      assert.equal(sandbox.call(at.sum_by, 5, { serve: answers }), 10);
    },
  };
}

/** What is tried in the handler of a call around it: the second of three calls. */
function callBack(it, [name, handler, wanted], found) {
  return (call) => {
    if (call.a0 === 1) {
      const before = it.sandbox.registers;
      found.push(it.ended(name, handler));
      if (wanted !== Ended.GONE) {
        assert.deepEqual([it.sandbox.registers, call.isWaiting, it.noted()], [before, true, 7]);
        assert.equal(it.sandbox.call("get", 61), 1061);
      }
    }
    if (call.isWaiting) call.reply(call.a0);
  };
}

/** The tests by their names, over what builds an image of a source text. */
export const callTests = (built) => ({
  async "a call ends"() {
    const image = built(SOURCE);
    for (const [name, handler, wanted] of CASES) {
      const it = await failing(image);
      assert.equal(it.ended(name, handler), wanted, `${name} ${handler}`);
      if (LOST.includes(handler)) {
        assert.throws(() => it.isRight(), RangeError);
        continue;
      }
      assert.ok(!(it.sandbox.event instanceof Ready) && !(it.sandbox.event instanceof Call), `${name} ${handler}`);
      assert.equal(it.noted(), handler === resets ? 0 : 7);
      it.isRight();
    }
  },
  async "a call back ends"() {
    const image = built(SOURCE);
    for (const row of CASES) {
      const [it, found] = [await failing(image), []];
      const sum = it.ended("sum_by", callBack(it, row, found), 3, 2 * STEPS); // the steps of what is called back count, too
      assert.deepEqual([sum, found], [row[2] === Ended.GONE ? Ended.GONE : 3, [row[2]]], `${row}`);
      if (!LOST.includes(row[1])) it.isRight();
    }
  },
  async "a handler's error passes through calls around it"() {
    const it = await failing(built(SOURCE));
    const outer = (call) => it.sandbox.call("parse", call.a0, { serve: raises });
    assert.deepEqual([it.ended("sum_by", outer, 3), it.noted()], [Unserved, 2]);
    it.isRight();
  },
  async "no frame is left"() {
    const it = await failing(built(SOURCE));
    for (const handler of [raises, saysNothing]) {
      for (let count = 0; count < 2000; count++) it.ended("parse", handler);
      it.isRight();
      const inner = (call) => {
        for (let count = 0; count < 500; count++) it.ended("parse", handler);
        call.reply(call.a0);
      };
      assert.equal(it.sandbox.call("sum_by", 5, { serve: inner }), 10);
      it.isRight();
    }
  },
  async "what can't be called"() {
    const { sandbox, at } = await failing(built(SOURCE));
    const refuses = (pc, cause) => {
      const before = [sandbox.registers, { ...sandbox.event }, sandbox.steps];
      assert.throws(() => sandbox.call(pc, 1), (error) => error instanceof NotReturned && error.cause === cause);
      assert.deepEqual([sandbox.registers, { ...sandbox.event }, sandbox.steps], before);
    };
    refuses(8, Ended.NO_FUNCTION);
    refuses(at.get + 2, Ended.NO_FUNCTION);
    sandbox.enter(at.spin);
    refuses(at.get, Ended.BUSY);
    assert.throws(() => sandbox.call(at.get), /didn't begin: .* in the midst of a run.*`stop` ends/);
    sandbox.stop();
    sandbox.enter(at.parse, [3]);
    const waiting = sandbox.turn(100);
    refuses(8, Ended.NO_FUNCTION);
    assert.ok(waiting.isWaiting);
  },
  async "what is said of a call that is over"() {
    const image = built(SOURCE);
    for (const [name, handler, said] of [
      ["wild", undefined, /call of [0-9a-f]{8} in sandbox 0 is over: it trapped, Store at 017ffffc\. .* has stopped, and can be called/],
      ["spin", undefined, /its steps are used .*`enter`.*`events`.* has stopped, and can be called/],
      ["parse", undefined, /no handler replied \(service 3 at [0-9a-f]{8}\)/], ["parse", stops, /a handler stopped the sandbox/],
      ["parse", resets, /a handler reset, .* has stopped, and can be called/], ["parse", removes, /it is no longer there/],
      ["parse", ({ sandbox }) => sandbox.call("spin", 7, { steps: 50 }), /it stands again at the call at which it was called/]]) {
      const { sandbox, world } = await failing(image);
      const serve = handler && ((call) => handler(call, world));
      assert.throws(() => sandbox.call(name, 7, { steps: STEPS, serve }), said);
    }
  },
  async "arguments and 64 bits"() {
    const it = await Plugin.load(built(SOURCE));
    for (const [low, high, wanted] of [[1, 2, 0x2_00000001n], [-1, 0, 0xffffffffn], [0, -(2 ** 31), 2n ** 63n],
      [2 ** 32 - 1, 2 ** 32 - 1, 2n ** 64n - 1n]]) {
      assert.deepEqual([it.call64("wide", low, high), it.exports.wide(low, high)], [wanted, Number(BigInt.asUintN(32, wanted))]);
    }
    const { steps } = it.sandbox;
    for (const wrong of [2 ** 32, -(2 ** 31) - 1, 0.5, "1", null, 7n, {}, NaN]) assert.throws(() => it.exports.wide(1, wrong), RangeError);
    for (const options of [{ steps: -1 }, { steps: 1.5 }]) assert.throws(() => it.sandbox.call("wide", 1, options), RangeError);
    for (const options of [{ serve: 5 }, null, [1]]) assert.throws(() => it.sandbox.call("wide", 1, options), TypeError);
    assert.deepEqual([it.sandbox.steps, it.exports.get(3)], [steps, 1003]);
    await assert.rejects(Plugin.load(built(SOURCE), { handlers: { ask: 5 } }), TypeError);
  },
  async "what handlers answer"() {
    const image = built(SOURCE);
    for (const [ask, wanted] of [[(call) => [call.a0, 9], 0x9_00000006n], [(call) => call.reply(call.a0, 8), 0x8_00000006n],
      [() => [-2, -1], 2n ** 64n - 2n], [(call) => { call.reply(1, 2); return 5; }, 0x2_00000001n], [() => null, 0n],
      [() => -1, 0xffffffffn], [() => true, 1n]]) {
      assert.equal((await Plugin.load(image, { handlers: { ask } })).call64("parse", 6), wanted, `${ask}`);
    }
    for (const wrong of ["1", 0.5, [1], [1, 2, 3], [1, "2"], {}, 7n, Promise.resolve(1)]) {
      const it = await Plugin.load(image, { handlers: { ask: () => wrong } });
      assert.throws(() => it.exports.parse(6), /a handler answers an integer/);
      assert.equal(it.exports.get(61), 1061);
    }
    const failing = await Plugin.load(image, { handlers: { ask: raises }, steps: 1000 });
    for (let count = 0; count < 1100; count++) assert.throws(() => failing.exports.parse(1), Unserved);
    for (const [name, cause] of [["spin", Ended.STEPS_USED], ["wild", Ended.TRAPPED]]) {
      assert.throws(() => failing.call(name, 5), (error) => error.cause === cause);
      assert.equal(failing.exports.get(61), 1061);
    }
    await assert.rejects(Plugin.load(built(".sandbox 256\n.gate exit 0\non: j on\n"), { steps: 100 }), /the start in sandbox 0 .*it has stopped$/);
  },
});
