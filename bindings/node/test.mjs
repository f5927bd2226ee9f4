// Tests of the package: SFI=PATH node test.mjs [PATTERN], with the path of the program sfi. The addresses, registers and numbers
// that are wanted are those of docs/IMAGE.md and docs/GATES.md. The last line is `N passed, M failed`.
import assert from "node:assert/strict";
import { execFileSync } from "node:child_process";
import { Call, Cause, Console, Ended, Exited, Library, Meets, Module, NoImage, NoMemory, NoName, NotEntered, NotReturned, NotRunning, NotWaiting,
  OutsideData, Plugin, Ready, Refused, Stopped, Trapped, load } from "./index.mjs";
import { callTests } from "./test_calls.mjs";
import { limitTests } from "./test_limits.mjs";
import { signatureTests } from "./test_signatures.mjs";
import { sizeTests } from "./test_sizes.mjs";
import { snapshotTests } from "./test_snapshots.mjs";
import { valueTests } from "./test_values.mjs";

const SFI = process.env.SFI ?? new URL("../../crates/sfi/out/sfi", import.meta.url).pathname;
const [CODE, DATA] = [0x01000000, 0x01800000]; // of the first sandbox
// One sandbox of 256 bytes, which posts twice what it is entered with, or 5, and exits with the reply's a1.
const TWICE = `
.sandbox 256
.gate exit 0
.gate post 4
        li   a0, 5
        add  a1, a0, a0
        call post
        mv   a0, a1
        call exit
`;
// At its start it exits. sum returns the sum of its arguments, twice the double of the answer to a call of ask.
const PLUGIN = `
.sandbox 256
.gate exit 0
.gate ask 3
        call exit
sum:    add  a0, a0, a1
        ret
twice:  mv   s0, ra
        call ask
        add  a0, a0, a0
        jr   s0
`;
const [ASK, SUM, DOUBLE] = [CODE + 0x10, CODE + 0x30, CODE + 0x40]; // as `sfi map` tells
// It calls once, and loops then.
const LOOPS = `
.sandbox 256
.gate put 1
        li   a1, 7
        call put
on:     j    on
`;
const INIT_COUNT = 32; // where the first sandbox's number of first data bytes lies
const EBREAKS = Buffer.from("73001000".repeat(64), "hex");
const HEAD = "53464931010000000000000100010000000080010001000000000001" + "0000000000000000";
const SMALLEST = Buffer.concat([Buffer.from(HEAD, "hex"), EBREAKS]);

const built = (source, ...options) => Buffer.from(execFileSync(SFI, ["build", ...options], { input: source }).toString(), "hex");
const place = (number) => number.toString(16).padStart(8, "0");
const moduleAt = (source, by) => Module.load(built(source, "--at", `${place(CODE + by)}:${place(DATA + by)}`));
const numbers = (...words) => Buffer.from(Uint32Array.from(words).buffer);
const entry = (address, name) => Buffer.concat([numbers(address), Buffer.from([name.length]), Buffer.from(name)]);
const table = (exported, imported = Buffer.alloc(0), version = 0) =>
  Buffer.concat([exported, imported, numbers(version, exported.length, imported.length), Buffer.from("SFIN")]);

/** An image of one sandbox without data, with these first data bytes. */
function withData(image, data) {
  const made = Buffer.concat([image, data]);
  made.writeUInt32LE(data.length, INIT_COUNT);
  return made;
}

const NAMED = Buffer.concat([entry(SUM, "sum"), entry(DOUBLE, "twice"), entry(8, "nowhere"), entry(8, "then")]);
const plugin = (handlers) => Plugin.load(withData(built(PLUGIN), table(NAMED, entry(ASK, "ask"))), { handlers });
const first = async (source) => (await load(built(source))).sandboxes[0];
const answer = (call) => (call.service ? call.reply(0, 9) : call.exit(call.a0));

const tests = {
  async "the worlds of a module"() {
    const image = withData(built(PLUGIN), table(NAMED, entry(ASK, "ask")));
    const module = await Module.load(image);
    const [one, two] = [1, 2].map((more) => module.instance({ handlers: { ask: (call) => call.a0 + more } }));
    const world = module.world();
    const loaded = (await load(image)).sandboxes[0];
    module.close();
    assert.throws(() => module.world(), /closed/);
    assert.deepEqual([one.exports.twice(3), two.exports.twice(3), one.exports.sum(2, 3)], [8, 10, 5]);
    one.sandbox.write(DATA, Buffer.from("mine"));
    for (const sandbox of [world.sandboxes[0], two.sandbox])
      assert.deepEqual(sandbox.read(DATA, 4), loaded.read(DATA, 4));
    assert.deepEqual([world.sandboxes[0].steps, world.sandboxes[0].registers], [loaded.steps, loaded.registers]);
    one.close();
    assert.equal(two.exports.sum(4, 5), 9);
    await assert.rejects(Module.load(image.subarray(1)), NoImage);
  },

  async "bytes that are no image"() {
    // docs/IMAGE.md: 1 is the magic, 3 bytes that are cut short, 11 bytes that are left
    const longer = Buffer.concat([SMALLEST, Buffer.alloc(1)]);
    for (const [image, fault, name] of [["SFI9", 1, "Magic"], [SMALLEST.subarray(0, -1), 3, "Short"], [longer, 11, "Trailing"]]) {
      const wanted = { fault, message: `the bytes are no image: layout fault ${fault} ${name}` };
      await assert.rejects(load(Buffer.from(image)), (error) => error instanceof NoImage && matches(error, wanted));
    }
    for (const image of [5, "SFI1", null, [1, 2]]) await assert.rejects(load(image), TypeError);
  },
  async "an image with broken rules"() {
    const image = Buffer.from(SMALLEST);
    image.set(Buffer.from("130c1c00130c1c00", "hex"), SMALLEST.indexOf(EBREAKS)); // addi x24, x24, 1
    const wanted = { findings: 2, first: { sandbox: 0, address: CODE, rule: 4 },
      message: "rules are broken in the image: findings=2 first=V4 sandbox=0 at=01000000" };
    await assert.rejects(load(image), (error) => error instanceof Refused && matches(error, wanted));
  },
  async "a closed world, and many"() {
    const world = await load(SMALLEST);
    const [sandbox] = world.sandboxes;
    assert.equal(world.sandboxes.length, 1);
    world.close();
    world.close();
    assert.deepEqual(world.sandboxes, []);
    for (const use of [() => sandbox.turn(1), () => sandbox.steps, () => sandbox.read(DATA, 1), () => sandbox.export("add"),
      () => sandbox.events(1), () => sandbox.reset(), () => sandbox.enter(CODE)]) assert.throws(use, RangeError);
    const library = await Library.load();
    const size = [];
    for (let count = 0; count < 300; count++) {
      (await load(SMALLEST, library)).close();
      size.push(library.bytes.length);
    }
    assert.equal(size[299], size[10]);
  },
  async "the beginning"() {
    const { registers: { pc, x }, data, event, steps } = await first(TWICE);
    const wanted = { 2: DATA + 240, 24: CODE, 25: 256 - 16, 26: DATA, 27: 255 };
    assert.deepEqual([pc, x], [CODE + 32, Array.from({ length: 32 }, (_, number) => wanted[number] ?? 0)]);
    assert.deepEqual([data, event, steps], [{ base: DATA, size: 256 }, new Ready(), 0]);
  },
  async "a call and its reply"() {
    const sandbox = await first(TWICE);
    const call = sandbox.turn(1000);
    const wanted = { service: 4, a0: 5, a1: 10, a2: 0, a3: 0, a4: 0, a5: 0, a6: 0, a7: 0, gate: 1, pc: CODE + 16 };
    assert.deepEqual({ ...call }, wanted);
    const { steps } = sandbox;
    assert.deepEqual([{ ...sandbox.turn(1000) }, sandbox.steps, call.sandbox], [wanted, steps, sandbox]);
    for (const value of [-1, 2 ** 32, 0.5, "7", 7n]) {
      for (const use of [() => call.reply(value), () => call.reply(0, value), () => call.exit(value), () => sandbox.turn(value),
        () => sandbox.read(value, 1), () => sandbox.enter(value)]) assert.throws(use, RangeError);
    }
    call.reply(1, 0xffffffff);
    assert.deepEqual([sandbox.steps, sandbox.event], [steps + 1, new Ready()]);
    for (const again of [() => call.reply(1, 77), () => call.exit(1), () => sandbox.reply(1, 2), () => sandbox.exit(1)]) {
      assert.throws(again, NotWaiting);
    }
    const last = sandbox.turn(1000);
    assert.deepEqual([last.service, last.a0], [0, 0xffffffff]);
    last.exit(last.a0);
    assert.deepEqual(sandbox.event, new Exited(0xffffffff));
  },
  async "a reply that keeps a1, and a call that was kept"() {
    const sandbox = await first(TWICE);
    const early = sandbox.turn(1000);
    early.reply(0);
    const second = sandbox.turn(1000);
    assert.equal(second.a0, 10);
    assert.throws(() => early.reply(9), NotWaiting);
    second.exit(3);
    sandbox.enter(CODE + 32);
    const again = sandbox.turn(1000);
    assert.throws(() => second.reply(9), NotWaiting);
    assert.ok(again.isWaiting);
  },
  async "stops and registers"() {
    const sandbox = await first(TWICE);
    assert.deepEqual(sandbox.until([], 1), new Ready());
    assert.equal(sandbox.until([0, CODE + 16], 1000).service, 4);
    const kept = sandbox.registers;
    const call = sandbox.event;
    sandbox.stop();
    sandbox.registers = kept;
    assert.throws(() => call.reply(1), NotWaiting);
    assert.deepEqual([sandbox.event.service, sandbox.registers, sandbox.pc], [4, kept, kept.pc]);
    for (const [pc, number] of [[CODE + 1, 0], [CODE, 24], [CODE, 27], [0, 0]]) {
      const x = kept.x.map((value, at) => value + (at === number && number ? 1 : 0));
      assert.throws(() => { sandbox.registers = { pc, x }; }, NotEntered);
    }
    assert.throws(() => { sandbox.registers = { pc: kept.pc, x: [...kept.x, 0] }; }, RangeError);
    assert.throws(() => sandbox.until([2 ** 32], 1), RangeError);
    assert.deepEqual(sandbox.registers, kept);
  },
  async "events, and no steps but those given"() {
    const ends = [];
    for (const most of [1, 2, 3, 7, 1000]) {
      const sandbox = await first(TWICE);
      while (!(sandbox.event instanceof Exited)) {
        const before = sandbox.steps;
        sandbox.run(most, answer);
        assert.ok(sandbox.steps - before <= most);
      }
      ends.push([sandbox.steps, sandbox.event.number]);
    }
    for (const end of ends) assert.deepEqual(end, [ends[0][0], 9]);
    const sandbox = await first(TWICE);
    const services = () => [...sandbox.events(1000)].map(({ service }) => service);
    assert.deepEqual([services(), services()], [[4], [4]]);
    assert.throws(() => sandbox.events(-5), /steps is -5/);
    assert.deepEqual([...sandbox.events(0)], [new Ready()]);
  },
  async "an answer that is awaited"() {
    const sandbox = await first(TWICE);
    let last;
    for (const event of sandbox.events(1000)) {
      last = event;
      if (event instanceof Call) answer(await Promise.resolve(event));
    }
    assert.deepEqual(last, new Exited(9));
  },
  async "the budget of a loop that runs the sandbox"() {
    for (const own of [0, 50, 99, 200]) {
      const sandbox = await first(LOOPS);
      let used = 0;
      const last = sandbox.run(100, (call) => {
        call.reply(0);
        sandbox.turn(own);
        used = sandbox.steps;
      });
      assert.deepEqual([last, sandbox.steps], [new Ready(), Math.max(used, 100)]);
    }
  },
  async "what loops is stopped, entered and reset"() {
    const sandbox = await first(LOOPS);
    const fresh = [sandbox.registers, sandbox.read(DATA, 256)];
    sandbox.turn(100).reply(0);
    assert.deepEqual(sandbox.turn(100), new Ready());
    sandbox.write(DATA + 255, Buffer.from("x"));
    const before = [sandbox.steps, sandbox.registers];
    sandbox.stop();
    assert.throws(() => sandbox.stop(), NotRunning);
    assert.deepEqual([sandbox.turn(100), sandbox.event], [new Stopped(), new Stopped()]);
    assert.deepEqual([sandbox.steps, sandbox.registers], before);
    sandbox.enter(fresh[0].pc);
    const call = sandbox.turn(100);
    sandbox.reset();
    assert.deepEqual([sandbox.registers, sandbox.read(DATA, 256), sandbox.steps], [...fresh, 0]);
    assert.equal(sandbox.turn(100).service, 1);
    assert.throws(() => call.reply(0), NotWaiting);
  },
  async "data"() {
    const sandbox = await first(TWICE);
    sandbox.write(DATA + 250, Uint8Array.of(1, 0, 2, 0, 3, 4));
    assert.deepEqual(sandbox.read(DATA + 249, 7), Uint8Array.of(0, 1, 0, 2, 0, 3, 4));
    assert.deepEqual(sandbox.read(DATA, 0), new Uint8Array());
    for (const [at, count] of [[DATA - 1, 1], [DATA - 1, 2], [DATA + 255, 2], [DATA + 256, 1], [DATA, 257], [CODE, 4], [0, 1],
      [0xffffffff, 2], [DATA, (1 << 20) + 1]]) {
      assert.throws(() => sandbox.read(at, count), OutsideData);
      assert.throws(() => sandbox.write(at, new Uint8Array(count).fill(255)), OutsideData);
    }
    assert.throws(() => sandbox.read(DATA, -1), OutsideData);
    for (const data of [7, "text", null, [1, 2]]) assert.throws(() => sandbox.write(DATA, data), TypeError);
    assert.equal(Buffer.from(sandbox.read(DATA, 256)).toString("hex"), "00".repeat(250) + "010002000304");
  },
  async "functions by their addresses"() {
    const sandbox = await first(PLUGIN);
    assert.throws(() => sandbox.call(SUM, 2, 3), (error) => error instanceof NotReturned && error.cause === Ended.BUSY);
    sandbox.turn(100).exit(0);
    assert.deepEqual([sandbox.call(SUM, 2, 3), sandbox.call(SUM, 0xffffffff, 3, { steps: 100 })], [5, 2]);
    assert.equal(sandbox.call(DOUBLE, 6, { serve: (call) => call.reply(call.a0 * 7) }), 84);
    assert.throws(() => sandbox.call(DOUBLE, 6, 7), (error) => error instanceof NotReturned && error.event.service === 3);
    assert.throws(() => sandbox.call(SUM, 2, 3, { steps: 1 }), (error) => error.event instanceof Ready);
    assert.throws(() => sandbox.call(SUM, ...new Array(9).fill(0)), RangeError);
    assert.throws(() => sandbox.call("sum", 2, 3), (error) => error instanceof NoName && error.why === 3);
    for (const pc of [SUM + 4, CODE - 16, CODE + 256, DATA]) assert.throws(() => sandbox.enter(pc), NotEntered);
    sandbox.enter(SUM, [1, 2, 3, 4, 5, 6, 7, 8]);
    assert.deepEqual(sandbox.registers.x.slice(10, 18), [1, 2, 3, 4, 5, 6, 7, 8]);
    sandbox.stop();
    sandbox.enter(SUM, [9]);
    assert.deepEqual(sandbox.registers.x.slice(10, 18), [9, 0, 0, 0, 0, 0, 0, 0]);
  },
  async "what a table of names says"() {
    const exported = Buffer.concat([entry(CODE, "add"), entry(CODE + 16, "add"), entry(0xffffffff, "~".repeat(180))]);
    const image = withData(SMALLEST, Buffer.concat([Buffer.from("before"), table(exported, entry(CODE + 32, "log"), 9)]));
    const [sandbox] = (await load(image)).sandboxes;
    assert.deepEqual(["add", "~".repeat(180)].map((name) => sandbox.export(name)), [CODE, 0xffffffff]);
    assert.deepEqual([sandbox.imported("log"), sandbox.api], [CODE + 32, 9]);
    const why = async (data, name) => {
      const [asked] = (await load(withData(SMALLEST, data))).sandboxes;
      try { return asked.export(name); } catch (error) { return error.why; }
    };
    const right = table(entry(CODE, "add"), entry(CODE, "log"));
    for (const name of ["ad", "addd", "", "log", "\u00e4"]) assert.equal(await why(right, name), 5);
    assert.equal(await why(Buffer.alloc(0), "add"), 3);
    for (const data of [table(entry(CODE, "a b")), right.subarray(1), Buffer.from("SFIN")]) assert.equal(await why(data, "add"), 4);
  },
  async "functions by their names"() {
    const it = await plugin();
    assert.deepEqual([it.exports.sum(2, 3), it.call("sum", 4, 5), it.sandbox.call("sum", 6, 7)], [5, 9, 13]);
    assert.deepEqual([it.exports.total, it.exports[Symbol.iterator], it.address("sum")], [undefined, undefined, SUM]);
    assert.throws(() => it.call("total"), /total: the table doesn't have the name/);
    assert.throws(() => it.exports.nowhere(), (error) => error.cause === Ended.NO_FUNCTION);
    assert.throws(() => it.exports.twice(9), NotReturned);
    assert.equal(it.exports.sum(1, 2), 3);
    await assert.rejects(Plugin.load(built(LOOPS), { handlers: { put: () => 1 } }), NoName);
    await assert.rejects(Plugin.load(built(LOOPS)), NotReturned);
    await assert.rejects(Plugin.load(SMALLEST, { number: 1 }), RangeError);
  },
  async "handlers and callbacks"() {
    const less = await plugin({ ask: (call) => call.a0 - 4, unasked: () => 1 });
    assert.deepEqual([less.exports.twice(9), less.exports.twice(3)], [10, 0xfffffffe]);
    const adds = await plugin({ ask: (call) => adds.exports.sum(call.a0, 1) });
    assert.deepEqual([adds.exports.twice(9), adds.sandbox.event], [20, new Exited(20)]);
    const deep = await plugin({ ask: (call) => (call.a0 ? deep.exports.twice(call.a0 - 1) : 1) });
    assert.equal(deep.exports.twice(3), 16); // s0 is that of each call again
    const promises = await plugin({ ask: async () => 1 });
    assert.throws(() => promises.exports.twice(3), TypeError);
    const calls = [];
    const keeps = await plugin({ ask: (call) => void calls.push(call) });
    keeps.sandbox.enter(DOUBLE, [9]);
    const waiting = keeps.sandbox.turn(1000);
    assert.deepEqual([keeps.exports.twice(4), calls.length], [0, 1]);
    assert.throws(() => calls[0].reply(0), NotWaiting);
    waiting.reply(7);
    assert.equal(keeps.sandbox.turn(1000).a0, 14);
  },
  async "sandboxes come and go"() {
    const [twice, other, near] = await Promise.all([0, 0x100000, 0x1000].map((by) => moduleAt(TWICE, by)));
    const world = twice.world();
    const [one] = world.sandboxes;
    const waiting = one.turn(1000);
    for (const module of [twice, near]) assert.throws(() => world.add(module), Meets);
    const [two] = world.add(other);
    assert.deepEqual([two.number, two.steps, two.data, world.sandboxes.length], [1, 0, { base: DATA + 0x100000, size: 256 }, 2]);
    const kept = two.turn(1000);
    assert.throws(() => near.world().remove(one), RangeError);
    world.remove(one);
    assert.deepEqual([two.number, world.sandboxes.length, waiting.isWaiting, kept.isWaiting], [0, 1, false, true]);
    for (const use of [() => one.event, () => world.remove(one), () => waiting.reply(0)]) assert.throws(use);
    kept.reply(0, 8);
    assert.equal(two.turn(100).a0, 8);
    assert.equal(world.add(near)[0].number, 1);
    for (const sandbox of world.sandboxes) world.remove(sandbox);
    assert.deepEqual(world.sandboxes, []);
    near.close();
    assert.throws(() => world.add(near), RangeError);
    world.close();
    assert.throws(() => world.add(twice), RangeError);
    const elsewhere = (await load(SMALLEST, await Library.load()));
    assert.throws(() => elsewhere.add(other), RangeError);
    const library = await Library.load();
    const fourth = await load(SMALLEST, library);
    for (const [status, why] of [[5, NoMemory], [6, NoMemory], [7, /status 7/]]) {
      library.calls.remove = () => status;
      assert.throws(() => fourth.remove(fourth.sandboxes[0]), why);
    }
  },
  async "names of what is added"() {
    const image = withData(built(PLUGIN), table(NAMED, entry(ASK, "ask")));
    const world = (await moduleAt(TWICE, 0x100000)).world();
    const [added] = world.add(await Module.load(image));
    assert.deepEqual([added.number, added.export("sum"), added.imported("ask")], [1, SUM, ASK]);
  },
  async "traps"() {
    const [sandbox] = (await load(SMALLEST)).sandboxes;
    assert.deepEqual(sandbox.turn(1), new Trapped(Cause.BREAK, CODE));
  },
  async "a console"() {
    const world = await load(built(`.sandbox 256\n.gate put 1\n li a0, ${DATA}\n li a1, 3\n call put\n ebreak\n`));
    const [sandbox] = world.sandboxes;
    const console = new Console(world);
    const call = sandbox.turn(100);
    assert.equal(console.serve(call), true);
    assert.deepEqual(console.output, [new Uint8Array(3)]);
    assert.throws(() => console.serve(call), NotWaiting);
    console.rounds(2, 100);
    assert.match(console.line(sandbox), /^sandbox=0 trap=Break at=010000\w\w steps=\d+ out=000000$/);
    world.close();
    assert.throws(() => console.turn(sandbox, 1), RangeError);
    const other = await load(built(".sandbox 256\n.gate yield 3\n call yield\n ebreak\n"));
    assert.equal(new Console(other).serve(other.sandboxes[0].turn(100)), false);
  },
  async "the console of `sfi run`"() {
    const echo = ".sandbox 256\n.gate exit 0\n.gate put 1\n.gate get 2\n.gate yield 3\n"
      + ` li a0, ${DATA}\n li a1, 200\n call get\n mv a1, a0\n mv s0, a0\n li a0, ${DATA}\n call put\n call yield\n mv a0, s0\n call exit\n`;
    for (const [rounds, quantum] of [[1, 1000], [7, 3], [40, 1]]) {
      const words = ["run", "--rounds", `${rounds}`, "--quantum", `${quantum}`, "--input", "48656c6c6f"];
      const wanted = execFileSync(SFI, words, { input: built(echo) }).toString();
      const world = await load(built(echo));
      const console = new Console(world, Buffer.from("Hello"));
      console.rounds(rounds, quantum);
      assert.equal(world.sandboxes.map((sandbox) => `${console.line(sandbox)}\n`).join(""), wanted);
    }
  },
  async "a module that isn't there, or is of another version"() {
    await assert.rejects(Library.load("/none/sfi_run.wasm"), /\/none\/sfi_run.wasm.*SFI_RUN_MODULE has to name it/);
    for (const number of [0x4d0100, 0x000200, 0x000000]) {
      assert.throws(() => new Library({ sfi_run_version: () => number }), /another version/);
    }
  },
  async "answers that are unknown, and no memory"() {
    const library = await Library.load();
    const [sandbox] = (await load(SMALLEST, library)).sandboxes;
    for (const kind of [0, 6]) {
      library.calls.event = () => kind;
      assert.throws(() => sandbox.event, new RegExp(`kind ${kind}`));
    }
    library.calls.load = () => 4;
    await assert.rejects(load(SMALLEST, library), /status 4/);
    library.calls.load = () => 3;
    await assert.rejects(load(SMALLEST, library), NoMemory);
    assert.throws(() => library.room(2 ** 41), NoMemory);
  },
};

function matches(error, wanted) {
  for (const [name, value] of Object.entries(wanted)) assert.deepEqual(error[name], value);
  return true;
}

let [passed, failed] = [0, 0];
const others = { ...callTests(built), ...limitTests(built), ...signatureTests, ...sizeTests, ...snapshotTests(built, LOOPS), ...valueTests(built) };
for (const [name, test] of Object.entries({ ...tests, ...others })) {
  if (process.argv[2] && !name.includes(process.argv[2])) continue;
  try {
    await test();
    passed++;
  } catch (error) {
    failed++;
    console.log(`FAILED ${name}\n${error.stack}`);
  }
}
console.log(`${passed} passed, ${failed} failed`);
process.exitCode = failed ? 1 : 0;
