// Tests of calls by signature, which test.mjs runs: bindings/values.s is that of all languages' tests. Its table gets the claims here,
// entry by entry, as docs/IMAGE.md has them, so that they may be wrong, too.
import assert from "node:assert/strict";
import { readFileSync } from "node:fs";
import { Call, Ended, Module, NoName, NotReturned, OutsideData, Plugin, Ready, Stopped, TooLong, WrongArguments, WrongSignature,
  byCall } from "./index.mjs";

const read = (name) => readFileSync(new URL(`../${name}`, import.meta.url), "utf8");
const [SOURCE, CALLS] = [read("values.s"), read("calls.s")];
const [CODE, DATA, SIZE] = [0x01000000, 0x01800000, 4096];
const TOP = DATA + SIZE - 16; // the stack pointer of a function that a host enters
const INIT_COUNT = 32; // where the sandbox's number of first data bytes lies
const MOST = 2 ** 32 - 1;

const numbers = (...words) => Buffer.from(Uint32Array.from(words).buffer);
const entry = (address, name) => Buffer.concat([numbers(address), Buffer.from([name.length]), Buffer.from(name, "latin1")]);
const bytes = (text) => Uint8Array.from(Buffer.from(text));

/** The tests by their names, over what builds an image of a source text. */
export function valueTests(built) {
  /** The image with these claims among its exports and imports, the numbers of which are 0, and those of its stack and what is above. */
  function claiming(claims, { imports = [], stack, above, image = built(SOURCE) } = {}) {
    const end = image.length - 16;
    const [version, first, second] = [0, 4, 8].map((at) => image.readUInt32LE(end + at));
    const init = image.length - image.readUInt32LE(INIT_COUNT);
    const lists = [[end - first - second, end - second], [end - second, end]].map(([from, to]) => image.subarray(from, to));
    const more = [claims, imports].map((some) => some.map((it) => (typeof it === "string" ? entry(0, it) : it)));
    if (stack !== undefined) more[1].push(entry(stack, ".stack"));
    if (above) more[1].push(entry(above, ".room"));
    const found = lists.map((list, index) => Buffer.concat([list, ...more[index]]));
    const made = Buffer.concat([image.subarray(0, end - first - second), ...found, numbers(version, found[0].length, found[1].length),
      Buffer.from("SFIN")]);
    made.writeUInt32LE(made.length - init, INIT_COUNT);
    return made;
  }

  const plugin = (claims, { handlers, signatures, steps, ...more } = {}) => Plugin.load(claiming(claims, more), { handlers, signatures, steps });
  const right = ({ exports: { add } }) => assert.equal(add(2, 3), 5);

  /** It throws that before anything runs: the sandbox stands as it did. Gives the error. */
  function refuses({ sandbox }, kind, call) {
    const stands = () => [sandbox.steps, sandbox.registers, { ...sandbox.event }, sandbox.read(sandbox.data.base, sandbox.data.size)];
    const before = stands();
    let found;
    assert.throws(call, (error) => { found = error; return error instanceof kind; });
    assert.deepEqual(stands(), before);
    return found;
  }

  return {
    async "numbers by signature"() {
      for (const [letter, value, wanted] of [["i", -1, -1], ["i", MOST, -1], ["u", -1, MOST], ["u", true, 1], ["p", DATA, DATA], ["l", -(2n ** 63n), -(2n ** 63n)],
        ["m", 2n ** 64n - 1n, 2n ** 64n - 1n], ["l", -5, -5n], ["f", 0.1, 0.10000000149011612], ["f", -0, -0], ["d", 0.1, 0.1], ["d", NaN, NaN]]) {
        const it = await plugin([`.same(${letter})${letter}`]);
        for (const found of [it.exports.same(value), it.call("same", value)]) assert.ok(Object.is(found, wanted), `${letter} ${value} ${found}`);
      }
      assert.equal((await plugin([".same(d)l"])).exports.same(-2), -(2n ** 62n)); // 0xc000000000000000
      assert.equal((await plugin([".same(i)v"])).exports.same(5), undefined);
      assert.equal((await plugin([".last(iiiiiiii)i"])).exports.last(1, 2, 3, 4, 5, 6, 7, -8), -8);
      const { exports: it } = await plugin([".later(idlu)l", ".last(lidlu)i"]); // pairs of registers are of any two, the low word first
      assert.deepEqual([it.later(1, 2, -3n, 4), it.last(2n ** 40n, 2, 2.5, -3, 4)], [-3n, 4]);
    },
    async "texts by signature"() {
      const it = await plugin([".length(s)u", ".tail(s)s", ".same(p)s"]);
      const { length, tail, same } = it.exports;
      assert.deepEqual([length(""), length("aä€"), tail("hällo"), tail("é")], [0, 6, "ällo", "\ufffd"]);
      const at = it.address("greeting");
      assert.deepEqual([same(at), same(at + 9), same(at + 10), same(0)], ["hello ä!", "", "\ufffdh", null]);
      it.sandbox.write(DATA + 1000, bytes(`${"x".repeat(2997)}\ufeff\0`));
      assert.equal(same(DATA + 1000), `${"x".repeat(2997)}\ufeff`);
      const lies = await plugin([".same(p)s"]);
      lies.sandbox.write(DATA + SIZE - 10, bytes("x".repeat(10)));
      for (const place of [1, DATA - 1, DATA + SIZE, DATA + SIZE - 1, DATA + SIZE - 10, CODE, MOST]) {
        assert.throws(() => lies.exports.same(place), OutsideData);
        right(lies);
      }
    },
    async "bytes and buffers by signature"() {
      const it = await plugin([".total(b)u", ".raise(w)v"]);
      const { total, raise } = it.exports;
      assert.deepEqual([total(Uint8Array.of(1, 2, 255)), total(new Uint8Array()), total(bytes("abc").subarray(1)), total(bytes("abc").buffer)],
        [258, 0, 197, 294]);
      const [whole, words, plain] = [Uint8Array.of(97, 98, 99, 255), new Uint32Array(2), new ArrayBuffer(1)];
      for (const buffer of [whole, words, plain, new Uint8Array(), whole.subarray(1, 3)]) assert.equal(raise(buffer), undefined);
      assert.deepEqual([whole, words, new Uint8Array(plain)], [Uint8Array.of(98, 100, 101, 0), Uint32Array.of(0x01010101, 0x01010101), Uint8Array.of(1)]);
      const grows = new ArrayBuffer(2, { maxByteLength: 4 });
      const changes = await plugin([".forward(w)v"], { handlers: { ask: () => grows.resize(3) } });
      assert.throws(() => changes.exports.forward(grows), /forward: a buffer of 2 bytes has 3 now/);
      right(changes);
    },
    async "where texts and bytes lie"() {
      const it = await plugin([".same(s)p", ".stack(sbw)p", ".later(sbw)l", ".add(ss)u"]);
      const { same, stack, later, add } = it.exports;
      assert.deepEqual([same("x".repeat(15)), same("x".repeat(16)), add("a", "b")], [TOP - 16, TOP - 32, (2 * TOP - 48) % 2 ** 32]);
      assert.equal(stack("x".repeat(16), bytes("x"), new Uint8Array(16)), TOP - 64);
      assert.equal(later("x", bytes(""), new Uint8Array(17)), (17n << 32n) | BigInt(TOP - 48));
      for (const format of ["2", "words"]) {
        const { exports } = await plugin([".length(s)u", ".stack(s)p"], { image: built(SOURCE.replace(".format 2", `.format ${format}`)) });
        assert.deepEqual([exports.length("abcde"), exports.stack("x") % 16, exports.length("")], [5, 0, 0]);
      }
    },
    async "how much of the stack texts and bytes take"() {
      for (const [stack, room] of [[undefined, 1024], [2048, 1024], [640, 320], [0, 0], [31, 15]]) {
        const it = await plugin([".length(s)u", ".total(b)u", ".raise(ww)v"], { stack });
        const fits = Math.floor(room / 16) * 16;
        assert.equal(it.exports.total(new Uint8Array(fits).fill(120)), 120 * fits);
        for (const call of [() => it.exports.total(new Uint8Array(fits + 1)), () => it.exports.length("x".repeat(fits))]) {
          const wrong = refuses(it, TooLong, call);
          assert.deepEqual([wrong.size, wrong.room, wrong instanceof RangeError], [fits + 16, room, true]);
        }
      }
      const it = await plugin([".raise(ww)v"], { stack: 31 });
      assert.equal(refuses(it, TooLong, () => it.exports.raise(new Uint8Array(1), new Uint8Array(17))).message,
        "raise: texts and bytes take 48 bytes of the sandbox's stack, and may take 15");
      const lies = await plugin([".total(b)u"], { stack: MOST });
      assert.equal(lies.exports.total(new Uint8Array(SIZE - 16).fill(120)), 120 * (SIZE - 16));
      for (const size of [SIZE - 15, SIZE, 2 ** 20]) {
        assert.throws(() => lies.exports.total(new Uint8Array(size)), (error) => error instanceof TooLong && error.room === SIZE - 16);
        assert.deepEqual(lies.sandbox.event, new Stopped());
        right(lies);
      }
    },
    async "what a call that waits leaves of the stack"() {
      // Each call may take half of what those that wait for it have left, so that none reaches what lies below the stack.
      for (const above of [0, 64]) {
        const bottom = DATA + SIZE - 2048 - above;
        const [below, found] = [bottom - DATA - 512, []];
        const ask = () => {
          assert.throws(() => it.exports.keep("y".repeat(1008)), (error) => {
            found.push([it.sandbox.registers.x[2] - bottom, error.room]);
            return error instanceof TooLong;
          });
          const [, room] = found.at(-1);
          return room >= 16 ? it.exports.keep("y".repeat(room - (room % 16) - 1)).length : 0;
        };
        const it = await plugin([".keep(s)s"], { imports: [".ask()i"], stack: 2048, above, handlers: { ask } });
        it.sandbox.write(DATA + 512, new Uint8Array(below).fill(122));
        assert.equal(it.exports.keep("x".repeat(1000)), "x".repeat(1000));
        // 16 bytes of each frame, the least multiple of 16 that has the text, and 16 bytes above the first
        assert.deepEqual(found.slice(0, 3), [[1008, 512], [480, 248], [224, 120]]);
        assert.deepEqual(it.sandbox.read(DATA + 512, below), new Uint8Array(below).fill(122));
      }
    },
    async "a stack pointer that lies"() {
      // The first format has no rule for x2.
      for (const [at, room] of [[0, 0], [DATA + 8, 8], [DATA + 257, 0], [CODE, 0], [MOST, 0]]) {
        const image = built(`.sandbox 256\n.gate exit 0\n.gate ask 3\n call exit\nf: li sp, ${at}\n call ask\ng: ret\n`);
        const table = Buffer.concat([entry(CODE + 0x30, "f"), entry(CODE + 0x50, "g"), entry(0, ".g(s)i")]);
        const data = Buffer.concat([table, entry(CODE + 0x10, "ask"), numbers(0, table.length, 8), Buffer.from("SFIN")]);
        const made = Buffer.concat([image, data]);
        made.writeUInt32LE(data.length, INIT_COUNT);
        const found = [];
        const ask = (call) => {
          const before = call.sandbox.registers;
          assert.throws(() => it.exports.g(""), (error) => {
            found.push(error.room);
            return error instanceof TooLong;
          });
          assert.deepEqual([call.isWaiting, call.sandbox.registers], [true, before]);
          call.sandbox.stop();
        };
        const it = await Plugin.load(made, { handlers: { ask } });
        assert.throws(() => it.exports.f(), (error) => error.cause === Ended.STOPPED);
        assert.deepEqual(found, [room]);
      }
    },
    async "wrong arguments, and words without a signature"() {
      const it = await plugin([".add(ii)i", ".length(s)u", ".total(b)u", ".raise(w)v", ".same(l)l", ".tail(d)d"]);
      for (const [name, ...given] of [["add", 1], ["add"], ["add", 1, 2, 3], ["add", 1, 2 ** 32], ["add", 1, 0.5], ["add", "1", 2], ["length", bytes("ab")],
        ["length", 5], ["length", "a\0b"], ["length", "\ud800"], ["length", null], ["total", "ab"], ["total", bytes("ab"), 2], ["raise", "ab"],
        ["same", 2n ** 63n], ["tail", "1"]]) {
        const wrong = refuses(it, WrongArguments, () => it.call(name, ...given));
        assert.deepEqual([wrong.functionName, wrong.signature, wrong.given], [name, it.signatures[name], given]);
      }
      const words = await plugin([".add(ii)i"]);
      assert.deepEqual([words.exports.add(-2, 1), words.callWords("add", -2, 1), words.call64("same", 1, 2), words.exports.same(-1), words.callWords("add", 1)],
        [-1, MOST, 0x2_00000001n, MOST, 1]);
      assert.equal(words.sandbox.call("add", -2, 1), MOST);
      assert.throws(() => words.callWords("sub", 1), NoName);
      assert.throws(() => words.exports.same(2 ** 32), RangeError);
    },
    async "which claims hold"() {
      const it = await plugin([".add(ii)i", ".nothere(i)i", ".same(x)i", ".last(iiiiiiiii)i", ".later(b)b", ".add(dd)d", entry(8, ".tail(s)s"), ".greeting()u",
        ".ask(i)i", "..room(i)i"], { imports: [".ask(u)u", ".add(s)v", ".ask(d)d"] });
      assert.deepEqual(it.signatures, { ask: "(u)u", add: "(ii)i", greeting: "()u" });
      assert.deepEqual([it.exports.add(-3, 1), it.exports.same(-3), it.exports.tail(1)], [-2, MOST - 2, 2]);
      assert.throws(() => it.exports.greeting(), (error) => error.cause === Ended.NO_FUNCTION);
      for (const image of [built(SOURCE), built(".sandbox 256\n.gate exit 0\n call exit\n")]) assert.deepEqual((await Plugin.load(image)).signatures, {});
      // Each entry that is read costs a look at the whole table. The source has 12 exports.
      const image = built(SOURCE.replace(".sandbox 4096", ".sandbox 16384"));
      for (const [more, found] of [[512 - 12 - 1, { add: "(ii)i" }], [512 - 12, {}]]) {
        const many = Array.from({ length: more }, (_, number) => `.f${number}()v`);
        assert.deepEqual((await plugin([...many, ".add(ii)i"], { image })).signatures, found);
      }
    },
    async "what a host states"() {
      const signatures = { add: "(ii)i", ask: "(s)v", unknown: "(i)i" };
      for (const it of [await plugin([], { signatures }), await plugin([".add(ii)i"], { imports: [".ask(s)v"], signatures })]) {
        assert.deepEqual([it.signatures, it.exports.add(-2, 1)], [signatures, -1]);
        refuses(it, WrongArguments, () => it.exports.add("a", "b"));
      }
      for (const claims of [[".add(iu)i"], [".add(ii)u"], [".add(i)i", ".add(ii)i"]]) {
        const other = claims[0].slice(4);
        await assert.rejects(plugin(claims, { signatures }), (error) => {
          assert.ok(error instanceof WrongSignature);
          assert.deepEqual([error.functionName, error.stated, error.claimed, error.message],
            ["add", "(ii)i", other, `add: the host states (ii)i, and the image claims ${other}`]);
          return true;
        });
      }
      await assert.rejects(plugin([], { imports: [".ask()v"], signatures }), /ask: the host states \(s\)v, and the image claims \(\)v/);
      for (const wrong of ["ii", "(ii)", "(iiiiiiiii)i", "(z)i", 5]) await assert.rejects(plugin([], { signatures: { add: wrong } }), /add: .* is no signature/);
      const module = await Module.load(claiming([".add(ii)i"], { imports: [".ask(s)u"] }));
      const handlers = { ask: (text) => text.length };
      const [first, second] = [module.instance({ handlers }), module.instance({ handlers, signatures: { forward: "(s)u", ask: "(s)u" } })];
      assert.throws(() => module.instance({ signatures: { add: "()i" } }), WrongSignature);
      assert.deepEqual([first.exports.add(-1, 0), second.exports.forward("äb"), first.signatures], [-1, 2, { add: "(ii)i", ask: "(s)u" }]);
      assert.deepEqual([second.signatures, second.exports.add(-1, 0)], [{ forward: "(s)u", ask: "(s)u" }, MOST]);
    },
    async "claims beside what a host states"() {
      // Where a host states any, or that there are none, it takes no claim: what it doesn't name goes by words.
      for (const stated of [{}, { length: "(s)u" }, { unknown: "()v" }]) {
        const found = [];
        const ask = (...given) => void found.push(...given);
        const it = await plugin([".add(ii)i"], { imports: [".ask(s)v"], stack: 2048, signatures: stated, handlers: { ask } });
        assert.deepEqual([it.signatures, it.exports.add(-2, 1), it.exports.forward(5)], [stated, MOST, 0]);
        assert.deepEqual(found.map((call) => [call instanceof Call, call.a0]), [[true, 5]]);
      }
      const small = await plugin([], { stack: 2048, signatures: { total: "(b)u" } }); // the stack's claim stays
      assert.equal(refuses(small, TooLong, () => small.exports.total(new Uint8Array(1025))).room, 1024);
      assert.equal((await plugin([], { stack: 4000, signatures: { total: "(b)u" } })).exports.total(new Uint8Array(1025)), 0);
      const claimed = await plugin([".add(ii)i"], { signatures: undefined });
      assert.deepEqual([claimed.signatures, claimed.exports.add(-2, 1)], [{ add: "(ii)i" }, -1]);
    },
    async "how many bytes handlers get"() {
      // At most 16 of texts and bytes for each step that a call may take. What a handler got of so many calls within one, and why it is over if it is.
      async function asks(letters, words, { steps = 64, times = 1, size = 0 } = {}) {
        const source = SOURCE.replace("forward: addi sp, sp, -16", `forward: addi sp, sp, -16\n sw s0, 8(sp)\n li s0, ${times}`)
          .replace("        call ask\n        lw   ra", "again: call ask\n addi s0, s0, -1\n bnez s0, again\n lw s0, 8(sp)\n        lw   ra");
        const found = [];
        const ask = (...given) => {
          found.push(...given.map(({ length }) => length));
          return DATA;
        };
        const it = await plugin([], { imports: [`.ask(${letters})i`], image: built(source), handlers: { ask }, steps });
        it.sandbox.write(DATA, bytes(`${"x".repeat(size)}\0`));
        let why;
        for (let count = 0; count < 2; count++) { // of another call there is as much
          found.length = 0;
          why = undefined;
          try {
            it.exports.forward(...words);
          } catch (error) {
            why = error;
          }
        }
        return { found, why };
      }
      async function refused(letters, words, number, { steps = 64, got = [], ...more } = {}) {
        const { found, why } = await asks(letters, words, { steps, ...more });
        assert.deepEqual([found, why.cause], [got, Ended.REFUSED]);
        assert.ok(why.message.includes(`ask(${letters})i: argument ${number} is too long, as a run of ${steps} steps hands ${16 * steps} bytes of texts and `
          + "bytes to its handlers at most)"), why.message);
      }
      for (const letter of "bw") {
        assert.deepEqual(await asks(letter, [DATA, 1024]), { found: [1024], why: undefined });
        assert.deepEqual(await asks(letter + letter, [DATA, 512, DATA, 512]), { found: [512, 512], why: undefined });
        await refused(letter, [DATA, 1025], 1);
        await refused(letter + letter, [DATA, 512, DATA, 513], 2);
      }
      for (const size of [0, 1, 255, 256, 257, 1023, 1024]) assert.deepEqual(await asks("s", [DATA], { size }), { found: [size], why: undefined });
      for (const size of [1025, 2000, 3000]) await refused("s", [DATA], 1, { size });
      assert.deepEqual(await asks("b", [DATA, 320], { steps: 200, times: 10 }), { found: new Array(10).fill(320), why: undefined });
      await refused("b", [DATA, 321], 1, { steps: 200, times: 10, got: new Array(9).fill(321) });
      await refused("sb", [DATA, DATA, 200], 1, { steps: 200, times: 10, size: 200, got: new Array(16).fill(200) });
      for (const [count, number] of [[320, 1], [321, 0], [0, 2]]) { // of the start, too
        const found = [];
        const source = SOURCE.replace("        call exit", ` la a0, greeting\n li a1, ${count}\n mv a2, a0\n mv a3, a1\n call ask\n call ask\n call exit`);
        const handlers = { ask: (...given) => { found.push(given); return DATA; } };
        const made = plugin([], { imports: [".ask(bb)p"], image: built(source), handlers, steps: 40 });
        if (number < 2) await assert.rejects(made, (error) => error.cause === Ended.REFUSED);
        else await made;
        assert.equal(found.length, number);
      }
    },
    async "values that handlers get"() {
      for (const [letter, words, wanted] of [["i", [MOST], -1], ["u", [MOST], MOST], ["p", [4], 4], ["l", [1, 0x80000000], -(2n ** 63n) + 1n],
        ["m", [1, 0x80000000], 2n ** 63n + 1n], ["f", [0x3f800000], 1], ["d", [0, 0xc0000000], -2]]) {
        const found = [];
        const it = await plugin([], { imports: [`.ask(i${letter})${letter}`], handlers: { ask: (...given) => { found.push(given); return given[1]; } } });
        const answer = it.call64("forward", -5, ...words);
        assert.deepEqual([BigInt.asUintN(32 * words.length, answer), found], [words.reduceRight((sum, it) => (sum << 32n) | BigInt(it), 0n), [[-5, wanted]]]);
      }
      for (const [letter, value] of [["s", "aä"], ["s", "x".repeat(900)], ["b", bytes("a\0b")], ["b", bytes("")]]) {
        const found = [];
        const it = await plugin([`.forward(${letter})v`], { imports: [`.ask(${letter})v`], handlers: { ask: (...given) => found.push(...given) } });
        it.exports.forward(value);
        assert.deepEqual(found, [value]);
      }
      const fill = (buffer) => {
        buffer.forEach((byte, index) => { buffer[index] = byte * 2; });
        return buffer.length;
      };
      const it = await plugin([".forward(w)i"], { imports: [".ask(w)i"], handlers: { ask: fill } });
      const buffer = Uint8Array.of(1, 2, 3);
      assert.deepEqual([it.exports.forward(buffer), buffer, it.exports.forward(new Uint8Array())], [3, Uint8Array.of(2, 4, 6), 0]);
      const moves = await plugin([".forward(w)i"], { imports: [".ask(w)v"], handlers: { ask: (given) => void structuredClone(given, { transfer: [given.buffer] }) } });
      assert.throws(() => moves.exports.forward(buffer), /of 3 bytes has 0 now/);
      right(moves);
    },
    async "values that handlers answer"() {
      for (const [letter, answer, wanted] of [["i", -1, BigInt(MOST)], ["u", MOST, BigInt(MOST)], ["i", true, 1n], ["p", DATA, BigInt(DATA)], ["s", DATA, BigInt(DATA)],
        ["s", null, 0n], ["f", 1, 0x3f800000n], ["d", -2, 0xc0000000_00000000n], ["l", -2n, 2n ** 64n - 2n], ["m", 2n ** 63n, 2n ** 63n], ["v", 7, 0n]]) {
        const it = await plugin([], { imports: [`.ask()${letter}`], handlers: { ask: () => answer } });
        assert.equal(BigInt.asUintN("dlm".includes(letter) ? 64 : 32, it.call64("forward", 7)), wanted, letter);
      }
      for (const [letter, answer] of [["i", 2 ** 32], ["i", undefined], ["i", "1"], ["i", [1, 2]], ["u", 0.5], ["p", -1], ["s", "text"], ["f", "1"], ["m", -1n],
        ["v", Promise.resolve()], ["i", Promise.resolve(1)]]) {
        const it = await plugin([], { imports: [`.ask()${letter}`], handlers: { ask: () => answer } });
        assert.throws(() => it.exports.forward(7), (error) => error instanceof TypeError && error.message.startsWith(`ask()${letter}: the handler has to answer`));
        right(it);
      }
    },
    async "calls whose texts and bytes lie"() {
      for (const [letter, ...words] of [["s", 0], ["s", DATA - 1], ["s", DATA + SIZE], ["s", CODE], ["s", MOST], ["s", DATA + SIZE - 4], ["b", DATA, SIZE + 1],
        ["b", DATA - 1, 1], ["b", DATA + SIZE, 1], ["b", DATA + 1, SIZE], ["b", 0, 1], ["b", DATA, MOST], ["b", MOST, MOST], ["b", DATA + 16, -16],
        ["w", DATA + SIZE - 1, 2], ["w", CODE, 4], ["w", DATA, 2 ** 31]]) {
        const found = [];
        const it = await plugin([], { imports: [`.ask(i${letter})v`], handlers: { ask: (...given) => found.push(given) } });
        it.sandbox.write(DATA + SIZE - 4, bytes("xxxx"));
        const whole = it.sandbox.read;
        it.sandbox.read = (at, count) => { // for which memory is taken
          assert.ok(at >= DATA && at + count <= DATA + SIZE);
          return whole.call(it.sandbox, at, count);
        };
        assert.throws(() => it.exports.forward(1, ...words), (error) => {
          assert.deepEqual([error.cause, error.event.service, found], [Ended.REFUSED, 3, []]);
          assert.match(error.message, new RegExp(`no handler replied \\(service 3 at 01000010, ask\\(i${letter}\\)v: argument 2, .*, isn't in its data\\)`));
          return error instanceof NotReturned;
        });
        right(it);
      }
      const whole = [];
      const it = await plugin([], { imports: [".ask(bbb)v"], handlers: { ask: (...given) => whole.push(...given.map(({ length }) => length)) } });
      it.exports.forward(DATA, SIZE, 0, 0, DATA + SIZE - 1, 1);
      assert.deepEqual(whole, [SIZE, 0, 1]);
    },
    async "handlers by the call, and that end it"() {
      const it = await plugin([], { imports: [".ask(s)i"], handlers: { ask: byCall((call) => [call.a0 + call.a7, 9]) } });
      assert.equal(it.call64("forward", 1, 0, 0, 0, 0, 0, 0, 2), 0x9_00000003n);
      assert.throws(() => byCall(5), TypeError);
      for (const [end, cause] of [[({ sandbox }) => sandbox.stop(), Ended.STOPPED], [({ sandbox }) => sandbox.reset(), Ended.GONE],
        [(plugin) => plugin.close(), Ended.GONE]]) {
        const ended = await plugin([".forward(w)v"], { imports: [".ask(w)i"], handlers: { ask: () => end(ended) } });
        assert.throws(() => ended.exports.forward(bytes("abc")), (error) => error.cause === cause);
      }
    },
    async "calls back by signature"() {
      // What the outer call has on the stack stays, however the inner one ends.
      const text = "outer ".repeat(100);
      for (const format of ["2", "words"]) {
        const found = [];
        const ask = (given) => {
          const before = [it.sandbox.registers, { ...it.sandbox.event }];
          found.push(given, it.exports.length("y".repeat(500)), it.exports.tail("abc"));
          assert.ok(it.exports.stack(given) < before[0].x[2]);
          refuses(it, TooLong, () => it.exports.length("y".repeat(1100)));
          refuses(it, WrongArguments, () => it.exports.length(5));
          assert.throws(() => it.sandbox.call("length", DATA, { steps: 3 }), NotReturned);
          assert.deepEqual([it.sandbox.registers, { ...it.sandbox.event }], before);
        };
        const it = await plugin([".keep(s)s", ".length(s)u", ".tail(s)s", ".stack(s)p"], { imports: [".ask(s)v"], handlers: { ask },
          image: built(SOURCE.replace(".format 2", `.format ${format}`)) });
        assert.deepEqual([it.exports.keep(text), found], [text, [text, 500, "bc"]]);
      }
    },
    async "failing calls by signature"() {
      class Unserved extends Error {}
      const image = claiming([".parse(s)i", ".wild(s)v", ".spin(s)v", ".get(i)i"], { image: built(CALLS) });
      for (const [name, ask, wanted] of [["parse", () => { throw new Unserved(); }, Unserved], ["parse", undefined, Ended.REFUSED],
        ["parse", ({ sandbox }) => sandbox.stop(), Ended.STOPPED], ["parse", ({ sandbox }) => sandbox.reset(), Ended.GONE], ["wild", undefined, Ended.TRAPPED],
        ["spin", undefined, Ended.STEPS_USED]]) {
        const it = await Plugin.load(image, { steps: 1000, handlers: ask ? { ask } : {} });
        for (let count = 0; count < 200; count++) {
          assert.throws(() => it.call(name, "x".repeat(100)), (error) => (error instanceof NotReturned ? error.cause : error.constructor) === wanted);
        }
        assert.ok(!(it.sandbox.event instanceof Ready) && !(it.sandbox.event instanceof Call));
        for (let number = 0; number < 64; number++) assert.equal(it.exports.get(number), 1000 + number); // no frame overwrote the table
      }
      const buffer = bytes("abcd");
      const it = await Plugin.load(claiming([".raise(wi)v", ".forward(w)v"]), { steps: 10 });
      for (const [name, ...given] of [["raise", buffer, 0], ["forward", buffer]]) {
        assert.throws(() => it.call(name, ...given), NotReturned);
        assert.deepEqual(buffer, bytes("abcd"));
      }
    },
  };
}
