// Tests of signatures.mjs, which test.mjs runs: the words of values, and the values of words. Words of floats and doubles are those of
// IEEE 754.
import assert from "node:assert/strict";
import { WrongArguments } from "./index.mjs";
import { Unfit, claimed, dataOf, parsed, taken, textOf, valueOf, wordsOf } from "./signatures.mjs";

const MOST = 2 ** 32 - 1;
const [LOW, HIGH] = [-(2n ** 63n), 2n ** 63n - 1n];
// A letter, a value, and its words.
const SAME = [["y", -1, [MOST]], ["y", -128, [0xffffff80]], ["y", 127, [127]], ["c", 0, [0]], ["c", 255, [255]], ["h", -32768, [0xffff8000]],
  ["h", 32767, [32767]], ["k", 0, [0]], ["k", 65535, [65535]], ["t", false, [0]], ["t", true, [1]], ["i", 0, [0]], ["i", -1, [MOST]], ["i", 2 ** 31 - 1, [0x7fffffff]], ["i", -(2 ** 31), [0x80000000]], ["u", 1, [1]],
  ["u", MOST, [MOST]], ["p", 0, [0]], ["p", MOST, [MOST]], ["l", -1n, [MOST, MOST]], ["l", 2n, [2, 0]], ["l", 2n ** 32n, [0, 1]],
  ["l", HIGH, [MOST, 0x7fffffff]], ["l", LOW, [0, 0x80000000]], ["m", 0n, [0, 0]], ["m", 2n ** 64n - 1n, [MOST, MOST]],
  ["m", 2n ** 63n, [0, 0x80000000]], ["f", 1, [0x3f800000]], ["f", -0, [0x80000000]], ["f", Infinity, [0x7f800000]], ["f", 2 ** -149, [1]],
  ["f", 0.10000000149011612, [0x3dcccccd]], ["d", 1, [0, 0x3ff00000]], ["d", -0, [0, 0x80000000]], ["d", -Infinity, [0, 0xfff00000]],
  ["d", 0.1, [0x9999999a, 0x3fb99999]], ["d", 5e-324, [1, 0]]];
// A letter, a value whose words are those of another, and these.
const ALIKE = [["c", true, [1]], ["k", -0, [0]], ["i", MOST, [MOST]], ["i", true, [1]], ["u", false, [0]], ["u", -1, [MOST]], ["u", -(2 ** 31), [0x80000000]], ["i", -0, [0]],
  ["l", -5, [MOST - 4, MOST]], ["m", 2 ** 53 - 1, [MOST, 0x1fffff]], ["f", 0.1, [0x3dcccccd]], ["f", 16777217, [0x4b800000]],
  ["f", 2 ** -150, [0]], ["f", 3.4028235e38, [0x7f7fffff]]];
// A letter, a word that no value has there, and the value that its lowest bits have.
const CUT = [["y", 200, -56], ["y", 0x80, -128], ["y", 0x100, 0], ["c", 300, 44], ["c", MOST, 255], ["h", 0x8000, -32768], ["h", 0x12345, 0x2345],
  ["k", MOST, 65535], ["k", 65536, 0], ["t", 2, true], ["t", 0x100, false], ["t", 0xffffff80, true]];
const UNFIT = [["y", 128], ["y", -129], ["y", 200], ["c", -1], ["c", 256], ["h", 32768], ["h", -32769], ["k", -1], ["k", 65536], ["t", 0], ["t", 1],
  ["t", 2], ["c", 7n], ["i", 2 ** 32], ["i", -(2 ** 31) - 1], ["u", 2 ** 32], ["u", -(2 ** 31) - 1], ["l", 2n ** 63n], ["l", LOW - 1n], ["l", 2 ** 53],
  ["m", -1], ["m", 2n ** 64n], ["p", -1], ["p", 2 ** 32], ["p", 7n], ["i", 7n], ["u", 7n], ["f", 1e39], ["f", -1e39], ["l", true],
  ...[..."ychktiulmp"].flatMap((letter) => [0.5, NaN, "1", null, undefined, {}, [1]].map((value) => [letter, value])),
  ...[..."fd"].flatMap((letter) => ["1", null, undefined, 7n, true, {}].map((value) => [letter, value]))];
const bytes = (text) => Uint8Array.from(Buffer.from(text));

export const signatureTests = {
  "words and values"() {
    for (const [letter, value, words] of SAME) {
      assert.deepEqual(wordsOf(letter, value), words, `${letter} ${value}`);
      assert.ok(Object.is(valueOf(letter, [...words, 5]), value), `${letter} ${value}`);
    }
    for (const [letter, word, value] of CUT) assert.equal(valueOf(letter, [word]), value, `${letter} ${word}`);
    for (const [letter, value, words] of ALIKE) assert.deepEqual(wordsOf(letter, value), words, `${letter} ${value}`);
    for (const [letter, words] of [["f", [0x7fc00000]], ["d", [0, 0x7ff80000]]]) {
      assert.deepEqual([valueOf(letter, words), wordsOf(letter, NaN)], [NaN, words]);
    }
    for (const [letter, value] of UNFIT) assert.throws(() => wordsOf(letter, value), Unfit, `${letter} ${String(value)}`);
  },
  "texts and bytes"() {
    for (const [value, data] of [["", "\0"], ["aä€😀", "a\xc3\xa4\xe2\x82\xac\xf0\x9f\x98\x80\0"]]) {
      assert.deepEqual(dataOf("s", value), Uint8Array.from(Buffer.from(data, "latin1")));
    }
    const whole = bytes("a\0bc");
    for (const letter of "bw") {
      for (const value of [whole, whole.buffer, Buffer.from(whole), new DataView(whole.buffer)]) {
        const data = dataOf(letter, value);
        assert.deepEqual(data, whole);
        assert.notEqual(data.buffer, value.buffer ?? value);
      }
      assert.deepEqual([dataOf(letter, whole.subarray(1, 3)), dataOf(letter, Uint16Array.of(513))], [bytes("\0b"), Uint8Array.of(1, 2)]);
      for (const value of ["ab", 5, null, undefined, [1], {}]) assert.throws(() => dataOf(letter, value), Unfit);
    }
    for (const value of ["a\0b", "\0", bytes("ab"), 5, null, undefined, "\ud800"]) assert.throws(() => dataOf("s", value), Unfit);
  },
  "texts of signatures"() {
    for (const text of ["()v", "(ii)i", "(iulp)f", "(dlm)d", "(sbw)s", "(iiiiiiii)m", "(llll)l", "(bbbb)v", "(f)p", "(w)u", "(ychkt)y", "(ttttkkkk)t", "()c",
      "()h", "()k"]) {
      assert.equal(textOf(parsed(text)), text);
    }
    for (const text of ["", "()", "(v)v", "(i)b", "(i)w", "(i)", "i", "(x)i", "(i)ii", "(i,i)i", "(i)i\n", " (i)i", "((i)i", "(I)i", "(iiiiiiiii)i",
      "(lllll)v", "(iiiiiiib)v", "(ychkticyh)v", `(${"i".repeat(100000)})i`]) assert.equal(parsed(text), undefined, text.slice(0, 20));
  },
  "claims of signatures"() {
    for (const [entry, name, text] of [[".add(ii)i", "add", "(ii)i"], [".a(b)(i)v", "a(b)", "(i)v"], [".x()s", "x", "()s"],
      [".__proto__(i)i", "__proto__", "(i)i"]]) {
      assert.deepEqual(claimed(entry), { name, signature: parsed(text) });
    }
    for (const entry of ["add(ii)i", ".(ii)i", "..add(ii)i", ".add", ".add(", ".add()", ".add(ii)", ".add(ii)x", ".room", ".stack", "", ".",
      ".add(iiiiiiiii)i", ".add(ii)i)", "(i)i", ".add(i)i(", ".add)i(i"]) assert.equal(claimed(entry), undefined, entry);
  },
  "what a signature takes"() {
    const buffer = bytes("xyz");
    const { words, blocks } = taken("f", parsed("(isdbw)v"), [-1, "ä", 1, new Uint8Array(), buffer]);
    assert.deepEqual(words, [MOST, 0, 0, 0x3ff00000, 0, 0, 0, 3]);
    assert.deepEqual(blocks, [{ register: 1, data: bytes("ä\0"), buffer: undefined }, { register: 4, data: new Uint8Array(), buffer: undefined },
      { register: 6, data: bytes("xyz"), buffer }]);
    for (const [text, given, why] of [["(ii)i", [1], "2 arguments are wanted, and not 1"], ["()v", [1, 2], "0 arguments are wanted, and not 2"],
      ["(iu)i", [1, 2 ** 32], "argument 2 has to be an integer from -2^31 to 2^32 - 1, and not 4294967296"],
      ["(c)v", [300], "argument 1 has to be an integer from 0 to 255, and not 300"], ["(t)v", [1], "argument 1 has to be a boolean, and not 1"],
      ["(s)v", [5], "argument 1 has to be a string without \\0, and not 5"], ["(b)v", ["ab"], 'argument 1 has to be what has bytes, and not "ab"'],
      ["(l)v", [2n ** 63n], "argument 1 has to be an integer from -2^63 to 2^63 - 1, and not 9223372036854775808n"]]) {
      assert.throws(() => taken("it", parsed(text), given), (error) => {
        assert.ok(error instanceof WrongArguments && error instanceof TypeError);
        assert.deepEqual([error.functionName, error.signature, error.given, error.message], ["it", text, given, `it${text}: ${why}`]);
        return true;
      });
    }
  },
};
