#!/usr/bin/env python3
"""Writes an input of the C examples: one of these, or a file of the folder inputs.

    examples/c/inputs.py NAME
"""
import pathlib
import sys

FOLDER = pathlib.Path(__file__).resolve().parent / "inputs"
INPUTS = {
    "empty": b"",
    "base64-bytes": bytes((7 * i * i + i) % 256 for i in range(601)),
    "crc32-check": b"123456789",
    "ends-abort": b"b",
    "ends-assertion": b"a",
    "ends-exit": b"e",
    "ends-return": b"r",
    "functions-bytes": 3 * bytes(range(256)) + b"end",
    "json-deep": 33 * b"[" + 33 * b"]",
    "json-unfinished": b'{"a": [1, 2, {"b": "c"}',
    "json_tokens-escape": rb'["a\q"]',
    "json_tokens-escapes": rb'{"\"\\\u00e9\n": [-1.5e+10, 0, "' + "é".encode() + b'", true,false ,null],\r\n\t"": {"a":\n[[]]}}\n',
    "json_tokens-mark": b"[1; 2]",
    "json_tokens-string": b'["a", "b\n"]',
    "json_tokens-word": b"[true, nul]",
    "lz-runs": "".join("ABCDE"[(k + n) % 5] * k for n in range(3) for k in range(1, 41))[:1668].encode(),
    "matrix-bytes": bytes((37 * i + 11) % 256 for i in range(400)),
    "matrix_product-mismatch": b"2 2\n1 2 3 4\n3 1\n1 2 3\n",
    "matrix_product-short": b"2 2\n1 2 3",
    "matrix_product-small": b"2 3\n1 -2 3\n4 5 -6\n\n3 4\n1 0 2 0\n0 1 0 -3\n7 8 9 1000\n",
    "matrix_product-wrong": b"2 2\n1 2 3 four\n",
    "regex-class": b"[A-Z][a-z]*$\n" + (FOLDER / "prose").read_bytes(),
    "regex-many": b"a.*e[^ ]+ ?t\n" + (FOLDER / "prose").read_bytes(),
    "regex-steps": b"^a*a*a*b$\n" + 20 * b"a" + b"\n" + 12 * b"a" + b"b\nb\n",
    "sha256-abc": b"abc",
    "sha256-two-blocks": b"abcdbcdecdefdefgefghfghighijhijkijkljklmklmnlmnomnopnopq",
    "sort-down": b"down 3 -1 2 2147483647 0 -2147483648 2 7\n",
    "stack-division": b"6 7 * . 1 0 /\n",
    "stack-factorial": b"1 20 dup [ swap over * swap 1 - dup ] drop .\n",
    "stack-primes": b"2 1 [ 2 over over % [ 1 + over over % ] over = [ dup . 0 ] 1 + dup 100 < ] drop\n",
    "stack-unknown": b"2 squared\n",
    "stack-unmatched": b"0 [ 2\n",
    "stack-wide": b"0 1000000007 - 1000003 * dup 97 / . dup 97 % . 0 7000000001 - / .\n1 62 << 3 / dup . 12345678987654321 % ."
                  b" 5 7 9 rot . . .\n9223372036854775807 4294967297 / . 1 63 << 10 % .\n",
}


def input_of(name):
    return INPUTS[name] if name in INPUTS else (FOLDER / name).read_bytes()


if __name__ == "__main__":
    sys.stdout.buffer.write(input_of(sys.argv[1]))
