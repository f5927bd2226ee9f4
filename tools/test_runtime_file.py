"""Tests of tools/runtime_file.py on small modules, by the text of WebAssembly. fuzz/ports.py tries what it makes."""
import unittest
from unittest import mock

import runtime_file

MODULE = r"""(module $it.wasm
  (import "env" "malloc" (func $malloc (type 0)))
  (func $outer (type 1) (param i64) (result i32)
    global.get $__stack_pointer
    i64.const 32
    i64.sub
    local.tee 2
    global.set $__stack_pointer
    i64.const {first}
    call $inner
    local.get 2
    i64.const 32
    i64.add
    global.set $__stack_pointer
    local.get 0
    i32.load8_u offset={second} align=1)
  (func $inner (type 1) (param i64) (result i32)
    global.get $__stack_pointer
    i64.const 16
    i64.sub
    local.tee 1
    i64.const 7
    i64.store offset=8
    memory.copy
    i32.const 1)
  (memory (;0;) i64 2)
  (global $__stack_pointer (mut i64) (i64.const 65536))
  (global (;1;) i64 (i64.const {end}))
  (export "memory" (memory 0))
  (export "__heap_base" (global 1))
  (export "outer" (func $outer))
  (data $.rodata (i64.const {first}) "a\00\"\5c\ff\t"))""".replace("\n  (data", "\n  (data")


def lines(place, text=MODULE):
    return text.format(first=place, second=place + 4, end=place + 16).splitlines()


def linked(text=MODULE):
    return [lines(place, text) for place in runtime_file.PLACES]


class Opened(unittest.TestCase):
    def text(self, texts):
        return [it.strip() for it in runtime_file.Opened(texts).text().splitlines()]

    def test_accesses_are_calls(self):
        text = self.text(linked())
        for wanted in ("i64.const 8 call $i64_store", "call $memory_copy", "call $constants i64.const 4 i64.add call $i32_load8_u)",
                       "call $constants i64.const 0 i64.add", '(import "env" "i64_store" (func $i64_store (param i64 i64 i64)))',
                       '(import "env" "i32_load8_u" (func $i32_load8_u (param i64 i64) (result i32)))', "i64.const 32"):
            self.assertIn(wanted, text)
        self.assertFalse([it for it in text if it.startswith(("(memory", "(data", "i32.load", "i64.store"))])

    def test_other_differences_are_refused(self):
        for old, new in (("i64.const 7", "i64.const 8"), ("i32.const 1)", "i32.const 2)"), ("call $inner", "call $outer"), ("offset=8", "offset=9")):
            texts = [lines(runtime_file.PLACES[0]), lines(runtime_file.PLACES[1], MODULE.replace(old, new))]
            with self.subTest(old), self.assertRaisesRegex(SystemExit, "the two links differ"):
                self.text(texts)

    def test_lost_atomics_are_refused(self):
        has = "i64.atomic.load i64.atomic.rmw.sub i64.atomic.rmw.cmpxchg".replace(" ", "\n    ")
        runtime_file.Opened(linked(MODULE.replace("memory.copy", has))).check_atomics()
        with self.assertRaisesRegex(SystemExit, "no i64_atomic_rmw_sub, which"):
            runtime_file.Opened(linked(MODULE.replace("memory.copy", has.replace(".atomic.rmw.sub", ".store")))).check_atomics()

    def test_other_instructions_are_refused(self):
        for odd in ("memory.grow", "call_indirect (type 0)", "i64.atomic.rmw.xor", "i32.atomic.load", "i32.load8_x"):
            with self.subTest(odd), self.assertRaisesRegex(SystemExit, "has no function for"):
                self.text(linked(MODULE.replace("memory.copy", odd)))


class Versions(unittest.TestCase):
    @unittest.skipIf(runtime_file.missing(), "wabt isn't there")
    def test_another_version_is_refused(self):
        runtime_file.one_file.check_version("wasm2wat", "wat2wasm", "wasm2c")
        with mock.patch.object(runtime_file.one_file, "WABT", "1.0.0"):
            with self.assertRaisesRegex(SystemExit, "wat2wasm has version .*, not 1.0.0"):
                runtime_file.one_file.check_version("wat2wasm")


class Parts(unittest.TestCase):
    def test_constants(self):
        self.assertEqual(runtime_file.constants(lines(1 << 20), 1 << 20), b'a\0"\\\xff\t' + bytes(10))

    def test_addresses_among_constants_are_refused(self):
        with self.assertRaisesRegex(SystemExit, "addresses among the constants"):
            runtime_file.check_constants([lines(runtime_file.PLACES[0]), lines(runtime_file.PLACES[1], MODULE.replace(r"a\00", r"b\00"))])
        runtime_file.check_constants(linked())

    def test_the_stack(self):
        self.assertEqual(runtime_file.stack_size(lines(1 << 20)), 48)
        self.assertEqual(runtime_file.stack_size(lines(1 << 20, MODULE.replace("memory.copy", "call $malloc"))), 48)

    def refused(self, why, *changes):
        for old, new in changes:
            self.assertIn(old, MODULE)
            with self.subTest(new), self.assertRaisesRegex(SystemExit, why):
                runtime_file.stack_size(lines(1 << 20, MODULE.replace(old, new)))

    def test_stacks_without_a_bound_are_refused(self):
        taken, pointer = "i64.sub\n    local.tee 2", "(global $__stack_pointer (mut i64) (i64.const 65536))"
        self.refused("calls itself", ("memory.copy", "call $outer"))
        self.refused("no function has the name", ("call $inner", "call 2"), ("call $inner", "call $inner.1"),
                     ("(func $outer))", "(func $alias))"), ("(func $inner ", "(func (;2;) "))
        self.refused("stack pointer isn't its only global", (pointer, pointer.replace("$__stack_pointer", "(;0;)")),
                     (pointer, f"{pointer}\n  (global $other (mut i64) (i64.const 0))"), (pointer, ""))
        self.refused("its frame in another way: .outer", ("i64.const 32\n    i64.sub", "i64.const -32\n    i64.add"),
                     (taken, "i64.sub\n    i64.const -32\n    i64.and\n    local.tee 2"),
                     ("call $inner", "local.get 2\n    local.get 0\n    i64.sub\n    global.set $__stack_pointer"),
                     ("i64.const 32\n    i64.add", "i64.const 48\n    i64.add"),
                     ("local.get 2\n    i64.const 32", "local.get 3\n    i64.const 32"), ("call $inner", "global.get 0"))

    def test_other_data_are_refused(self):
        data = "(data $.rodata (i64.const {first})"
        named, outside = "data that aren't constants", "outside their room"
        for why, new in ((named, "(data (i64.const {first})"), (named, "(data (;0;)"), (named, "(data $.data (i64.const {first})"),
                         (outside, data.replace("first", "end")), (outside, data.replace("{first}", "8"))):
            with self.subTest(new), self.assertRaisesRegex(SystemExit, why):
                runtime_file.constants(lines(1 << 20, MODULE.replace(data, new)), 1 << 20)

    def test_other_parameters_are_refused(self):
        for odd in ("size_t *written", "const struct sfi_run_world *world", "struct sfi_run_world worlds[2]", "uint32_t **at",
                    "struct sfi_part *part", "int64_t at"):
            with self.subTest(odd), self.assertRaisesRegex(SystemExit, "another layout"):
                runtime_file.call_of("bool", "sfi_run_odd", odd)

    def test_a_call(self):
        made = runtime_file.call_of("bool", "sfi_run_read", "struct sfi_run_world *world, uint32_t at, size_t length, uint8_t *bytes")
        self.assertIn("struct held held_world = {world->held, 0, at_of(world->at)};\n    world->held = 0, world->at = NULL;\n", made)
        self.assertIn("Z_sfi_runZ_sfi_run_read(&call.module, at_of(&held_world), at, length, at_of(bytes));", made)
        self.assertIn("world->held = held_world.held, world->at = place(held_world.at);\n    return answer;", made)
        made = runtime_file.call_of("void", "sfi_run_go", "const uint32_t arguments[8]")
        self.assertIn("    Z_sfi_runZ_sfi_run_go(&call.module, at_of(arguments));\n}", made)


if __name__ == "__main__":
    unittest.main()
