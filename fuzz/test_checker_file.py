"""Tests of tools/checker_file.py: suygapid_check.c says what the program says, as gcc and clang compile it."""
import ctypes
import glob
import random
import shutil
import struct
import subprocess
import unittest

import checker_file
import second_checker
import testing
from suygapid.image import layout
from suygapid.trials import corpus

COMPILERS = [it for it in ("gcc", "clang") if shutil.which(it)]
MUTANTS = 1000
FIELDS = "format code_base code_size data_base data_size start gates init_size".split()


class Finding(ctypes.Structure):
    _fields_ = [(it, ctypes.c_uint32) for it in ("sandbox", "address", "rule")]


class Verdict(ctypes.Structure):
    _fields_ = [(it, ctypes.c_uint32) for it in ("status", "layout_fault", "sandboxes", "bundles", "findings")] + [("first", Finding)]


class Part(ctypes.Structure):
    _fields_ = [(it, ctypes.c_uint32) for it in FIELDS] + [(it, ctypes.c_size_t) for it in ("code_offset", "init_offset")]


def images(count):
    """The images of the examples, and `count` changed ones."""
    made = corpus.examples(testing.SFI)
    made += [bytes.fromhex(open(it, encoding="utf-8").read()) for it in glob.glob(str(testing.TOP / "examples" / "*.hex"))]
    picks = (random.Random(f"checker file/{number}") for number in range(count))
    return made + [corpus.mutant(pick, corpus.accepted(pick, testing.SFI)) for pick in picks]


@testing.needs_program
@unittest.skipIf(checker_file.missing(), f"{' and '.join(checker_file.missing())} isn't there")
@unittest.skipUnless(COMPILERS, "gcc and clang aren't there")
class CheckerFile(testing.Folder):
    def setUp(self):
        super().setUp()
        self.source = checker_file.make(self.path("suygapid_check.c"))

    def compiled(self, compiler, name, *options):
        target = self.path(f"{name}.{compiler}")
        subprocess.run([compiler, "-std=c11", "-O2", "-w", *options, self.source, "-o", target], check=True)
        return target

    def said(self, words, data):
        done = subprocess.run(words, input=data, stdout=subprocess.PIPE, check=False)
        return done.returncode, done.stdout

    def test_the_program_says_the_same(self):
        programs = [self.compiled(it, "check", "-DSUYGAPID_CHECK_MAIN") for it in COMPILERS]
        for data in images(MUTANTS):
            wanted = self.said([testing.SFI, "check", "--raw"], data)
            for program in programs:
                self.assertEqual(self.said([program], data), wanted, data.hex()[:2000])

    def test_its_names_are_its_own_and_its_calls_say_the_same(self):
        made = self.compiled(COMPILERS[0], "check.so", "-shared", "-fPIC")
        self.compare_names(made)
        library = ctypes.CDLL(made)
        library.sfi_c_apart.restype = ctypes.c_bool
        self.assertEqual(library.sfi_c_version(), 0x000100)
        for data in images(100):
            self.compare_findings(library, data)
            if second_checker.judged(data)[0] != 2:
                self.compare_parts(library, data)

    def compare_names(self, made):
        """The names that others see."""
        listed = subprocess.run(["nm", "--dynamic", "--extern-only", "--defined-only", made], stdout=subprocess.PIPE, text=True, check=True).stdout
        names = [it.split()[2] for it in listed.splitlines()]
        self.assertIn("sfi_c_check", names)
        self.assertEqual([it for it in names if not it.startswith(("sfi_c_", "suygapid_check_", "Z_sfi"))], [])

    def compare_findings(self, library, data):
        """The findings and the verdict, by the second checker, with an array that has room for five."""
        status, lines = second_checker.judged(data)
        verdict, array = Verdict(), (Finding * 6)()
        self.assertEqual(library.sfi_c_findings(data, ctypes.c_size_t(len(data)), array, ctypes.c_size_t(5), ctypes.byref(verdict)), status)
        wanted = [line.split()[:3] for line in lines[:-1]]
        self.assertEqual(verdict.findings, len(wanted))
        found = [[str(it.sandbox), f"{it.address:08x}", f"V{it.rule}"] for it in array]
        self.assertEqual(found[: min(5, len(wanted))], wanted[:5])
        self.assertEqual(array[5].rule, 0)
        again = Verdict()
        library.sfi_c_check(data, ctypes.c_size_t(len(data)), ctypes.byref(again))
        self.assertEqual(bytes(again), bytes(verdict))

    def compare_parts(self, library, data):
        """The regions and gates, as tools/suygapid/image/layout.py reads them."""
        length = ctypes.c_size_t(len(data))
        for number, part in enumerate(layout.parts(data)):
            told, gates = Part(), (ctypes.c_uint32 * 128)()
            self.assertEqual(library.sfi_c_part(data, length, number, ctypes.byref(told)), 0)
            wanted = [getattr(part, it) for it in FIELDS[:6]] + [len(part.gates), len(part.init), part.code_offset]
            self.assertEqual([getattr(told, it) for it in FIELDS] + [told.code_offset], wanted)
            self.assertEqual(told.init_offset, part.code_offset + part.code_size)
            self.assertEqual(library.sfi_c_gates(data, length, number, gates, ctypes.c_size_t(64)), 0)
            listed = [number for gate in part.gates.items() for number in gate]
            self.assertEqual(list(gates)[: len(listed)], listed)
            self.assertFalse(library.sfi_c_apart(ctypes.byref(told), ctypes.byref(told)))
            self.compare_moved(library, data, number, part)
        self.assertEqual(library.sfi_c_part(data, length, number + 1, ctypes.byref(told)), 1)
        self.assertEqual(library.sfi_c_move(data, length, number + 1, 0, 0), 1)

    def compare_moved(self, library, data, number, part):
        """Its bases, start, gates and names at another place, as docs/IMAGE.md has them in the bytes."""
        code_base, data_base = 0xE0000000, data_place(part, layout.parts(data))
        front = part.code_offset - 28 - 8 * len(part.gates)
        wanted = bytearray(data)
        places = [(front, code_base), (front + 8, data_base), (front + 16, part.start - part.code_base + code_base)]
        places += [(front + 28 + 8 * k, gate - part.code_base + code_base) for k, gate in enumerate(sorted(part.gates))]
        for at, number_there in places:
            struct.pack_into("<I", wanted, at, number_there)
        first = part.code_offset + part.code_size
        wanted[first:first + len(part.init)] = names_there(part, code_base, data_base)
        image = ctypes.create_string_buffer(data, len(data))
        self.assertEqual(library.sfi_c_move(image, ctypes.c_size_t(len(data)), number, code_base, data_base), 0)
        self.assertEqual(image.raw, bytes(wanted))


def data_place(part, parts):
    """Where else its data have room: with single masks at a bit that none of the parts has, else high up."""
    if part.format != layout.SINGLE:
        return 0xF0000000 if part.data_size < 1 << 28 else 0x80000000
    return next(1 << bit for bit in range(30, 0, -1) if all(it.data_base != 1 << bit for it in parts))


def names_there(part, code_base, data_base):
    """A sandbox's first data bytes at another place, with the addresses of their table there, if they end in one."""
    data, end = part.init, len(part.init) - 16
    if end < 0 or data[-4:] != b"SFIN":
        return data
    _, exports, imports = struct.unpack_from("<3I", data, end)
    found, at = bytearray(data), end - exports - imports
    for stop in (end - imports, end):
        while 0 <= at < stop:
            address, size = struct.unpack_from("<IB", data, at)
            name = data[at + 5:at + 5 + size]
            if not name or at + 5 + size > stop or not all(33 <= it <= 126 for it in name):
                return data
            if name[0] != ord("."):
                struct.pack_into("<I", found, at, address_there(part, address, code_base, data_base))
            at += 5 + size
        if at != stop:
            return data
    return bytes(found)


def address_there(part, address, code_base, data_base):
    if part.code_base <= address < part.code_base + part.code_size:
        return address - part.code_base + code_base
    if part.data_base <= address < part.data_base + part.data_size:
        return address - part.data_base + data_base
    return address


if __name__ == "__main__":
    unittest.main()
