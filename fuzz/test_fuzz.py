"""Tests of this folder: that its models agree with others, and that each script finds what was planted."""
import contextlib
import io
import os
import random
import re
import signal
import struct
import subprocess
import sys
import tempfile
import unittest

import beside
import calls
import commands
import escapes
import files
import mutants
import native_code
import ports
import second
import second_decoder
import testing
from suygapid.image import layout
from suygapid.isa import decoding
from suygapid.trials import corpus, fuzzing, images, lives, measure, natively, verdicts, worlds

MOST = 600  # cases in which a planted fault has to be found
needs_gcc = testing.needs("gcc")


def silently(call, *arguments):
    """What the call gives. What it prints is dropped."""
    with contextlib.redirect_stdout(io.StringIO()):
        return call(*arguments)


def cases_until_found(tally, try_one):
    """How many cases it took until one differed; None where none of MOST cases did."""
    for count in range(MOST):
        silently(try_one, random.Random(f"planted/{count}"))
        if tally.wrong:
            return count + 1
    return None


class Models(unittest.TestCase):
    def assert_read_alike(self, it, other, bits):
        """An instruction as the tools decode it, and as second_decoder.py does, which keeps the fields of a fence."""
        if it and it.op in ("lui", "auipc"):
            it = it._replace(number=it.number >> 12)
        if it and it.op == "fence":
            other = other._replace(rd=0, rs1=0, number=0)
        self.assertEqual(it and (it.size, it.op, *it[2:]), other and tuple(other), bits)

    def test_short_instructions_are_read_alike(self):
        for half in range(65536):
            if half & 3 != 3:
                self.assert_read_alike(decoding.decode16(half), second_decoder.short(half), hex(half))

    def test_wide_instructions_are_read_alike(self):
        pick = random.Random(1)
        for _ in range(20000):
            word = pick.getrandbits(32) & ~127 | pick.choice([0x37, 0x17, 0x6F, 0x67, 0x63, 0x03, 0x23, 0x13, 0x33, 0x0F, 0x73])
            word = word & ~(127 << 25) | pick.choice([0, 1, 32]) << 25 if pick.random() < 0.5 else word
            self.assert_read_alike(decoding.decode32(word), second_decoder.wide(word), hex(word))

    @needs_gcc
    def test_the_machine_runs_as_the_interpreter(self):
        with tempfile.TemporaryDirectory() as folder:
            interpreter = measure.compiled("interpreter.c", os.path.join(folder, "interpreter"), "-DPLACES")
            for seed in range(24):
                data = images.image(images.KINDS[seed % 4], 1, 512, 3, 1 + seed // 4 % 4, seed)
                (line,) = fuzzing.run([interpreter, "each", "1", "300"], data).lines
                self.assertEqual(self.line_of(data), line)

    def line_of(self, data):
        """A sandbox's line after a turn of 300 steps, with its pc and stack pointer, as the interpreter prints it."""
        sandbox = worlds.Sandbox(layout.parts(data)[0])
        sandbox.turn(300)
        event = sandbox.event()
        state = "ready"
        if event.kind == worlds.TRAPPED:
            state = f"trap={['', 'Fetch', 'Illegal', 'Break', 'Load', 'Store'][event.number]} at={event.a0:08x}"
        return f"sandbox=0 {state} steps={sandbox.steps} out= pc={sandbox.pc:08x} sp={sandbox.x[2]:08x}"


@needs_gcc
class Planted(testing.Folder):
    """A rule is left out of what is expected, or the model of calls has a fault."""

    def found(self, tally, try_one, what):
        self.assertIsNotNone(cases_until_found(tally, try_one), f"{what} wasn't found")

    @testing.needs_program
    def test_commands_find_a_rule_left_out(self):
        for rule in ("V5", "V12"):
            tally = fuzzing.Tally()
            judge = verdicts.Judge(self.folder, {rule})
            self.found(tally, commands.Commands(testing.SFI, judge, tally).try_one, rule)

    @testing.needs_program
    def test_mutants_find_a_rule_left_out(self):
        for rule in ("V5", "V10"):
            tally = fuzzing.Tally()
            self.found(tally, mutants.Mutants(testing.SFI, self.folder, {rule}, tally).try_one, rule)

    @testing.needs_program
    def test_second_finds_a_rule_left_out(self):
        for rule in ("V5", "V12"):
            tally = fuzzing.Tally()

            def try_one(pick):
                for row in second.compared(testing.SFI, rule, ("", pick))[1]:
                    tally.see(*row)

            self.found(tally, try_one, rule)

    @testing.needs_program
    def test_mutants_find_a_crash_and_a_wrong_status(self):
        for name, fault in (("crash", "kill -SEGV $$"), ("status", "exit 0")):
            program = self.write(name, f'#!/bin/sh\n[ "$1" != convert ] || {fault}\nexec {testing.SFI} "$@"\n', 0o755)
            tally = fuzzing.Tally()
            tried = mutants.Mutants(program, self.folder, (), tally)
            tried.builder = testing.SFI
            self.found(tally, tried.try_one, name)

    @testing.needs_program
    def test_escapes_are_found_without_a_rule(self):
        findings = lives.findings_by(verdicts.Judge(self.folder))
        pairs = [(rule, format) for format, rules in verdicts.NAMES.items() for rule in rules]
        for rule, format in testing.by_turns(pairs, -(-len(pairs) // 3)):
            self.found_without(rule, format, findings)

    def found_without(self, rule, format, findings):
        """An image that the program refuses for this rule alone has a run that isn't safe."""
        tally = fuzzing.Tally()

        def try_one(pick):
            data = escapes.try_image(pick, escapes.random_image(pick, format), findings, {rule}, tally)
            if tally.wrong:
                self.assertEqual({it[2] for it in corpus.findings_of(testing.SFI, data)[1]}, {rule})

        self.found(tally, try_one, f"a run that isn't safe without {rule} in format {format}")

    @testing.needs_program
    def test_calls_find_a_fault_of_the_model(self):
        judge = verdicts.Judge(self.folder)
        images_of = lives.image_maker(testing.SFI, judge)
        for name, planted in testing.by_turns(worlds.PLANTS.items(), -(-len(worlds.PLANTS) // 3)):
            tally = fuzzing.Tally()
            self.found(tally, lambda pick: lives.World(pick, images_of, worlds.Model(judge), planted(judge), tally).live(), name)


    @testing.needs_program
    def test_beside_finds_a_fault_of_the_model(self):
        judge, images = verdicts.Judge(self.folder), beside.images_of(testing.SFI)
        for name, planted in testing.by_turns(worlds.PLANTS_BESIDE.items(), -(-len(worlds.PLANTS_BESIDE) // 3)):
            tally = fuzzing.Tally()

            def try_one(pick):
                beside.Beside(pick, images, planted(judge), lambda: worlds.Model(judge), tally).live()

            self.found(tally, try_one, name)


# A call that says of the sandbox of number 1 what isn't so.
PLANTED_CALL = """
#include "sfi_run.h"
#undef sfi_run_steps
uint64_t sfi_run_steps(struct sfi_run_world *world, uint32_t sandbox);
uint64_t planted(struct sfi_run_world *world, uint32_t sandbox) { return sfi_run_steps(world, sandbox) + (sandbox == 1); }
"""


class Ports(testing.Folder):
    """fuzz/player.c by libsfi_run, and with a call of another's."""

    @needs_gcc
    @unittest.skipUnless(os.path.exists(worlds.LIBRARY), "libsfi_run.a isn't built")
    def test_another_answer_is_seen(self):
        made, (library, _) = ports.Trace(), ports.libraries.make("sfi_run", worlds.LIBRARY, self.folder)
        made.put("load", 1, made.image(bytes.fromhex((testing.TOP / "examples" / "smallest.hex").read_text(encoding="ascii"))))
        for sandbox in (0, 1, 2):
            made.put("steps", 1, sandbox, 0)
        trace, planted = measure.written(self.path("trace"), b"".join(made.records)), self.write("planted.c", PLANTED_CALL)
        players = [ports.Port("own", ["gcc"], ports.HERE), ports.Port("other", ["gcc", "-Dsfi_run_steps=planted"], ports.HERE)]
        answers = []
        for port, parts in zip(players, ([library], [planted, library])):
            program, said = ports.compiled(port, self.folder, *parts)
            self.assertEqual(said, "")
            answers.append(ports.digests(port, program, trace))
        tally = fuzzing.Tally()
        cases = [(f"0 --round {number}", end) for number, end in enumerate((4, 5, 6))]
        silently(ports.see_cases, tally, players[1], cases, *answers)
        self.assertEqual((len(answers[0]), tally.compared, tally.wrong), (48, {"other": 3}, {"other": 1}))


@testing.needs_program
@unittest.skipIf(natively.why_not(), "native code doesn't run here")
@unittest.skipUnless(os.path.exists(worlds.LIBRARY) and os.path.exists(natively.COMMANDS), "libsfi_run.a or libsfi_tool_c.a isn't built")
class Native(unittest.TestCase):
    """Each in a process of its own, which native code may end."""

    def ended(self, *words):
        return subprocess.run([sys.executable, native_code.__file__, "--program", testing.SFI, *words], stdout=subprocess.PIPE, text=True, check=False)

    def test_code_of_another_instruction_is_seen(self):
        done = self.ended("--plant", "--rounds", "20")
        self.assertEqual(done.returncode, 1, done.stdout)
        case = re.search(r"^DIFFERS .*, seed (\d+ --round \d+)$", done.stdout, re.MULTILINE)[1].split()
        self.assertEqual(self.ended("--plant", *case).returncode, 1)

    def test_code_at_a_listed_address_calls_nobody_without_an_ecall(self):
        words = b"\x13\0\0\0" + 63 * b"\x73\0\x10\0"
        image = b"SFIW" + struct.pack("<10I", 1, 0x1000000, len(words), 0x1800000, natively.PAGE, 0x1000000, 1, 0, 0x1000000, 1) + words
        path = natively.library(worlds.LIBRARY, natively.COMMANDS)
        world = worlds.Library(worlds.Calls(path))
        world.load(image)
        self.assertTrue(natively.is_native(path, world))
        self.assertEqual((world.event(0).kind, world.reply(0, 0, 0), world.exit(0, 0)), (worlds.READY, False, False))
        self.assertEqual((world.turn(0, 9).kind, world.steps(0)), (worlds.TRAPPED, 1))
        world.free()

    def test_single_masks_lead_to_the_data_or_to_a_trap(self):
        """By hand: `and x31, x10, x27`, which is 80000fff, and `lw x10, N(x31)`."""
        rows = [(0, 0, 0), (0x1000, 0, 0), (0x40000000, 0, 0), (0x7fffffff, 0, 0xfff), (0, -1, 0xffffffff), (0xfff, 2047, 0x17fe),
                (0xffffffff, 0, 0x80000fff), (0x80000ffd, 4, 0x80001001), (0x80000000, -4, 0x7ffffffc), (0x80001000, 0, None),
                (0xc0000ffc, 0, None)]
        path = natively.library(worlds.LIBRARY, natively.COMMANDS)
        for a0, number, trap in rows:
            words = struct.pack("<2I", 0x01b57fb3, (number & 0xfff) << 20 | 31 << 15 | 2 << 12 | 10 << 7 | 3) + 62 * b"\x73\0\x10\0"
            image = b"SFIS" + struct.pack("<8I", 1, 0x1000000, len(words), 0x80000000, natively.PAGE, 0x1000000, 0, 0) + words
            world = worlds.Library(worlds.Calls(path))
            world.load(image)
            self.assertTrue(natively.is_native(path, world))
            self.assertTrue(world.stop(0) and world.enter(0, 0x1000000, [a0] + [0] * 7))
            event = world.turn(0, 1000)
            wanted = (worlds.TRAPPED, *((3, 0x1000008, 0x1000008, 2) if trap is None else (4, trap, 0x1000004, 1)))
            self.assertEqual((event.kind, event.number, event.a0, event.pc, world.steps(0)), wanted, f"{a0:x} {number}")
            world.free()

    def test_a_fault_of_the_process_is_told(self):
        printed = io.StringIO()
        with contextlib.redirect_stdout(printed):
            status = native_code.in_child(lambda now: os.kill(os.getpid(), signal.SIGSEGV))
        self.assertEqual((status, printed.getvalue().splitlines()[-1]), (1, "0 passed, 1 failed"))


class Files(unittest.TestCase):
    def test_each_mistake_of_the_host_is_seen(self):
        for name in testing.by_turns(files.MISTAKES, 3):
            done = subprocess.run([sys.executable, files.__file__, "--rounds", "100", "--plant", name], stdout=subprocess.PIPE, text=True,
                                  check=False)
            self.assertEqual(done.returncode, 1, f"{name}: {done.stdout}")


class Scripts(testing.Folder):
    """A script ends in 1 where something differs, and the case that it names shows it again."""

    @needs_gcc
    @testing.needs_program
    def test_a_case_is_repeated(self):
        words = ["--program", testing.SFI, "--library", "model", "--plant", "ReplyIsNoStep"]
        printed = io.StringIO()
        with contextlib.redirect_stdout(printed):
            self.assertEqual(calls.main([*words, "--rounds", "30", "5"]), 1)
        case = re.search(r"^DIFFERS .*, seed (.*)$", printed.getvalue(), re.MULTILINE)[1].split()
        self.assertEqual(silently(calls.main, [*words, *case]), 1)

    def test_what_is_never_compared_has_failed(self):
        tally = fuzzing.Tally("one", "two")
        tally.see("one", 1, 1)
        self.assertEqual(silently(tally.end), 1)
        tally.see("two", 1, 1)
        self.assertEqual(silently(tally.end), 0)

    def test_examples_are_there(self):
        self.assertGreater(len(corpus.example_sources()), 8)
