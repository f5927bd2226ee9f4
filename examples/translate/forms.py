#!/usr/bin/env python3
"""Whether lines mean in sfi_native.h what the manual says of their instructions: lines of all kinds are done once by the C
function and once by sfi_step, from random registers and data, and random code is run by sfi_turn, beside machine.py of tools/suygapid/trials; and
some lines whose values the manual states. By gcc and clang, without optimization, with it, and under sanitizers, of which
three have their turn. Then the header gets mistakes (form_mistakes.py), a third of them by turns, and the comparison has to see each.

    examples/translate/forms.py [--states N] [--many N] [--lines N] [--seed SEED]

For each of N lines of a kind N states beside the manual's machine, and many more in which the function does what sfi_step does.
"""
import argparse
import os
import random
import resource
import shutil
import struct
import subprocess
import sys
import tempfile

HERE = os.path.dirname(os.path.abspath(__file__))
TOP = os.path.dirname(os.path.dirname(HERE))
sys.dont_write_bytecode = True
sys.path.insert(0, os.path.join(TOP, "tools"))
import lines
import form_mistakes
import testing
from suygapid.image import layout
from suygapid.isa.decoding import Instruction
from suygapid.trials import machine

HEADER = "sfi_native.h"
CODE, CODE_SIZE, DATA_SIZE, PLACE, MASK = 0x01000000, 65536, 256, 8, 0xFFFFFFFF
GIVEN, FOUND = "<35I", "<36I"  # and the data
FUNCTION_WAY, STEP_WAY, TURN_WAY, MANY_WAY = range(4)
LEAST_LEFT = 65  # SFI_MOST: with this many steps left no jump goes on
NEXT, CALL, LOAD, STORE, BREAK = range(5)
OUTCOMES = {0: CALL, machine.BREAK: BREAK, machine.LOAD: LOAD, machine.STORE: STORE}
OTHERS = ["jal", "jalr", "lui", "auipc", "fence", "ecall", "ebreak"]
KINDS = lines.COMPUTATIONS + lines.IMMEDIATES + lines.LOADS + lines.STORES + lines.BRANCHES + OTHERS
GOING_ON = lines.COMPUTATIONS + lines.IMMEDIATES + lines.BRANCHES + ["jal", "lui", "auipc", "fence"]  # these don't end a turn
SANITIZED = ("gcc", "-O1", "-fsanitize=undefined,address", "-fno-sanitize-recover=all")
MISTAKEN = ("gcc", "-O1")
COMPILERS = [("gcc", "-O0"), ("gcc", "-O2"), ("clang", "-O0"), ("clang", "-O2"), SANITIZED]
LEAST, ONES = 0x80000000, MASK
VECTORS = [  # of crates/rv_tests: kind, x11, x12, and x10 afterwards
    ("div", 7, 0, ONES), ("rem", 7, 0, 7), ("div", LEAST, ONES, LEAST), ("rem", LEAST, ONES, 0), ("mulhsu", ONES, ONES, ONES)]


class Form:
    """A sandbox of a form: the words that begin it, its format, where its data begin, and the registers that lines write."""

    def __init__(self, head, number, data, reserved):
        self.head, self.data, self.free = head, data, [it for it in range(32) if it not in reserved]
        self.part = layout.Part(CODE, bytes(CODE_SIZE), data, DATA_SIZE, CODE, format=number)


USUAL = Form("SANDBOX", layout.WORDS, 0x01800000, (24, 25, 26, 27))
SINGLE = Form("SANDBOX_SINGLE", layout.SINGLE, 0x02000000, (24, 25, 27))


class Line:
    """A line: the instruction as it is decoded, and the operands as `sfi dis` lists them."""

    def __init__(self, pick, kind, at, targets, size=None, registers=None, form=USUAL):
        rd, rs1, rs2, number = pick.choice(form.free), pick.randrange(32), pick.randrange(32), self.number_of(pick, kind)
        self.form, self.at, self.kind, self.size = form, at, kind, size or (4 if kind == "ecall" else pick.choice([2, 4]))
        if kind in lines.LOADS + lines.STORES:
            rs1 = pick.choice([rs1, 26, 31])
        elif kind == "or":
            rs2 = pick.choice([rs2, 26, 27])
        elif pick.random() < 0.45:
            same = pick.choice([rs1, rs2])
            rd = same if same in form.free else rd
        rd, rs1, rs2 = registers or (rd, rs1, rs2)
        if kind in lines.BRANCHES or kind == "jal":
            number = pick.choice(targets) - at
        self.number = number
        self.operands = [str(it) for it in self.listed(kind, rd, rs1, rs2, number)]
        wide = number << 12 if kind in ("lui", "auipc") else number
        uses = (0, 0) if kind in ("lui", "auipc") else (rs1, rs2)
        self.instruction = Instruction(kind, self.size, 0 if kind in lines.STORES + lines.BRANCHES else rd, *uses, wide)

    @staticmethod
    def number_of(pick, kind):
        if kind in ("lui", "auipc"):
            return pick.choice([0, 1, 0xFFFFF, 0x80000, pick.getrandbits(20)])
        if kind in ("slli", "srli", "srai"):
            return pick.randrange(32)
        return pick.choice([0, -1, 2047, -2048, pick.randrange(1, 64), pick.randrange(-2048, 2048)])

    @staticmethod
    def listed(kind, rd, rs1, rs2, number):
        if kind in lines.COMPUTATIONS:
            return rd, rs1, rs2
        if kind in lines.IMMEDIATES:
            return rd, rs1, number
        if kind in lines.LOADS or kind == "jalr":
            return rd, number, rs1
        if kind in lines.STORES:
            return rs2, number, rs1
        if kind in lines.BRANCHES:
            return rs1, rs2, number
        return (rd, number) if kind in ("jal", "lui", "auipc") else ()

    def is_access(self):
        return self.kind in lines.LOADS + lines.STORES

    def text(self):
        """The line, and what stands before it."""
        head = f"HEAD({self.at:08x})\n" if self.at % lines.HEAD_BYTES == 0 else ""
        entry = f"ENTRY({self.at:08x})\n" if self.at % 4 == 0 else ""
        return f"{entry}{head}{lines.line_of(self.at, self.size, self.kind, self.operands)}\n"

    def alone(self):
        """The same, and ebreaks after it."""
        middle = "" if self.size == 4 else f"EBREAK({self.at + 2:08x},2)\n"
        return self.text() + f"{middle}EBREAK({self.at + 4:08x},4)\n"


def made_lines(pick, count, form=USUAL):
    """So many lines of each kind, at random places of four functions."""
    kinds = [kind for kind in KINDS for _ in range(count)]
    places = sorted(pick.sample(range(CODE_SIZE // PLACE), len(kinds)))
    addresses = [CODE + PLACE * place for place in places]
    pick.shuffle(kinds)
    return [Line(pick, kind, at, [it + 4 for it in addresses], form=form) for kind, at in zip(kinds, addresses)]


def made_run(pick, count, form=USUAL):
    """So many lines, one after another, across the end of a function. A third has no jump."""
    begin = CODE + lines.FUNCTION_MOST - 4 * (count // 2)
    addresses = [begin + 4 * place for place in range(count)]
    kinds = [pick.choice(lines.COMPUTATIONS if 3 * place < count else GOING_ON if pick.random() < 0.97 else KINDS)
             for place in range(count)]
    near = [addresses[max(0, place - 9):place + 9] if pick.random() < 0.6 else addresses for place in range(count)]
    made = [Line(pick, *it, 4, form=form) for it in zip(kinds, addresses, near)]
    for place in range(0, count // 3, 8):
        made[place:place + 2] = masked(pick, addresses[place], form)
    return made


def masked(pick, at, form):
    """A mask of an offset, and the data base set in it, or in another register."""
    offset, address, other = pick.choice(form.free[1:]), pick.choice(form.free[1:]), pick.randrange(32)
    made = ("and", at, (offset, other, 27)), ("or", at + 4, (address, pick.choice([offset, offset, other]), 26))
    return [Line(pick, kind, at, [], 4, registers, form) for kind, at, registers in made]


def text_of(made, shown=Line.alone):
    """A translation with these lines; each function has one."""
    text = [f"{made[0].form.head}(0,4,{CODE:08x},{CODE_SIZE},{made[0].form.data:08x},{DATA_SIZE},{CODE:08x},0,0)\nDATA(0,0)\n"]
    for begin in range(CODE, CODE + CODE_SIZE, lines.FUNCTION_MOST):
        text += [f"END({begin:08x})\n"] * (begin > CODE) + [f"FUNCTION(0,{begin:08x})\n"]
        text += [shown(it) for it in made if begin <= it.at < begin + lines.FUNCTION_MOST] or [f"EBREAK({begin:08x},4)\n"]
    return "".join(text) + "LAST\n"


def word(pick, data):
    near = [0, 1, 2, 31, 32, ONES, LEAST, LEAST - 1, data, data + DATA_SIZE - 1, data + DATA_SIZE - 4, data - 1, CODE, CODE + 4]
    return pick.choice([pick.choice(near), pick.getrandbits(32), pick.randrange(-300, 300) & MASK])


def state(pick, line):
    """Registers that make its access fall in the data, at an end of them, or anywhere."""
    form = line.form
    x = [0] + [word(pick, form.data) for _ in range(31)]
    for number, value in zip(range(24, 28), form.part.reserved()):
        x[number] = x[number] if number in form.free else value
    if line.kind in lines.BRANCHES and line.instruction.rs2 in form.free[1:] and pick.random() < 0.3:
        x[line.instruction.rs2] = x[line.instruction.rs1]
    if line.is_access() and line.instruction.rs1 in form.free[1:] and pick.random() < 0.8:
        places = [0, 1, *range(DATA_SIZE - 4, DATA_SIZE + 1), -1, pick.randrange(DATA_SIZE)]
        x[line.instruction.rs1] = form.data + pick.choice(places) - line.number & MASK
    return x


def expected(given, line, x, data):
    """What the C function and sfi_step are to answer, by the manual."""
    it = machine.Machine(given)
    it.pc, it.x, it.data, it.decoded = line.at, list(x), bytearray(data), {line.at: line.instruction}
    stop = it.step()
    outcome = (OUTCOMES[stop.cause], stop.at) if stop else (NEXT, line.at)
    return outcome, it.pc & MASK, 0 if stop else 1, it.x, bytes(it.data)


def packed(way, at, left, x, data):
    """What the C program reads."""
    return struct.pack(GIVEN, way, at, left, *x) + data


def cases(pick, made, states):
    """For each line, way and state: what the C program reads, and what it is to write."""
    given = made[0].form.part
    for line in made:
        for _ in range(states):
            x, data = state(pick, line), pick.randbytes(DATA_SIZE)
            left = LEAST_LEFT if line.kind == "jalr" else pick.choice([LEAST_LEFT, 66, 1000, ONES])
            (how, at), pc, steps, after, left_data = expected(given, line, x, data)
            rest = (pc, left - steps, *after, left_data)
            for way, told in ((FUNCTION_WAY, (None if how == NEXT else 1, 0)), (STEP_WAY, (how, at))):
                yield line, packed(way, line.at, left, x, data), told + rest


def many(made, states):
    """For each line so many states, in the same shape: its function is to do in each what sfi_step does."""
    x = [0] * 24 + list(made[0].form.part.reserved()) + [0] * 4
    return [(line, packed(MANY_WAY, line.at, states, x, bytes(DATA_SIZE)), (0,)) for line in made]


def made_ahead(pick):
    """Short lines to a jump ahead past a head, and short lines after it."""
    places = [(CODE + 2 * number, "addi", 2) for number in range(62)] + [(CODE + 124, "jal", 4)]
    places += [(CODE + 132 + 2 * number, "addi", 2) for number in range(62)]
    return [Line(pick, kind, at, [CODE + 132], size) for at, kind, size in places]


def turns(pick, made, count):
    """So many turns of those lines, in the same shape."""
    given, decoded = made[0].form.part, {line.at: line.instruction for line in made}
    for _ in range(count):
        line, left = pick.choice(made), pick.choice([0, 1, 64, 65, 66, 128, 129, pick.randrange(600)])
        it = machine.Machine(given)
        x, data = state(pick, line), pick.randbytes(DATA_SIZE)
        it.pc, it.x, it.data, it.decoded, done, stop = line.at, list(x), bytearray(data), decoded, 0, None
        while done < left and it.pc in decoded and not stop:
            stop = it.step()
            done += not stop
        if it.pc in decoded:
            told = (OUTCOMES[stop.cause], stop.at) if stop else (NEXT, None)
            yield line, packed(TURN_WAY, line.at, left, x, data), told + (it.pc, left - done, *it.x, bytes(it.data))


def vectors():
    """Lines with values of the manual's, in the same shape."""
    made, tried = [], []
    for number, (kind, x11, x12, x10) in enumerate(VECTORS):
        line = Line(random.Random(0), kind, CODE + PLACE * number, [CODE + 4])
        line.size, line.operands = 4, ["10", "11", "12"]
        made.append(line)
        x = [0] * 32
        x[24:28], x[11], x[12] = USUAL.part.reserved(), x11, x12
        after = x[:10] + [x10] + x[11:]
        for way, told in ((FUNCTION_WAY, (None, 0)), (STEP_WAY, (NEXT, line.at))):
            tried.append((line, packed(way, line.at, 99, x, bytes(DATA_SIZE)),
                          told + (line.at + 4, 98, *after, bytes(DATA_SIZE))))
    return made, tried


def landings():
    """Indirect jumps by x11 and what the function does after them, in the same shape: to a short line that adds 1 to x10, behind
    it, to a line that is no entry, into another function, and out of the code."""
    made = [Line(random.Random(0), kind, CODE + PLACE * number, [CODE + 4], 2 * (2 - number)) for number, kind in enumerate(("jalr", "addi"))]
    made[0].operands, made[1].operands, tried = ["0", "0", "11"], ["10", "10", "1"], []
    for to, how, steps, left in ((CODE + 8, 1, 2, 99), (CODE + 9, 1, 2, 99), (CODE + 8, 1, 1, LEAST_LEFT), (CODE + 10, 1, 1, 99), (CODE + 4, 1, 1, 99),
                                 (CODE + lines.FUNCTION_MOST + 8, 0, 1, 99), (0, 0, 1, 99), (2, 1, 1, 99)):
        x = [0] * 32
        x[24:28], x[11] = USUAL.part.reserved(), to
        after = x[:10] + [steps - 1] + x[11:]
        tried.append((made[0], packed(FUNCTION_WAY, CODE, left, x, bytes(DATA_SIZE)),
                      (how, 0, (to & ~1) + 2 * (steps - 1), left - steps, *after, bytes(DATA_SIZE))))
    return made, tried


def compiled(folder, compiler, header, text):
    """The program of a text by this header; None where that can't be compiled."""
    for name, content in {HEADER: header, "image.inc": text}.items():
        with open(os.path.join(folder, name), "w", encoding="ascii") as file:
            file.write(content)
    program = os.path.join(folder, "forms")
    words = [*compiler, "-std=c99", "-w", "-I", folder, f'-DSFI_TEXT="{folder}/image.inc"', os.path.join(HERE, "forms.c"), "-o", program]
    return program if subprocess.run(words, stderr=subprocess.DEVNULL, check=False).returncode == 0 else None


def is_answer(wanted, found):
    """Whether these are the wanted numbers; None stands for any."""
    return all(it is None or it == that for it, that in zip(wanted, found))


def limit_time():
    resource.setrlimit(resource.RLIMIT_CPU, (5, 5))  # seconds: a mistake may make a turn endless


def differing(program, tried):
    """The lines of the cases in which the program answers something else, or how it ended."""
    given = b"".join(it for _, it, _ in tried)
    done = subprocess.run([program], input=given, stdout=subprocess.PIPE, preexec_fn=limit_time, check=False)
    found = f"{FOUND}{len(tried[0][1]) - struct.calcsize(GIVEN)}s"
    size = struct.calcsize(found)
    if done.returncode or len(done.stdout) != size * len(tried):
        return [f"the program ended with status {done.returncode}"]
    return [line.text() for number, (line, _, wanted) in enumerate(tried)
            if not is_answer(wanted, struct.unpack_from(found, done.stdout, size * number))]


class Tally:
    """How many comparisons by this header have passed, failed and been skipped."""

    def __init__(self, folder, header):
        self.folder, self.header, self.passed, self.failed, self.skipped = folder, header, 0, 0, 0

    def count(self, is_passed):
        self.passed, self.failed = self.passed + is_passed, self.failed + (not is_passed)

    def try_level(self, compiler, sets):
        """Compares by a compiler sets of lines, each a text and its cases."""
        if not shutil.which(compiler[0]):
            print(f"skipped: lines by {' '.join(compiler)}: {compiler[0]} isn't there")
            self.skipped += 1
            return
        for text, cases_of in sets:
            program = compiled(self.folder, compiler, self.header, text)
            wrong = differing(program, cases_of) if program else ["it isn't compiled\n"]
            print(f"{' '.join(compiler)}: {len(cases_of)} compared, {len(wrong)} differ")
            print("".join(f"FAILED {it}" for it in wrong[:3]), end="")
            self.count(not wrong)

    def is_seen(self, header, text, cases_of):
        program = compiled(self.folder, MISTAKEN, header, text)
        beside_manual = [it for it in cases_of if it[2] != (0,)]
        return program is not None and bool(differing(program, beside_manual))

    def try_mistake(self, sets, what, old, new):
        header = self.header.replace(old, new)
        is_there = header != self.header
        is_seen = is_there and any(self.is_seen(header, *it) for it in sets)
        print(f"a mistake, {what}: " + ("seen" if is_seen else "FAILED, not seen" if is_there else "FAILED, not in the header"))
        self.count(is_seen)


def sets_of(pick, given):
    """Sets of lines: of each kind, some with the manual's values, indirect jumps, and random code; and of single masks some of each."""
    made, run, ahead = made_lines(pick, given.lines), made_run(pick, 600), made_ahead(pick)
    found = [(text_of(made), list(cases(pick, made, given.states)) + many(made, given.many)), *((text_of(it), tried) for it, tried in (vectors(), landings())),
             *((text_of(it, Line.text), list(turns(pick, it, 100 * given.states))) for it in (run, ahead))]
    single, run = made_lines(pick, -(-given.lines // 3), SINGLE), made_run(pick, 300, SINGLE)
    return [*found, (text_of(single), list(cases(pick, single, given.states)) + many(single, given.many // 4)),
            (text_of(run, Line.text), list(turns(pick, run, 50 * given.states)))]


def main():
    parser = argparse.ArgumentParser(description=__doc__, formatter_class=argparse.RawDescriptionHelpFormatter)
    parser.add_argument("--states", type=int, default=8, help="states for each line (8)")
    parser.add_argument("--many", type=int, default=4000, help="states for each line, by the function and sfi_step (4000)")
    parser.add_argument("--lines", type=int, default=6, help="lines of each kind (6)")
    parser.add_argument("--seed", type=int, default=0)
    given = parser.parse_args()
    pick = random.Random(given.seed)
    with open(os.path.join(TOP, "crates/sfi_translate/include", HEADER), encoding="ascii") as file:
        header = file.read()
    with tempfile.TemporaryDirectory() as folder:
        tally, sets = Tally(folder, header), sets_of(pick, given)
        for compiler in testing.by_turns(COMPILERS, 3):
            tally.try_level(compiler, sets)
        mistakes = testing.by_turns(form_mistakes.MISTAKES.items(), -(-len(form_mistakes.MISTAKES) // 3))
        for what, (old, new) in mistakes if shutil.which(MISTAKEN[0]) else ():
            tally.try_mistake(sets, what, old, new)
    print(f"{tally.passed} passed, {tally.failed} failed" + (f", {tally.skipped} skipped" if tally.skipped else ""))
    return 1 if tally.failed else 0


if __name__ == "__main__":
    sys.exit(main())
