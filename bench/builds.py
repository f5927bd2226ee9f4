#!/usr/bin/env python3
"""How fast `sfi build` is, on two sources of some 60,000 lines that it makes itself, from fixed seeds.

    bench/builds.py [--program PATH ..] [--rounds N]

`stores` is 15 sandboxes of 4001 stores and a call each. `mixed` is 16 sandboxes of 3700 lines each: computations, loads,
stores, branches, jumps and pseudo-instructions, a label every 13 lines, a comment on one line of twelve, and registers by
both of their names. For each program it prints x86 instructions for a line of source, those of the process's start too, and
the seconds of processor time, by the medians of N alternated runs.
"""
import argparse
import os
import random
import sys
import tempfile

TOP = os.path.dirname(os.path.dirname(os.path.abspath(__file__)))
sys.dont_write_bytecode = True
sys.path.insert(0, os.path.join(TOP, "tools"))
from suygapid.trials import measure

REGISTERS = [f"x{number}" for number in range(5, 24)] + "ra sp t0 t1 t2 a0 a1 a2 a3 a4 a5 a6 a7 s2 s3 s4 s5".split()
# The form of a statement and its names, and how often it comes.
FORMS = {
    ("{name} {r}, {s}, {t}", "add sub xor or and sll mul"): 4,
    ("{name} {r}, {s}, {small}", "addi andi xori slti"): 3,
    ("{name} {r}, {s}, {amount}", "slli srli srai"): 1,
    ("{name} {r}, {place}({s})", "lw lb lbu lhu lh"): 3,
    ("{name} {r}, {place}({s})", "sw sb sh"): 2,
    ("{name} {r}, {word}", "li"): 1,
    ("{name} {r}, {s}", "mv"): 1,
    ("{name} {r}, {upper:#x}", "lui auipc"): 1,
    ("{name} {r}, {s}, {target}", "beq bne blt bgeu"): 1,
    ("{name} {r}, {target}", "beqz bnez"): 1,
    ("{name} {target}", "j"): 1,
    ("{name}", "nop"): 1,
}
LINES = 3700
BLOCK = 12


def stores():
    return 15 * (".sandbox 256\n.gate e 1\n" + 4001 * "sw a0, 0(a1)\n" + "call e\n")


def statement(draw, targets):
    """A statement that may go to one of these labels."""
    r, s, t = draw.choices(REGISTERS, k=3)
    form, names = draw.choices(list(FORMS), list(FORMS.values()))[0]
    return form.format(
        name=draw.choice(names.split()),
        r=r,
        s=s,
        t=t,
        target=draw.choice(targets),
        small=draw.randrange(-2048, 2048),
        amount=draw.randrange(32),
        place=4 * draw.randrange(64),
        upper=draw.randrange(2**20),
        word=draw.randrange(2 ** draw.choice([11, 32])),
    )


def mixed():
    draw = random.Random(7)
    text = []
    for _ in range(16):
        text.append(".sandbox 65536\n.gate exit 1\n.option rvc\nstart:\n")
        for block in range(LINES // (BLOCK + 1)):
            targets = ["start"] if block < 8 else [f"l{block}", f"l{block - 1}"]
            text.append(f"l{block}:\n")
            for _ in range(BLOCK):
                text.append(statement(draw, targets) + draw.choice(["  # a note\n"] + 11 * ["\n"]))
        text.append("call exit\nret\n.data\n.word 1, 2, 3\n")
    return "".join(text)


def main():
    parser = argparse.ArgumentParser()
    parser.add_argument("--program", nargs="+", default=[measure.PROGRAM])
    parser.add_argument("--rounds", type=int, default=11)
    options = parser.parse_args()
    programs = [measure.program_at(path) for path in options.program]
    print("| source | lines | bytes |", " | ".join(options.program), "|")
    with tempfile.TemporaryDirectory() as folder:
        for name, text in {"stores": stores(), "mixed": mixed()}.items():
            path = measure.written(os.path.join(folder, name), text.encode())
            if len({measure.run([program, "build"], path)[0] for program in programs}) != 1:
                raise SystemExit(f"bench: {name}: the images differ")
            lines = text.count("\n")
            times = measure.medians({program: ([program, "build"], path) for program in programs}, options.rounds)
            cells = [f"{measure.instructions([program, 'build'], path) / lines:.0f}, {times[program]:.3f} s" for program in programs]
            print(f"| {name} | {lines:,} | {len(text):,} |", " | ".join(cells), "|", flush=True)


if __name__ == "__main__":
    main()
