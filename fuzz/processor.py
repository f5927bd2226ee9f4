#!/usr/bin/env python3
"""Whether this machine's processor does what the definitions of crates/x86_step say, with the bytes of crates/x86_instr.

    fuzz/processor.py [--library PATH] [--seed N] [--cases N] [--plant MISTAKE]

Each case is a random instruction, with random registers, flags and memory, often at the edge of an operand, of the memory, or of
what an operation can do. fuzz/processor.c runs it, and compares all registers, rip, the flags that are known, all memory, and
whether and how it stops. A case is repeated by its number: `--seed NUMBER --cases 1`. Each operation of each form, in each of its
widths, has to have its share of the cases. `--plant MISTAKE` changes what is expected, as if the definitions erred: then it has to
fail. Without it, each mistake is planted once, and has to be seen. It wants gcc, and x86-64 with Linux.
"""
import argparse
import collections
import os
import platform
import subprocess
import sys
import tempfile

TOP = os.path.dirname(os.path.dirname(os.path.abspath(__file__)))
sys.dont_write_bytecode = True
sys.path.insert(0, os.path.join(TOP, "tools"))
from suygapid.trials import fuzzing

CRATES = os.path.join(TOP, "crates")
LIBRARY = os.path.join(CRATES, "x86_trial", "out", "libx86_trial.a")
HEAP = os.path.join(CRATES, "sfi_run", "c", "heap.c")
SOURCE = os.path.join(TOP, "fuzz", "processor.c")
CASES, PLANTED_CASES = 1000000, 20000
ALU = ["add", "or", "and", "sub", "xor", "cmp"]
SHIFTS = ["shl", "shr", "sar"]
CONDITIONS = ["b", "ae", "e", "ne", "be", "a", "l", "ge", "le", "g"]
WIDTHS = ["32", "64"]


def each(names, others):
    return [f"{name} {other}" for name in names for other in others]


# The operations of each form, in the order of `Instr` and of crates/x86_trial/src/instrs.rt.
FORMS = {
    "Mov": WIDTHS, "MovStore": WIDTHS, "MovStoreByte": [""], "MovStoreWord": [""], "MovImm": [""],
    "MovExtended": each(["movzx", "movsx"], ["8", "16"]), "Movsxd": [""],
    "Alu": each(ALU, WIDTHS), "AluImm": each(ALU, WIDTHS), "Test": [""], "Unary": ["neg"],
    "ShiftImm": each(SHIFTS, WIDTHS), "ShiftCl": SHIFTS, "Imul": WIDTHS, "Divide": ["div", "idiv"], "Cdq": [""],
    "Setcc": CONDITIONS, "Jcc": CONDITIONS, "Jmp": [""], "JmpTo": [""], "Nop": [str(size) for size in range(1, 10)],
}
SHARES, PLANTS = "each operation has its share of the cases", "planted mistakes"
NAMES = [*FORMS, SHARES, PLANTS]


def why_not():
    """Why nothing can be tried here; None where it can."""
    if (platform.machine(), platform.system()) != ("x86_64", "Linux"):
        return "this isn't x86-64 with Linux"
    return None if fuzzing.has_gcc() else "gcc isn't there"


def compiled(folder, library):
    path = os.path.join(folder, "processor")
    subprocess.run(["gcc", "-std=c11", "-O2", "-Wall", "-Wextra", "-Werror", "-o", path, SOURCE, HEAP, library], check=True)
    return path


def run(path, seed, cases, *plant):
    """For each form and operation how many cases were compared, differ, and were to stop; and what is printed of differences."""
    done = subprocess.run([path, str(seed), str(cases), *plant], stdout=subprocess.PIPE, text=True, check=False)
    if done.returncode:
        sys.exit(f"fuzz: the processor's program ended with {done.returncode}")
    counts, shown = collections.defaultdict(collections.Counter), []
    forms = list(FORMS.items())
    for line in done.stdout.splitlines():
        word, *numbers = line.split()
        if word != "count":
            shown.append(line)
            continue
        form, operation, *found = map(int, numbers)
        name, operations = forms[form]
        counts[name, operations[operation % len(operations)]].update(dict(zip(("compared", "differ", "stop"), found)))
    return counts, shown


def see_counts(tally, counts, cases):
    for (form, _), count in counts.items():
        if count["compared"]:
            tally.compared[form] = tally.compared.get(form, 0) + count["compared"]
            tally.wrong[form] += count["differ"]
    least = cases // 350  # the rarest operations have one case in 252
    rare = [f"{form} {operation}" for (form, operation), count in counts.items() if count["compared"] < least]
    tally.see(SHARES, [], rare)
    total = collections.Counter()
    for count in counts.values():
        total.update(count)
    print(f"{len(counts)} operations, of each at least {min(it['compared'] for it in counts.values())} cases; {total['stop']} cases stop;"
          f" {cases - total['compared']} aren't run, since they read an unknown flag or jump into themselves")


def main(words=None):
    parser = argparse.ArgumentParser(description=__doc__, formatter_class=argparse.RawDescriptionHelpFormatter)
    parser.add_argument("--library", default=LIBRARY, help="libx86_trial.a")
    parser.add_argument("--seed", type=int, default=0, help="the number of the first case (0)")
    parser.add_argument("--cases", type=int, default=CASES, help=f"how many cases ({CASES})")
    parser.add_argument("--plant", metavar="MISTAKE", help="change what is expected")
    given = parser.parse_args(words)
    why = why_not()
    if why:
        return fuzzing.all_skipped(len(NAMES), "the definitions of x86-64 beside the processor", why)
    if not os.path.exists(given.library):
        sys.exit(f"fuzz: no library {given.library}: (cd crates/x86_trial && rt lib) builds it")
    is_whole = given.cases >= CASES and given.plant is None
    tally = fuzzing.Tally(*(NAMES if is_whole else []))
    with tempfile.TemporaryDirectory() as folder:
        path = compiled(folder, given.library)
        plants = subprocess.run([path], stdout=subprocess.PIPE, text=True, check=True).stdout.split()
        if given.plant is not None and given.plant not in plants:
            parser.error(f"the mistakes are {', '.join(plants)}")
        counts, shown = run(path, given.seed, given.cases, *[given.plant] * (given.plant is not None))
        print(*shown, sep="\n")
        see_counts(tally, counts, given.cases)
        for plant in plants if is_whole else []:
            seen = sum(count["differ"] for count in run(path, given.seed, PLANTED_CASES, plant)[0].values())
            print(f"{plant}: seen {seen} times")
            tally.see(PLANTS, True, seen > 0)
    return tally.end()


if __name__ == "__main__":
    sys.exit(main())
