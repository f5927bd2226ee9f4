#!/usr/bin/env python3
"""Whether libsfi_run_native does for a host what sfi_run.h says: random calls on random images answer what the model of them (worlds.py of
tools/suygapid/trials) answers, a host's own faults stay its own, and a function that is entered has the room above its stack that the image claims.

    examples/native/hosts.py [--library libsfi_run.a] [--commands libsfi_tool_c.a] [--program SFI] [--rounds N] [--seconds S] [SEED ..]

Each round is the life of a world, as in fuzz/calls.py, of images whose data are whole pages. It wants gcc.
"""
import os
import resource
import signal
import struct
import subprocess
import sys
import tempfile

sys.dont_write_bytecode = True
HERE = os.path.dirname(os.path.abspath(__file__))
TOP = os.path.dirname(os.path.dirname(HERE))
sys.path.insert(0, os.path.join(TOP, "tools"))
from suygapid.trials import corpus, fuzzing, guarded, lives, measure, natively, verdicts, worlds

OPTIONS = ["-std=c11", "-D_POSIX_C_SOURCE=200809L", "-O2", "-Wall", "-Wextra", "-Werror",
           *(f"-I{TOP}/crates/{it}/include" for it in ("sfi_run", "sfi_c"))]
FAULTING = [  # instructions that access a guard zone, below the data and above them
    b".sandbox 4096\nli a0, 4095\nli a1, 0\nlw a2, -1(a1)\n", b".sandbox 4096\nli a0, 4095\nsw a0, -2(a0)\n",
    b".sandbox 8192\nli a0, 8188\nlw zero, 4(a0)\n"]
FAULTS = [("info",), ("plain",), ("none",), ("ignore",), ("raise",), ("ignore-raise",), ("info", "another"), ("none", "another")]
ROOMS = [  # what the first data end in, before the table's footer, and how many bytes that claims, of 4096 of data
    (b"", 0), (struct.pack("<IB5s", 0, 5, b".room"), 0), (struct.pack("<IB5s", 2304, 5, b".room"), 2304),
    (struct.pack("<IB5s", 4080, 5, b".room"), 4080), (struct.pack("<IB5s", 4081, 5, b".room"), 0),
    (struct.pack("<IB5s", 2 ** 32 - 1, 5, b".room"), 0), (struct.pack("<IB5s", 100, 5, b".roof"), 0),
    (struct.pack("<IB5s", 100, 4, b".room"), 0)]


def image_of(sfi, text, line):
    return bytes.fromhex(fuzzing.output([sfi, "build"], line + text))


def claiming(image, claim):
    """The image of one sandbox with a table of names whose imports are these bytes."""
    init_at = 8 + 6 * 4  # the field that says how many first data there are
    table = claim + struct.pack("<III4s", 1, 0, len(claim), b"SFIN")
    init = int.from_bytes(image[init_at : init_at + 4], "little") + len(table)
    return image[:init_at] + init.to_bytes(4, "little") + image[init_at + 4 :] + table


def stack_pointers(library, image):
    """The stack pointer of the start and of a function that the host enters, from the data's end down."""
    world = worlds.Library(worlds.Calls(library))
    world.load(image)
    end = sum(world.region(0))
    start, at_start = world.registers(0)[0], world.registers(0)[3]
    entered = world.stop(0) and world.enter(0, start, [0] * 8) and world.registers(0)[3]
    world.free()
    return end - at_start, end - entered


def try_room(sfi, ways, tally):
    """The stack pointers of a sandbox, by each library, by what its image claims."""
    for line in corpus.FORMAT_LINES:
        plain = image_of(sfi, b".sandbox 4096\n.gate exit 0\ncall exit\n.data\n.word 1\n", line)
        for claim, room in ROOMS:
            image = claiming(plain, claim)
            for way, library in ways.items():
                tally.see(f"the room above the stack, {way}", (16, 16 + room), stack_pointers(library, image), image)


def limit_time():
    resource.setrlimit(resource.RLIMIT_CPU, (60, 60))  # seconds: a fault may come again and again


def answer(words):
    done = subprocess.run(words, stdout=subprocess.PIPE, stderr=subprocess.DEVNULL, preexec_fn=limit_time, check=False)
    return done.stdout, done.returncode


def fault_answer(sfi, image, how):
    """What the host faults.c is to print, and its status: the plug-in's trap is that of `sfi run`."""
    cause, at = fuzzing.output([sfi, "run"], image.hex().encode()).split("trap=")[1].split()[:2]
    turn = f"kind=4 cause={dict(Load=4, Store=5)[cause]} {at} faults={{}} told={{}}\n"
    first = turn.format(0, 0)
    if how in ("info", "plain"):
        return (first + turn.format(1, int(how == "info"))).encode(), 0
    if how == "ignore-raise":
        return (first + "it goes on\n" + first).encode(), 0
    return first.encode(), -signal.SIGSEGV


def try_faults(sfi, library, folder, tally):
    """A host whose own faults go to its handler, or end it, and none of the plug-in's."""
    host, other = os.path.join(folder, "faults"), os.path.join(folder, "other.so")
    archive = os.path.splitext(library)[0] + ".a"
    subprocess.run(["gcc", *OPTIONS, os.path.join(HERE, "faults.c"), archive, "-ldl", "-o", host], check=True)
    measure.written(other, measure.contents(library))  # another copy, with a handler of its own
    for number, source in enumerate(FAULTING):
        image = image_of(sfi, source, corpus.FORMAT_LINES[number])
        path = measure.written(os.path.join(folder, "plugin.image"), image)
        for how, *rest in FAULTS:
            tally.see(f"a host's own fault, {how} {' '.join(rest)}", fault_answer(sfi, image, how), answer([host, path, how] + [other] * len(rest)),
                      image)


def try_world(sfi, judge, opened, pick, tally):
    """The life of a world of random images."""
    findings = lives.findings_by(judge)

    def images(own):
        found = None
        while found is None:
            found = corpus.accepted(own, sfi) if own.random() < 0.7 else corpus.repaired(findings, corpus.odd(own))
        return guarded.grown(found) if own.random() < 0.8 else corpus.mutant(own, found)

    tally.see("version", worlds.header_version(), opened.version())
    lives.World(pick, images, worlds.Library(opened), worlds.Model(judge), tally).live()


def main(words=None):
    parser = fuzzing.options(__doc__, 20)
    parser.add_argument("--library", default=worlds.LIBRARY)
    parser.add_argument("--commands", default=natively.COMMANDS)
    given = parser.parse_args(words)
    if why := natively.why_not():
        return fuzzing.all_skipped(1, "hosts of native code", why)
    sfi = measure.program_at(given.program)
    tally = fuzzing.tally_of(parser, given, lives.NAMES)
    with tempfile.TemporaryDirectory() as folder:
        judge = verdicts.Judge(folder)
        library = natively.library(given.library, given.commands, folder)
        opened = worlds.Calls(library)
        for tally.case, pick in fuzzing.cases(given):
            try_world(sfi, judge, opened, pick, tally)
        if given.round is None:
            try_room(sfi, {"native": library, "interpreted": worlds.linked(os.path.abspath(given.library), folder)}, tally)
            try_faults(sfi, library, folder, tally)
    return tally.end()


if __name__ == "__main__":
    sys.exit(main())
