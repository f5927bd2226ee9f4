#!/usr/bin/env python3
"""Measures what a step, a call, a read, a write and a load cost a host of libsfi_run: in instructions of this processor, which
valgrind counts, from C; in microseconds from C, Python and node, the median of seven runs.

    examples/run/price.py [LIBRARY [PROGRAM [COMMANDS]]]    # as test.sh takes them

A loop of two instructions gives the price of a step, beside that of `sfi run`; a loop with a call in it, whose steps are
taken off, that of a turn with its reply; nops, and compiled programs where gcc for RISC-V is there, that of a byte of code in a
load. From Python and node a call is measured as `turn` and `reply`, and as a loop over `events`. Runs of loops without an end, by
additions and by divisions, are ended by another thread, and by a time: how much later they return, also by native code, where COMMANDS
are given.
"""
import os
import pathlib
import re
import shutil
import statistics
import subprocess
import sys
import tempfile
import threading
import time

HERE = pathlib.Path(__file__).resolve().parent
sys.dont_write_bytecode = True
TOP = HERE.parents[1]
sys.path.insert(0, os.path.join(TOP, "tools"))
import libraries

STEPS = ".sandbox 256\nloop: addi a0, a0, 1\n j loop\n"
LARGE = ".format 2\n.sandbox 65536\n" + "nop\n" * 16384 + "ebreak\n"
COMPILED = [(name, form) for name in ("json", "sort") for form in ("1", "2", "words")]  # programs of examples/c, and formats
CALLS = ".sandbox 256\n.gate post 4\nloop: call post\n j loop\n"
LOOP = ".sandbox 4096\nli a1, 7\nloop: {} a0, a0, a1\n j loop\n"
TURNS, ROUNDS, ENDS = 20000, 7, 200


def run(*words, given=""):
    return subprocess.run(words, input=given, capture_output=True, text=True, check=True)


def instructions(*words, given=""):
    """How many instructions a program takes."""
    counted = run("valgrind", "--tool=callgrind", "--callgrind-out-file=/dev/null", *words, given=given).stderr
    return int(re.search(r"Collected : (\d+)", counted)[1])


def microseconds(call):
    """The median time of a call that does TURNS of something, for each."""
    found = []
    for _ in range(ROUNDS):
        begun = time.perf_counter()
        call()
        found.append((time.perf_counter() - begun) / TURNS * 1e6)
    return statistics.median(found)


def python_calls(image):
    """What makes TURNS calls: by `turn` and `reply`, and by `events`."""
    import sfi_run
    sandbox = sfi_run.World(image)[0]

    def turns():
        for _ in range(TURNS):
            sandbox.turn(1000).reply(0)

    def events():
        left = TURNS
        for event in sandbox.events(1 << 60):
            event.reply(0)
            left -= 1
            if not left:
                return
    return turns, events


def per_call(*words, times):
    """The instructions of one of what a host does as often as the word at `times` says."""
    more, fewer = list(words), list(words)
    more[times], fewer[times] = str(int(words[times]) * 2), words[times]
    return (instructions(*more) - instructions(*fewer)) / int(words[times])


def fields(image):
    """The bytes of code and of data of an image's one sandbox."""
    found = image.read_bytes()
    return int.from_bytes(found[12:16], "little"), int.from_bytes(found[20:24], "little")


def print_loads(room, sfi):
    """What a load takes for each byte of code, beside one of the least code with as many data."""
    load = lambda image: per_call(room / "price", image, "load", "4", "0", times=3)
    print(f"a load of {(room / 'steps').stat().st_size} bytes: {load(room / 'steps'):.0f} instructions")
    programs = [("nops, format 2", room / "large")]
    for name, form in COMPILED if shutil.which("riscv64-unknown-elf-gcc") else []:
        programs.append((f"{name}.c, format {form}", room / f"{name}_{form}.image"))
        run(TOP / "tools" / "sfi-cc", "--program", sfi, "--format", form, "-O2", "-o", programs[-1][1], TOP / "examples" / "c" / f"{name}.c")
    for name, image in programs:
        code, data = fields(image)
        small = room / "small"
        small.write_bytes(bytes.fromhex(run(sfi, "build", given=f".format 2\n.sandbox {data}\nebreak\n").stdout))
        each = (load(image) - load(small)) / (code - fields(small)[0])
        print(f"a load of {name}: {each:.1f} instructions for each byte of code")


def python_ends(image):
    """How many microseconds after an interrupt runs return."""
    import sfi_run
    with sfi_run.World(image) as world:
        for _ in range(ENDS):
            stop, told = threading.Event(), []
            timer = threading.Timer(0.002, lambda: (told.append(time.perf_counter()), stop.set()))
            timer.start()
            list(world[0].events(1 << 60, interrupt=stop))
            yield (time.perf_counter() - told[0]) * 1e6
            timer.join()


def print_ends(what, found):
    found = sorted(found)
    print(f"{what}: {statistics.median(found):.0f} us later, at most {found[-1]:.0f}")


def print_all_ends(room, sfi, libraries_of):
    for instruction in ("add", "div"):
        image = room / f"{instruction}.image"
        image.write_bytes(bytes.fromhex(run(sfi, "build", given=LOOP.format(instruction)).stdout))
        for name, static in libraries_of.items():
            compile_host(static, room / name)
            found = [float(it) for it in run(room / name, image, "end", str(ENDS), "100000").stdout.split()[:-1]]
            print_ends(f"{instruction}: a run by {name} that a thread ends", found[::2])
            print_ends(f"{instruction}: one that a time ends", found[1::2])
        print_ends(f"{instruction}: a run from Python that a thread ends", python_ends(image.read_bytes()))


def compile_host(static, target):
    run("gcc", "-O2", "-pthread", f"-I{TOP}/crates/sfi_run/include", f"-I{TOP}/crates/sfi_c/include", HERE / "price.c", static, "-o", target)


def main(library=None, sfi=None, commands=None):
    sfi = sfi or str(TOP / "crates" / "sfi" / "out" / "sfi")  # ./sfi is a script
    with tempfile.TemporaryDirectory() as folder:
        room = pathlib.Path(folder)
        static, os.environ["SFI_RUN_LIBRARY"] = libraries.make("sfi_run", library or libraries.built("sfi_run"), folder)
        compile_host(static, room / "price")
        texts = {name: run(sfi, "build", given=source).stdout
                 for name, source in (("steps", STEPS), ("calls", CALLS), ("large", LARGE))}
        for name, text in texts.items():
            (room / name).write_bytes(bytes.fromhex(text))
        host = lambda name, turns, steps: (room / "price", room / name, "turn", str(turns), str(steps))
        if shutil.which("valgrind"):
            step = (instructions(*host("steps", 1, 2000000)) - instructions(*host("steps", 1, 1000000))) / 1e6
            beside = [instructions(sfi, "run", "--quantum", str(steps), given=texts["steps"]) for steps in (1000000, 500000)]
            print(f"a step: {step:.1f} instructions, by sfi run {(beside[0] - beside[1]) / 5e5:.1f}")
            steps = (int(run(*host("calls", 2000, 1000)).stdout) - int(run(*host("calls", 1000, 1000)).stdout)) / 1000
            whole = (instructions(*host("calls", 20000, 1000)) - instructions(*host("calls", 10000, 1000))) / 1e4
            print(f"a turn with its reply, without its other {steps - 1:.0f} steps: {whole - (steps - 1) * step:.0f} instructions")
            for call in ("read", "write"):
                found = [per_call(room / "price", room / "large", call, "50", str(length), times=3) for length in (0, 4096, 65536)]
                print(f"a {call}: {found[0]:.0f} instructions, and {(found[2] - found[1]) / 61440:.2f} for each byte")
            print_loads(room, sfi)
        print(f"from C, with these steps: {microseconds(lambda: run(*host('calls', TURNS * 20, 1000))) / 20:.2f} us")
        for name, calls in zip(("turn and reply", "events"), python_calls((room / "calls").read_bytes())):
            print(f"from Python, {name}: {microseconds(calls):.2f} us")
        if shutil.which("node") and (TOP / "bindings" / "node" / "sfi_run.wasm").is_file():  # which tools/build_node.py makes
            times = run("node", HERE / "price.mjs", room / "calls", str(TURNS), str(ROUNDS)).stdout.split()
            print(f"from node, turn and reply: {times[0]} us, events: {times[1]} us")
        native = {"libsfi_run_native": libraries.make_native(library, commands, folder)[0]} if commands else {}
        print_all_ends(room, sfi, {"libsfi_run": static, **native})


if __name__ == "__main__":
    main(*sys.argv[1:])
