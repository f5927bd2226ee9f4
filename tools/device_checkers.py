#!/usr/bin/env python3
"""Makes the proved checker for RV32 as static libraries, with which a firmware is built that has nothing of Rattle's toolchain:

    tools/device_checkers.py      # device/out/MACHINE/libsfi_device_checker.a and libsfi_device_moving.a

MACHINE is rv32imc or rv32imac. Each library has one object of device/checker.sh, checker.o or moving.o, which also moves sandboxes
and decides of slots: a firmware takes one of both, by SFI_DEVICE_CHECKER of device/CMakeLists.txt. tools/build_library.py makes what
they are made of, of sfi_c and sfi_slots.
"""
import os
import pathlib
import subprocess
import sys
import tempfile

sys.dont_write_bytecode = True
import toolchain

TOP = pathlib.Path(__file__).resolve().parent.parent
FOLDER = "device/out"
MACHINES = ("rv32imc", "rv32imac")
OBJECTS = ("checker", "moving")
MADE_OF = [TOP / "crates" / it / "out" / "wasm64-unknown-unknown" / f"lib{it}.a" for it in ("sfi_c", "sfi_slots")]
AR = "riscv64-unknown-elf-ar"


class Failed(Exception):
    """None is made, for this reason."""


def place_of(machine, name):
    """Where a library is, from the top on."""
    return f"{FOLDER}/{machine}/libsfi_device_{name}.a"


def make_for(machine, room):
    """Makes both libraries of a machine, in a folder of its own."""
    done = subprocess.run([TOP / "device" / "checker.sh", MADE_OF[0], room, MADE_OF[1]], env={**os.environ, "MACHINE": machine},
                          capture_output=True, text=True, check=False)
    if done.returncode:
        raise Failed(done.stderr.strip().removeprefix("checker.sh: "))
    for name in OBJECTS:
        place = TOP / place_of(machine, name)
        place.parent.mkdir(parents=True, exist_ok=True)
        place.unlink(missing_ok=True)
        subprocess.run([AR, "rcsD", place, f"{name}.o"], cwd=room, check=True)


def make():
    """The paths of all libraries, from the top on, which are made anew."""
    sfi = toolchain.sfi()
    for library in MADE_OF:
        crate = library.parents[2].name
        if not library.is_file():
            raise Failed(f"{library.relative_to(TOP)} isn't built")
        if any(sfi.is_changed(it, library.stat().st_mtime) for it in sfi.needed_crates(crate)):
            raise Failed(f"{library.relative_to(TOP)} is older than a source of it")
    for machine in MACHINES:
        with tempfile.TemporaryDirectory() as room:
            make_for(machine, room)
    return [place_of(machine, name) for machine in MACHINES for name in OBJECTS]


def main():
    try:
        print(*make(), sep="\n")
    except Failed as failed:
        sys.exit(f"device_checkers.py: {failed}")


if __name__ == "__main__":
    main()
