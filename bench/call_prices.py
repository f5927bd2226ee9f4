#!/usr/bin/env python3
"""What a call of a sandbox's function costs a host in C, in nanoseconds of processor time, each the least of some rounds: add(2, 3) by a
plain pointer, by libsfi_run_native and by libsfi_run, and as wasm2c of wabt and gcc make it; and so of a function that asks its host
once.

    bench/call_prices.py [--program SFI]

The libraries are those of tools/libraries.py. It wants gcc, and for wasm2c wabt.
"""
import argparse
import os
import shutil
import subprocess
import sys
import tempfile

TOP = os.path.dirname(os.path.dirname(os.path.abspath(__file__)))
sys.dont_write_bytecode = True
sys.path.insert(0, os.path.join(TOP, "tools"))
import libraries
from suygapid.trials import measure

HOST = os.path.join(measure.BENCH, "call_prices.c")
PLUGIN = os.path.join(TOP, "examples", "native", "library.s")
WASM = """(module (import "host" "asked" (func $asked (param i32 i32) (result i32)))
  (func (export "add") (param i32 i32) (result i32) (i32.add (local.get 0) (local.get 1)))
  (func (export "doubled") (param i32 i32) (result i32) (i32.mul (call $asked (local.get 0) (local.get 1)) (i32.const 2))))"""
RUNTIME = "/usr/share/wabt/wasm2c"


def host(path, *words):
    """The path of the host, compiled by gcc."""
    subprocess.run(["gcc", "-O2", "-std=gnu11", *words, "-o", path], check=True)
    return path


def by_library(name, archive, folder):
    included = [f"-I{libraries.path(it, 'include')}" for it in ("sfi_run", "sfi_c")]
    return host(os.path.join(folder, name), *included, HOST, archive)


def by_wasm2c(folder):
    text, module = measure.written(os.path.join(folder, "calls.wat"), WASM.encode()), os.path.join(folder, "calls.wasm")
    subprocess.run(["wat2wasm", text, "-o", module], check=True)
    subprocess.run(["wasm2c", module, "-n", "calls", "-o", os.path.join(folder, "calls.c")], check=True)
    return host(os.path.join(folder, "by_wasm2c"), "-DWASM", f"-I{folder}", f"-I{RUNTIME}", HOST, os.path.join(folder, "calls.c"),
                os.path.join(RUNTIME, "wasm-rt-impl.c"), "-lm")


def main():
    parser = argparse.ArgumentParser(description=__doc__, formatter_class=argparse.RawDescriptionHelpFormatter)
    parser.add_argument("--program", default=measure.PROGRAM)
    program = measure.program_at(parser.parse_args().program)
    with tempfile.TemporaryDirectory() as folder:
        with open(PLUGIN, "rb") as source:
            image = subprocess.run([program, "build", "--raw"], stdin=source, stdout=subprocess.PIPE, check=True).stdout
        path = measure.written(os.path.join(folder, "image"), image)
        ways = {"libsfi_run": by_library("stepped", libraries.make("sfi_run")[0], folder)}
        if libraries.native_there():
            ways["libsfi_run_native"] = by_library("native", libraries.make_native()[0], folder)
        if shutil.which("wasm2c"):
            ways["wasm2c and gcc"] = by_wasm2c(folder)
        for name, made in ways.items():
            plain, call, asking = subprocess.run([made, path], stdout=subprocess.PIPE, check=True, text=True).stdout.split()
            print(f"{name}: a call {call} ns, one that asks the host {asking} ns, a plain call by a pointer {plain} ns", flush=True)


if __name__ == "__main__":
    main()
