#!/usr/bin/env python3
"""Builds a C library for each of its targets after `rt ci`, over the libraries that it proved.

    tools/build_library.py [CRATE]

CRATE is sfi_c, the checker, unless sfi_slots, the slots of a device, sfi_run, the runtime, sfi_tool_c, all commands, or x86_trial, the
cases of fuzz/processor.py, is named.
crates/sfi_c/out/libsfi_c.a is for x86-64. Another target has a folder there of its own, with its libsfi_c.a and, for
WebAssembly, which sfi_run has no heap for, the module sfi.wasm.

`rt ci` proves the crate, but builds no static library. It leaves the libraries that it stands on without the mark
by which `rt lib` would take them, so that `rt lib` would prove them once more. This proves the crate alone and builds
it, as `rt lib` does, by the toolchain's own module. What it proves for one target it keeps, as `rt lib` does, and takes for the
others, which it then builds side by side. Where a library has the mark,
`rt ci` gave back what earlier checks kept: `rt lib` has little to prove then, and is called, once for each target.
"""
import copy
import os
import subprocess
import sys
import tempfile
from concurrent.futures import ThreadPoolExecutor

sys.dont_write_bytecode = True
import toolchain

HOST = "x86_64-unknown-linux-gnu"
WASM = "wasm64-unknown-unknown"
ARM = "aarch64-unknown-linux-gnu"
TARGETS = {"sfi_c": [HOST, ARM, WASM], "sfi_slots": [WASM], "sfi_run": [HOST, ARM], "sfi_tool_c": [HOST], "x86_trial": [HOST]}


def is_marked(crate):
    return os.path.exists(os.path.join(os.path.dirname(crate.rlib), "stamp"))


def archive_of(name, target):
    """Where a target's library goes, from the crate's folder on."""
    return f"out/lib{name}.a" if target == HOST else f"out/{target}/lib{name}.a"


def build_again(name, folder):
    """`rt lib` for each target: it writes all of them to one place, so that of this machine comes last."""
    for target in reversed(TARGETS[name]):
        words = [] if target == HOST else ["--target", target]
        status = subprocess.run(["rt", "lib", *words], cwd=folder, check=False).returncode
        if status:
            return status
        os.replace(f"{folder}/{archive_of(name, HOST)}", f"{folder}/{archive_of(name, target)}")
    return 0


def words_of(rtlib, crate):
    """Rattle's words for a build of the crate. Where a kit can, it keeps what it proves, and takes it in the next build."""
    return [*crate.words(["--jobs", "1"], keeps=False), *(rtlib.KEPT if rtlib.libraries_keep() else [])]


def build_for(rtlib, name, crate, target):
    """Proves the crate and builds it for a target, as `rt lib` does, and prints what rt has to say once it has ended."""
    words = words_of(rtlib, crate)
    made = ["--toolchain", f"{rtlib.KIT}/toolchain", "--backend", "llvm"]
    crate = copy.copy(crate)
    with tempfile.TemporaryFile("w+", errors="replace") as crate.out:
        status = crate.call(rtlib.RATTLE, "build", *words, "--target", target, *made, "-o", archive_of(name, target))
        crate.out.seek(0)
        print(f"== {name} for {target}\n{crate.out.read()}", end="", flush=True)
    return status


def build_proved(rtlib, name, crate):
    """Proves the crate and builds it for each target: for the first alone, for the others side by side."""
    rtlib.guarded()  # what it starts ends with it
    held = rtlib.lock([*crate.below(), crate])
    with ThreadPoolExecutor(len(TARGETS[name])) as pool:
        statuses = [build_for(rtlib, name, crate, TARGETS[name][0])]
        statuses += pool.map(lambda target: build_for(rtlib, name, crate, target), TARGETS[name][1:])
    for lock in held:
        os.close(lock)
    return max(statuses)


def link_module(rtlib, name, folder):
    """The WebAssembly module of its library."""
    words = ["--target", WASM, "--toolchain", f"{rtlib.KIT}/toolchain"]
    words += ["-o", f"out/{WASM}/sfi.wasm", archive_of(name, WASM)]
    return subprocess.run([f"{rtlib.KIT}/bin/rattle-link", *words], cwd=folder, check=False).returncode


def main():
    name = sys.argv[1] if len(sys.argv) > 1 else "sfi_c"
    if len(sys.argv) > 2 or name not in TARGETS:
        sys.exit(f"usage: tools/build_library.py [{' | '.join(TARGETS)}]")
    rtlib = toolchain.rtlib()
    folder = os.path.join(toolchain.TOP, "crates", name)
    crate = rtlib.Crate(folder, toolchain.TOP, {})
    for target in TARGETS[name]:
        os.makedirs(os.path.dirname(f"{folder}/{archive_of(name, target)}"), exist_ok=True)
    if any(is_marked(lower) for lower in crate.below()):
        status = build_again(name, folder)
    else:
        status = build_proved(rtlib, name, crate)
    if status or WASM not in TARGETS[name]:
        return status
    return link_module(rtlib, name, folder)


if __name__ == "__main__":
    sys.exit(main())
