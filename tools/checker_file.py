#!/usr/bin/env python3
"""Makes suygapid_check.c, the proved checker in one file of C11, of the crate sfi_c's library for WebAssembly.

    tools/checker_file.py [FILE]     # crates/sfi_c/out/suygapid_check.c if absent

tools/build_library.py goes first: it proves sfi_c, and builds crates/sfi_c/out/wasm64-unknown-unknown/libsfi_c.a. The
linker of Rattle's toolchain makes a module of that, wasm-opt takes it from 64 to 32 bits of address, and wasm2c writes it as
C (tools/one_file.py). This puts the text of sfi.h and of wabt's wasm-rt.h before it, and the files of tools/checker_file around it, whose
functions each access of the module then goes through.
"""
import os
import re
import sys
import tempfile

sys.dont_write_bytecode = True
import build_library
import libraries
import one_file
import toolchain

FOLDER = os.path.join(toolchain.TOP, "tools", "checker_file")
LIBRARY = libraries.path("sfi_c", *build_library.archive_of("sfi_c", build_library.WASM).split("/"))
TARGET = libraries.path("sfi_c", "out", "suygapid_check.c")

# How wasm2c has a module access its memory, and what stands there instead.
ACCESSES = [
    ("    RANGE_CHECK((&m), o, s);       \\\n    load_data(&(m.data[o]), i, s); \\\n", "    load_data(written_place(&m, o, s), i, s); \\\n"),
    ("wasm_rt_memcpy(&result, &mem->data[addr], sizeof(t1));", "wasm_rt_memcpy(&result, read_place(mem, addr, sizeof(t1)), sizeof(t1));"),
    ("wasm_rt_memcpy(&mem->data[addr], &wrapped, sizeof(t1));", "wasm_rt_memcpy(written_place(mem, addr, sizeof(t1)), &wrapped, sizeof(t1));"),
    ("  RANGE_CHECK(mem, d, n);\n  memset(mem->data + d, val, n);", "  memset(written_place(mem, d, n), val, n);"),
    ("  RANGE_CHECK(dest, dest_addr, n);\n  RANGE_CHECK(src, src_addr, n);\n  memmove(dest->data + dest_addr, src->data + src_addr, n);",
     "  memmove(written_place(dest, dest_addr, n), read_place(src, src_addr, n), n);"),
    ("#define MEMCHECK(mem, a, t) RANGE_CHECK(mem, a, sizeof(t))", "#define MEMCHECK(mem, a, t)"),
]


def missing():
    """What isn't there that this needs, or nothing."""
    return one_file.missing(["wasm-opt"], [LIBRARY])


def translated(room):
    """The C that wasm2c makes of the library: a header and the code."""
    kit = toolchain.rtlib().KIT
    one_file.run(f"{kit}/bin/rattle-link", "--target", build_library.WASM, "--toolchain", f"{kit}/toolchain", "--stack", "65536",
                 "-o", "sfi64.wasm", LIBRARY, folder=room)
    one_file.run("wasm-opt", "--all-features", "--memory64-lowering", "sfi64.wasm", "-o", "sfi32.wasm", folder=room)
    return one_file.translated(room, "sfi32.wasm", "sfi")


def guarded(code):
    """The C of wasm2c with each access of the module's by the functions of reach.c."""
    for old, new in ACCESSES:
        if code.count(old) != 1:
            one_file.fail(f"the C of wasm2c has no such access as it had: {old}")
        code = code.replace(old, new)
    plain = re.sub(r"#if WABT_BIG_ENDIAN\n.*?#else\n", "", code, flags=re.DOTALL)
    if re.search(r"\bmem->data|\balloca\(|&\(m\.data", plain):
        one_file.fail("the C of wasm2c accesses memory in another way, too")
    return code


def make(target=TARGET):
    one_file.check_there(missing())
    with tempfile.TemporaryDirectory() as room:
        header, code = translated(room)
    front, reach, calls = (one_file.read(FOLDER, it) for it in ("front.c", "reach.c", "calls.c"))
    return one_file.write(target, [front, one_file.read(libraries.header("sfi_c")), header, reach, guarded(code), calls])


if __name__ == "__main__":
    one_file.main(make)
