"""Makes WebAssembly modules of crates that take memory: sfi.wasm of the page has sfi_tool_c and sfi_run, sfi_run.wasm of the
package for node has sfi_run alone, and of the module that has no vectors and no heap tools/runtime_file.py makes C.

The toolchain compiles no crate for wasm64 that calls C, as one that takes memory does. So each crate is proved and built for
x86-64, and what the toolchain then gives its clang, which is the whole library as one LLVM module, is compiled a second time,
for wasm64: both targets are little-endian, have pointers of 64 bits, and lay structs out alike.

What this trusts beyond a build for x86-64: that nothing else in the LLVM module depends on its target (`retargeted` refuses
what would), clang's target wasm64, wasm-ld, the files of crates/sfi_tool_c/c, and heap.c of crates/sfi_run.
"""
import dataclasses
import os
import re
import shutil
import subprocess
import sys
import tempfile
from concurrent.futures import ThreadPoolExecutor

import build_library
import libraries
import toolchain

HEADERS = {"sfi_tool_c": "sfi_tool.h", "sfi_run": "sfi_run.h"}
C_FOLDER = os.path.join(toolchain.TOP, "crates", "sfi_tool_c", "c")
WIDE, OWN_HEAP = (os.path.join(C_FOLDER, it) for it in ("wasm_wide.c", "wasm_heap.c"))
HEAP = os.path.join(toolchain.TOP, "crates", "sfi_run", "c", "heap.c")
LAYOUT = "e-m:e-p:64:64-p10:8:8-p20:8:8-i64:64-i128:128-n32:64-S128-ni:1:10:20"
STACK = 1 << 20
LEVEL = "-O2"

# The one instruction of x86-64 that crates name, a look-up of 16 bytes: where an index has its highest bit the answer is 0,
# else its lowest four bits count. That of WebAssembly answers 0 to each index above 15.
SHUFFLE = "@llvm.x86.ssse3.pshuf.b.128"
SHUFFLED = """
define internal <16 x i8> @sfi_shuffled(<16 x i8> %bytes, <16 x i8> %indices) alwaysinline {
  %kept = and <16 x i8> %indices, splat (i8 -113)
  %found = call <16 x i8> @llvm.wasm.swizzle(<16 x i8> %bytes, <16 x i8> %kept)
  ret <16 x i8> %found
}
declare <16 x i8> @llvm.wasm.swizzle(<16 x i8>, <16 x i8>)
"""

# The same without vectors, byte by byte.
SHUFFLED_BYTE = """
  %index{at} = extractelement <16 x i8> %indices, i32 {at}
  %kept{at} = and i8 %index{at}, 15
  %place{at} = zext i8 %kept{at} to i32
  %found{at} = extractelement <16 x i8> %bytes, i32 %place{at}
  %none{at} = icmp slt i8 %index{at}, 0
  %byte{at} = select i1 %none{at}, i8 0, i8 %found{at}
  %made{next} = insertelement <16 x i8> %made{at}, i8 %byte{at}, i32 {at}"""
SHUFFLED_BYTES = f"""
define internal <16 x i8> @sfi_shuffled(<16 x i8> %bytes, <16 x i8> %indices) {{
  %made0 = freeze <16 x i8> zeroinitializer{"".join(SHUFFLED_BYTE.format(at=it, next=it + 1) for it in range(16))}
  ret <16 x i8> %made16
}}
"""

# A barrier for the compiler alone, as counts of owners have: no instruction.
BARRIER = 'call void asm sideeffect "", "~{memory}"()'


@dataclasses.dataclass(frozen=True)
class Form:
    """Of which instructions a module may be made, and what is linked with the crates: C files, and words for wasm-ld."""
    features: tuple
    shuffled: str
    c_files: tuple
    words: tuple
    exports: tuple


WHOLE = Form(("-mbulk-memory", "-msimd128", "-mnontrapping-fptoint", "-msign-ext"), SHUFFLED, (OWN_HEAP, WIDE, HEAP),
             ("--strip-all", "-z", f"stack-size={STACK}"), ("malloc", "free"))

# Stands for the toolchain's clang: it keeps what is compiled, and then compiles it.
KEEPING = """#!/bin/sh
for word; do case $word in *.ll | *.bc) cp "$word" "{kept}" ;; -) cat >"{kept}"; exec "{clang}" "$@" <"{kept}" ;; esac; done
exec "{clang}" "$@"
"""


def kept_path(name):
    """Where the LLVM module of a crate is kept."""
    return os.path.join(toolchain.TOP, "crates", name, "out", build_library.WASM, f"{name}.bc")


def is_older(path, name):
    """Whether a file made of a crate isn't there, or is older than a source of it or of what it stands on."""
    sfi = toolchain.sfi()
    return not os.path.exists(path) or any(sfi.is_changed(it, os.path.getmtime(path)) for it in sfi.needed_crates(name))


def keeping_toolchain(kit, kept, room):
    """A folder that stands for the toolchain's, whose clang keeps the LLVM module that it compiles at the path `kept`."""
    made = f"{room}/toolchain"
    os.makedirs(f"{made}/bin")
    os.symlink(f"{kit}/toolchain/lib", f"{made}/lib")
    for name in os.listdir(f"{kit}/toolchain/bin"):
        path = f"{kit}/toolchain/bin/{name}"
        text = KEEPING.format(kept=kept, clang=path) if name == "clang" else f'#!/bin/sh\nexec "{path}" "$@"\n'
        with open(f"{made}/bin/{name}", "w", encoding="utf-8") as file:
            file.write(text)
        os.chmod(file.name, 0o755)
    return made


def keep_module(rtlib, name):
    """Proves the crate, builds its library for x86-64, as `rt lib` does, and keeps its LLVM module: rattle builds none but a
    proved crate, and takes what tools/build_library.py proved of it."""
    crate = rtlib.Crate(os.path.join(toolchain.TOP, "crates", name), toolchain.TOP, {})
    os.makedirs(os.path.dirname(kept_path(name)), exist_ok=True)
    with tempfile.TemporaryDirectory() as room:
        made = ["--toolchain", keeping_toolchain(rtlib.KIT, f"{room}/kept.bc", room), "--backend", "llvm"]
        words = [rtlib.RATTLE, "build", *build_library.words_of(rtlib, crate), *made, "-o", f"{room}/lib{name}.a"]
        ran = subprocess.run(words, cwd=crate.folder, stdout=subprocess.PIPE, stderr=subprocess.STDOUT, errors="replace", check=False)
        if ran.returncode or not os.path.exists(f"{room}/kept.bc"):
            sys.exit(f"{ran.stdout[-2000:]}\nwasm_module: {name} isn't proved, or not built by clang")
        shutil.move(f"{room}/lib{name}.a", f"{crate.folder}/{build_library.archive_of(name, build_library.HOST)}")
        shutil.move(f"{room}/kept.bc", kept_path(name))


def retargeted(text, shuffled=SHUFFLED):
    """An LLVM module's text for wasm64. It refuses what belongs to x86-64 alone."""
    if SHUFFLE in text:
        text = re.sub(rf"^declare .*{re.escape(SHUFFLE)}\(.*$", "", text, flags=re.MULTILINE)
        text = text.replace(SHUFFLE, "@sfi_shuffled") + shuffled
    odd = sorted(set(re.findall(r"@llvm\.x86\.[\w.]+|x86_fp80|\basm sideeffect\b|module asm", text.replace(BARRIER, ""))))
    if odd:
        sys.exit(f"wasm_module: the LLVM module holds {', '.join(odd)}, which is of x86-64 alone")
    text = re.sub(r'^target datalayout = ".*"$', f'target datalayout = "{LAYOUT}"', text, flags=re.MULTILINE)
    text = re.sub(r'^target triple = ".*"$', f'target triple = "{build_library.WASM}"', text, flags=re.MULTILINE)
    return re.sub(r' "target-(?:cpu|features)"="[^"]*"| "tune-cpu"="[^"]*"', "", text)


def compiled(clang, name, form, room):
    """The path of a crate's object for wasm64."""
    text, made = f"{room}/{name}.ll", f"{room}/{name}.o"
    # What is kept is bitcode: clang writes it as text.
    subprocess.run([clang, "-x", "ir", "-Xclang", "-disable-llvm-passes", "-S", "-emit-llvm", kept_path(name), "-o", text], check=True)
    with open(text, encoding="utf-8") as file:
        fresh = retargeted(file.read(), form.shuffled)
    with open(text, "w", encoding="utf-8") as file:
        file.write(fresh)
    to_wasm = [clang, f"--target={build_library.WASM}", *form.features, LEVEL, "-c"]
    subprocess.run([*to_wasm, "-Wno-override-module", text, "-o", made], check=True)
    return made


def compiled_c(clang, path, form, room):
    made = f"{room}/{os.path.basename(path)[:-2]}.o"
    words = ["-std=c11", "-ffreestanding", "-nostdinc", "-Wall", "-Wextra", "-Werror", "-I", f"{C_FOLDER}/freestanding"]
    subprocess.run([clang, f"--target={build_library.WASM}", *form.features, LEVEL, "-c", *words, path, "-o", made], check=True)
    return made


def objects(kit, names, form, room):
    """The paths of the objects for wasm64 of the kept modules of these crates, and of the form's C files."""
    clang = f"{kit}/toolchain/bin/clang"
    return [compiled(clang, name, form, room) for name in names] + [compiled_c(clang, it, form, room) for it in form.c_files]


def link(kit, target, names, form, made, room):
    """Links these objects of these crates into the module `target`, which exports the calls of the crates' headers."""
    headers = [libraries.path(name, "include", HEADERS[name]) for name in names]
    exports = [*form.exports, *(call for header in headers for call in libraries.calls(header))]
    if not os.path.exists(f"{room}/wasm-ld"):
        os.symlink(f"{kit}/toolchain/bin/clang", f"{room}/wasm-ld")
    subprocess.run([f"{room}/wasm-ld", "-mwasm64", "--no-entry", "--gc-sections", "--stack-first", *form.words,
                    *(f"--export={it}" for it in exports), *made, "-o", target], check=True)


def keep_late(rtlib, names):
    """Keeps the LLVM modules of these crates that aren't kept or are older than a source."""
    rtlib.guarded()  # what it starts ends with it
    late = [name for name in names if is_older(kept_path(name), name)]
    with ThreadPoolExecutor(len(names)) as pool:
        list(pool.map(lambda name: keep_module(rtlib, name), late))


def make(target, names=tuple(HEADERS)):
    """Makes the module of these crates, for the page or node."""
    rtlib = toolchain.rtlib()
    keep_late(rtlib, names)
    with tempfile.TemporaryDirectory() as room:
        link(rtlib.KIT, target, names, WHOLE, objects(rtlib.KIT, names, WHOLE, room), room)
