"""Makes files of C of WebAssembly modules by wasm2c of wabt: what tools/checker_file.py and tools/runtime_file.py share."""
import os
import re
import shutil
import subprocess
import sys

RUNTIME = "/usr/include/wasm-rt.h"  # of Debian's package wabt
WABT = "1.0.32"
SETTINGS = """
/* ---- What the C below wants: the file wasm-rt.h of wabt, with its own settings */

#ifndef NDEBUG
#define NDEBUG
#endif
#define WASM_RT_MEMCHECK_SIGNAL_HANDLER 0
#define WASM_RT_USE_STACK_DEPTH_COUNT 0

"""
# Warnings that what wasm2c makes gives: of what isn't used, and of `return call();` in a function without a result.
QUIET = (*(f"unused-{it}" for it in ("value", "parameter", "variable", "but-set-variable", "const-variable", "function", "label")), "pedantic")
OF_WINDOWS = re.compile(r"#if defined\(_MSC_VER\)\n#include <intrin.h>\n.*?#endif\n", re.DOTALL)


def fail(text):
    sys.exit(f"{os.path.basename(sys.argv[0])}: {text}")


def missing(commands, files):
    """Which of these commands and files aren't there, and what wasm2c needs."""
    return [it for it in (*commands, "wasm2c", "rt") if not shutil.which(it)] + [it for it in (*files, RUNTIME) if not os.path.exists(it)]


def check_there(lacking):
    if lacking:
        fail(f"{' and '.join(lacking)} isn't there")


def read(*parts):
    with open(os.path.join(*parts), encoding="utf-8") as file:
        return file.read()


def run(*words, folder):
    done = subprocess.run(words, cwd=folder, stdout=subprocess.PIPE, stderr=subprocess.STDOUT, text=True, check=False)
    if done.returncode:
        fail(f"{words[0]}: {done.stdout}")
    return done.stdout


def check_version(*commands):
    """Refuses other versions of wabt's commands than the one whose texts and names the tools know."""
    for command in commands:
        found = run(command, "--version", folder=None).strip()
        if found != WABT:
            fail(f"{command} has version {found}, not {WABT}")


def translated(room, module, name):
    """The C that wasm2c makes of a module in the folder `room`: wasm-rt.h with the header, and the code. The functions have the
    prefix Z_NAME."""
    check_version("wasm2c")
    run("wasm2c", module, "-n", name, "-o", f"{name}_wasm.c", folder=room)
    header = SETTINGS + read(RUNTIME) + read(room, f"{name}_wasm.h").replace('#include "wasm-rt.h"\n', "")
    return header, OF_WINDOWS.sub("", read(room, f"{name}_wasm.c"), count=1).replace(f'#include "{name}_wasm.h"\n', "")


def quiet(code):
    """Code of wasm2c without these warnings."""
    ignored = "".join(f'#pragma GCC diagnostic ignored "-W{it}"\n' for it in QUIET)
    return f"\n#pragma GCC diagnostic push\n{ignored}{code}\n#pragma GCC diagnostic pop\n"


def write(target, parts):
    with open(target, "w", encoding="utf-8") as file:
        file.write("".join(parts))
    return target


def main(make):
    if len(sys.argv) > 2:
        sys.exit(f"usage: tools/{os.path.basename(sys.argv[0])} [FILE]")
    print(make(*sys.argv[1:]))
