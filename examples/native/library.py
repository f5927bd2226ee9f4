#!/usr/bin/env python3
"""Does to libsfi_run_native what may break it: builds library.c with gcc, and by turns with clang or sanitizers, and runs its tests, among them
threads that share a module, a fork, a host with its own handler of SIGSEGV, and more worlds than there are maps. And loads the shared
library into a process that has libsfi_run, too.

    examples/native/library.py [--library libsfi_run.a] [--commands libsfi_tool_c.a] [--program SFI]
"""
import argparse
import os
import re
import shutil
import subprocess
import sys
import tempfile

sys.dont_write_bytecode = True
HERE = os.path.dirname(os.path.abspath(__file__))
TOP = os.path.dirname(os.path.dirname(HERE))
sys.path.insert(0, os.path.join(TOP, "tools"))
import libraries
import testing
from hostile import is_passed
from suygapid.trials import measure, translations

TESTS = ("engines", "calls-back", "threads", "stack", "forks", "handler-before", "handler-after", "limited", "maps")
# Each build, with tests that it leaves out: sanitizers want larger stacks than the least, and maps and addresses of their own.
BUILDS = (
    (("gcc", "-O2"), set()),
    (("clang", "-O2"), set()),
    (("gcc", "-O1", "-g", "-fsanitize=thread"), {"stack", "limited", "maps"}),
    (("gcc", "-O1", "-g", "-fsanitize=address,undefined", "-fno-sanitize-recover"), {"stack", "limited", "maps"}),
)
WARNINGS = ["-std=gnu11", "-Wall", "-Wextra", "-Werror"]
SIZES = {"whole": 4096, "far": 4096, "small": 256}  # bytes of data
PLACES = {"words": ("1000000:1800000", "2000000:2800000", "4000000:4800000"),
          "single": ("1000000:80000000", "2000000:800000", "4000000:40000000")}
ENGINE = "import sys, sfi_run; print(sfi_run.World(open(sys.argv[1], 'rb').read()).engine)"


def built_images(program, folder, format):
    """The paths of the images."""
    with open(os.path.join(HERE, "library.s"), encoding="ascii") as file:
        text = file.read().replace(".format words", f".format {format}")
    for (name, size), place in zip(SIZES.items(), PLACES[format]):
        with open(os.path.join(folder, name), "wb") as file:
            source = re.sub(r"(?m)^\.sandbox \d+", f".sandbox {size}", text).encode()
            subprocess.run([program, "build", "--raw", "--at", place], input=source, stdout=file, check=True)
    return [os.path.join(folder, name) for name in SIZES]


def host(compiler, parts, folder):
    """The path of the host, by a compiler."""
    os.makedirs(folder)
    own, path = (os.path.join(folder, it) for it in ("own.o", "host"))
    libraries.compile_native(own, compiler)
    included = [f"-I{libraries.path(it, 'include')}" for it in ("sfi_native", "sfi_run", "sfi_c")]
    heap = libraries.path("sfi_run", "c", "heap.c")
    subprocess.run([*compiler, *WARNINGS, *included, os.path.join(HERE, "library.c"), own, *parts, heap, "-pthread", "-o", path], check=True)
    return path


def is_its_own(given, image, folder):
    """Whether a world of the shared library is native in a process that has libsfi_run, whose calls have the same names."""
    other = libraries.make("sfi_run", given.library, folder)[1]
    own = libraries.make_native(given.library, given.commands, folder)[1]
    found = {"LD_PRELOAD": other, "SFI_RUN_LIBRARY": own, "PYTHONPATH": os.path.join(TOP, "bindings", "python")}
    done = subprocess.run([sys.executable, "-B", "-c", ENGINE, image], env={**os.environ, **found}, stdout=subprocess.PIPE, check=False)
    return done.stdout == b"native\n"


def tried(given, folder):
    """What each test is, and whether it passed."""
    parts = libraries.native_parts(given.library, given.commands, folder)
    builds = [it for it in [BUILDS[0], *testing.by_turns(BUILDS[1:], 1)] if shutil.which(it[0][0])]
    hosts = [(compiler, left_out, host(compiler, parts, os.path.join(folder, str(k)))) for k, (compiler, left_out) in enumerate(builds)]
    for format in PLACES:
        images = built_images(given.program, folder, format)
        yield f"beside libsfi_run, {format}", is_its_own(given, images[0], folder)
        for compiler, left_out, path in hosts:
            for name in TESTS:
                if name not in left_out:
                    yield f"{name}, {format}, by {' '.join(compiler)}", is_passed([path, *images, name])


def main():
    parser = argparse.ArgumentParser(description=__doc__, formatter_class=argparse.RawDescriptionHelpFormatter)
    parser.add_argument("--library", default=libraries.built("sfi_run"))
    parser.add_argument("--commands", default=libraries.built("sfi_tool_c"))
    parser.add_argument("--program", default=measure.PROGRAM)
    given = parser.parse_args()
    given.program = measure.program_at(given.program)
    if not libraries.has_native() or not shutil.which("gcc"):
        print("skipped: libsfi_run_native: gcc isn't there, or this isn't Linux on x86-64\n0 passed, 0 failed, 1 skipped")
        return 0
    with tempfile.TemporaryDirectory() as folder:
        return translations.ended(list(tried(given, folder)))


if __name__ == "__main__":
    sys.exit(main())
