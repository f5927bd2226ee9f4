"""Tries what a release holds, in the folder to which its tar file was unpacked: that each file has its checksum, and that the
program, the host of native code, both WebAssembly modules, and the checker and the runtime in one file of C each say of the smallest
image what they have to.
And that firmwares are built with the checker for RV32, and do what their tests ask, where what these want is there.
"""
import base64
import hashlib
import os
import re
import shutil
import subprocess
import sys
import tempfile

SUMS = "SHA256SUMS"
SMALLEST = "examples/smallest.hex"
ACCEPTED = "accepted sandboxes=1 bundles=16\n"
PROGRAM = "crates/sfi/out/sfi"
HOST_OF_NATIVE = "tools/suygapid/native/out/exec"
NO_GATE = str((1 << 32) - 1)
TRAPPED = 126  # its status, and what it tells, of this text's image
EBREAK = ".sandbox 4096\n        ebreak\n"
TOLD = "loaded\nsandbox=0 trap=Break at=01000000 steps=0\n"
CHECKER = "crates/sfi_c/out/suygapid_check.c"
RUNTIME = "crates/sfi_run/out/suygapid_run.c"
DEVICE = "device/out/rv32imac/libsfi_device_checker.a"
FIRMWARES = "examples/device/firmware"
HEADERS = ["crates/sfi_c/include/sfi.h", "crates/sfi_run/include/sfi_run.h"]
# The page's module by the page's own script, which asks for nothing of a browser but in what loads it.
PAGE_MODULE = """
import { readFileSync } from "node:fs";
import { setFlagsFromString } from "node:v8";
setFlagsFromString("--experimental-wasm-memory64");
const { Module, Tool } = new Function(readFileSync("page/module.js", "utf8") + "; return { Module, Tool };")();
const module = new Module();
module.calls = (await WebAssembly.instantiate(readFileSync("page/sfi.wasm"))).instance.exports;
process.stdout.write(new Tool(module).answer(["check"], readFileSync(0)).text);
"""
NODE_MODULE = """
import { readFileSync } from "node:fs";
const { load } = await import(`file://${process.cwd()}/bindings/node/index.mjs`);
const image = Buffer.from(readFileSync(0, "utf8").replace(/\\s/g, ""), "hex");
console.log((await load(image)).sandboxes[0].turn(5).cause);
"""

# A host that says by which cause the image on standard input traps.
HOST = """
#include "sfi_run.h"
#include <stdio.h>

int main(void) {
    static uint8_t image[4096];
    struct sfi_run_world world = SFI_RUN_NO_WORLD;
    struct sfi_verdict verdict;
    struct sfi_run_event event = {0};
    sfi_run_load(image, fread(image, 1, sizeof image, stdin), &world, &verdict);
    sfi_run_turn(&world, 0, 5, &event);
    puts(event.kind == SFI_RUN_TRAPPED && event.number == SFI_RUN_BREAK ? "Break" : "another");
    sfi_run_free(&world);
}
"""


def faults_of_sums(top):
    """Files whose checksum in SHA256SUMS isn't theirs, that aren't there, or that it doesn't have."""
    told = dict(reversed(line.split("  ", 1)) for line in (top / SUMS).read_text(encoding="utf-8").splitlines())
    there = {str(it.relative_to(top)) for it in top.rglob("*") if it.is_file()} - {SUMS}
    return [f"{path} isn't what {SUMS} says" for path in sorted(told.keys() | there)
            if path not in told or path not in there or hashlib.sha256((top / path).read_bytes()).hexdigest() != told[path]]


def faults_of_run(what, words, top, given, wanted):
    """Runs a command in the folder, and says what is wrong if it doesn't print what is wanted."""
    done = subprocess.run(words, cwd=top, input=given, capture_output=True, check=False)
    if (done.returncode, done.stdout.decode(errors="replace")) == (0, wanted):
        return []
    said = (done.stderr or done.stdout).decode(errors="replace").strip().splitlines()
    return [f"{what} doesn't say {wanted.strip()!r} of {SMALLEST}: {said[-1] if said else f'status {done.returncode}'}"]


def faults_of_native(top):
    """What is wrong with the host of native code, which tells by standard error."""
    with tempfile.NamedTemporaryFile() as file:
        file.write(subprocess.run([top / PROGRAM, "build"], input=EBREAK.encode(), stdout=subprocess.PIPE, check=False).stdout)
        file.flush()
        words = [top / HOST_OF_NATIVE, "--program", top / PROGRAM, "--told", "2", file.name, "1000", NO_GATE, "--", "image"]
        done = subprocess.run(words, capture_output=True, text=True, errors="replace", check=False)
    if (done.returncode, done.stderr[:len(TOLD)]) == (TRAPPED, TOLD):
        return []
    return [f"{HOST_OF_NATIVE} doesn't tell that native code stops at an ebreak: status {done.returncode}: {done.stderr.strip()[:200]}"]


def faults_of_c(what, words, top, image, wanted):
    """Compiles a file of C, which takes a minute, and runs it."""
    with tempfile.TemporaryDirectory() as room:
        # Without optimization functions stay that nothing calls, and that want -lm.
        words = ["gcc", "-std=c11", "-O0", "-w", *words, top / what, "-o", f"{room}/made", "-lm"]
        done = subprocess.run(words, input=HOST, capture_output=True, text=True, check=False)
        if done.returncode:
            return [f"{what} isn't compiled: {done.stderr.splitlines()[0] if done.stderr else ''}"]
        return faults_of_run(what, [f"{room}/made"], top, bytes.fromhex(image), wanted)


def faults_of_files(top, image):
    """What is wrong with the files of C. With the runtime a host is compiled, from standard input."""
    host = [f"-I{(top / it).parent}" for it in HEADERS] + ["-xc", "-"]
    return (faults_of_c(CHECKER, ["-DSUYGAPID_CHECK_MAIN"], top, image, ACCEPTED)
            + faults_of_c(RUNTIME, host, top, image, "Break\n"))


def faults_of_text(top):
    """The page's module as text, for a page that is opened as a file, has to be the module."""
    found = re.search(r'"([\w+/=]*)"', (top / "page" / "sfi.wasm.js").read_text(encoding="utf-8"))
    same = found and base64.b64decode(found[1]) == (top / "page" / "sfi.wasm").read_bytes()
    return [] if same else ["page/sfi.wasm.js doesn't hold page/sfi.wasm"]


def faults_of_device(top, *names):
    """What is wrong with the library of a device and its checker, where that is there, as the tests of firmwares find it, or those
    with these names."""
    if not (top / DEVICE).is_file():
        return []
    known = {name: value for name, value in os.environ.items() if name not in ("SFI", "RATTLE")}
    words = [sys.executable, "tools/unit_tests.py", FIRMWARES, "test_*.py", *names]
    done = subprocess.run(words, cwd=top, stdout=subprocess.PIPE, stderr=subprocess.STDOUT, text=True, check=False,
                          env={**known, "CHECKER": str(top / DEVICE), "CUTS": "1"})
    lines = done.stdout.strip().splitlines() or ["nothing is said"]
    for skipped in (it for it in lines if it.startswith("skipped: ")):
        print(skipped, file=sys.stderr)
    return [f"{DEVICE} isn't as the tests of {FIRMWARES} want it: {lines[-1]}"] if done.returncode else []


def faults(top):
    """What is wrong with the release in this folder. Its files of C are tried where nothing else is."""
    missing = [it for it in ("node", "gcc") if not shutil.which(it)]
    if missing:
        return [f"{' and '.join(missing)} isn't there, by which what is packed is tried"]
    image = (top / SMALLEST).read_text(encoding="ascii")
    given = image.encode()
    node = ["node", "--no-warnings", "--input-type=module", "-e"]
    found = (faults_of_sums(top) + faults_of_run(PROGRAM, [top / PROGRAM, "check"], top, given, ACCEPTED) + faults_of_text(top)
             + faults_of_run("page/sfi.wasm", [*node, PAGE_MODULE], top, given, ACCEPTED)
             + faults_of_run("bindings/node/sfi_run.wasm", [*node, NODE_MODULE], top, given, "Break\n"))
    return found + faults_of_native(top) or faults_of_files(top, image) + faults_of_device(top)
