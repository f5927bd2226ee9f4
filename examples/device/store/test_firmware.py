"""Runs a firmware with a store on QEMU's `virt`, whose flash chips keep their bytes at a reset, and cuts its power at chosen writes.
The checker (device_checker.py) judges each version on the device."""
import ctypes
import hashlib
import itertools
import os
import pathlib
import shutil
import subprocess
import sys
import tempfile
import unittest

sys.dont_write_bytecode = True
HERE = pathlib.Path(__file__).resolve().parent
TOP = HERE.parents[2]
sys.path.insert(0, os.path.join(TOP, "tools"))
from suygapid.trials import device_checker, store_walk

INBOX = 0x80300000  # of firmware.c
CODE, DATA, DATA_SIZE = "0x80100000", "0x80402000", "256"
EXITS = "exit: gate\n li a0, 0\n jal x1, exit"
TRAPS = "gate\n ebreak"
REFUSED = "gate\n csrw mstatus, x0"
BETWEEN_CUTS = 13   # and this
SECONDS = 120

IMAGE = """
digits_of() { od -An -v -tx1 "$1" | tr -d ' \\n'; }
source ../images.sh
sandbox "$@" >"$room/sandbox"
image 1 1 <"$room/sandbox"
"""


def image_of(room, text):
    """The image of one sandbox, with the gate exit; its start is the text."""
    made = subprocess.run(["bash", "-euc", IMAGE, "bash", CODE, DATA, DATA_SIZE, "0", ""], input=text.encode() + b"\n", cwd=HERE,
                          env={**os.environ, "room": room}, stdout=subprocess.PIPE, check=True)
    return bytes.fromhex(made.stdout.decode())


def inbox(images):
    """Updates of the versions 1, 2, .., each of which ends all older ones once it is kept."""
    sent = b""
    for sequence, image in enumerate(images, 1):
        claim = bytes(store_walk.right(sequence, sequence, image).claim())
        signature = hashlib.sha256(store_walk.KEY + claim).digest().ljust(64, b"\0")
        sent += claim + signature + image + bytes(-len(image) % 4)
    return sent + bytes(ctypes.sizeof(store_walk.Claim) + 64)


def without_repeats(runs):
    return "runs=" + ",".join(it for it, _ in itertools.groupby(runs.removeprefix("runs=").split(",")))


@unittest.skipUnless(shutil.which("qemu-system-riscv32"), "qemu-system-riscv32 isn't there")
@unittest.skipUnless(shutil.which("riscv64-unknown-elf-gcc"), "riscv64-unknown-elf-gcc isn't there")
class Firmware(unittest.TestCase):
    def setUp(self):
        room = tempfile.TemporaryDirectory()
        self.addCleanup(room.cleanup)
        self.room = room.name

    def run_firmware(self, judge, images):
        """The lines of all passages."""
        subprocess.run(["make", "-s", "-C", HERE, f"OUT={self.room}/out", f"CHECKER={judge}"], check=True, stdout=subprocess.PIPE)
        sent = pathlib.Path(self.room, "inbox")
        sent.write_bytes(inbox(images))
        command = ["qemu-system-riscv32", "-M", "virt", "-bios", "none", "-display", "none", "-monitor", "none", "-serial", "stdio",
                   "-kernel", f"{self.room}/out/{'checked' if judge else 'unchecked'}",
                   "-device", f"loader,file={sent},addr={INBOX:#x},force-raw=on"]
        lines = []
        with subprocess.Popen(["timeout", str(SECONDS), *command], stdout=subprocess.PIPE, stdin=subprocess.DEVNULL,
                              stderr=subprocess.DEVNULL) as qemu:
            assert qemu.stdout is not None
            for line in iter(qemu.stdout.readline, b""):
                lines.append(line.decode().strip())
                if lines[-1].startswith("status "):
                    qemu.terminate()
        return lines

    def passages(self, judge, images, wanted, counter):
        """In each passage the versions run in this order, each once or more often, and the counter ends at this number."""
        *lines, status = self.run_firmware(judge, images)
        self.assertEqual(status, "status 0", lines[-1:])
        self.assertGreater(len(lines), 40)
        for number, line in enumerate(lines):
            cut, counted, runs = line.split()
            self.assertEqual(cut, f"cut={1 + BETWEEN_CUTS * number}")
            self.assertEqual((counted, without_repeats(runs)), (f"counter={counter}", f"runs={wanted}"), line)

    def test_cuts(self):
        """The first two versions work, and the third traps."""
        self.passages("", [image_of(self.room, it) for it in (EXITS, EXITS, TRAPS)], "1,2,3,2", 2)

    def test_cuts_where_versions_are_judged(self):
        """The second version isn't accepted, and the third works."""
        self.passages(device_checker.made(), [image_of(self.room, it) for it in (EXITS, REFUSED, EXITS)], "1,2,1,3", 3)


if __name__ == "__main__":
    unittest.main()
