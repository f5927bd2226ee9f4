"""Tests of tools/device_checkers.py: firmwares are built with what it makes, and with what a release packs of the library, without
anything of Rattle's toolchain. Skipped where nothing can be made, or where the tests of firmwares are."""
import os
import shutil
import subprocess
from unittest import mock

import device_checkers
import release_trial
from testing import SFI, TOP, Folder, needs, needs_program

PACKED = ("device", "examples/c/gates.h", "examples/device", "examples/rust", "crates/sfi_c/include", "crates/sfi_slots/include", "tools")


@needs("git", "riscv64-unknown-elf-gcc", "cmake", "make", "qemu-system-riscv32")
@needs_program
class Packed(Folder):
    def setUp(self):
        super().setUp()
        try:
            made = device_checkers.make()
        except device_checkers.Failed as failed:
            self.skipTest(str(failed))
        listed = subprocess.run(["git", "-C", TOP, "ls-files", "-z", *PACKED], check=True, capture_output=True, text=True).stdout
        for path in (*listed.strip("\0").split("\0"), *made):
            (self.room / path).parent.mkdir(parents=True, exist_ok=True)
            shutil.copy(TOP / path, self.room / path)
        program = self.room / release_trial.PROGRAM
        program.parent.mkdir(parents=True)
        shutil.copy(SFI, program)

    def test_firmwares(self):
        without_rattle = os.pathsep.join(it for it in os.environ["PATH"].split(os.pathsep) if not os.path.exists(f"{it}/rt"))
        with mock.patch.dict(os.environ, {"PATH": without_rattle}):
            # The gate tries all tests of firmwares, beside this; tools/release.py all of a release.
            self.assertEqual(release_trial.faults_of_device(self.room, "test_updates", "test_answers"), [])
            (self.room / release_trial.DEVICE).write_bytes(b"!<arch>\n")
            found = release_trial.faults_of_device(self.room, "test_answers")
        self.assertTrue(found and found[0].startswith(f"{release_trial.DEVICE} isn't as the tests"), found)
        for machine, has_atomics in (("rv32imc", False), ("rv32imac", True)): # what the linker is told of each
            for name in device_checkers.OBJECTS:
                said = subprocess.run(["riscv64-unknown-elf-readelf", "-A", TOP / device_checkers.place_of(machine, name)],
                                      check=True, capture_output=True, text=True).stdout
                self.assertEqual(("_m2p0" in said, "_a2p" in said, "_c2p0" in said), (True, has_atomics, True), said)
