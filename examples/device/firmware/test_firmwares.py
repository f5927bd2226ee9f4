"""Runs the firmwares of this folder on QEMU's `virt`, whose flash is a file, and cuts their power: QEMU ends before a write, and
starts anew. The checker (device_checker.py) judges each version on the device."""
import ctypes
import hashlib
import os
import pathlib
import random
import shutil
import struct
import subprocess
import sys
import tempfile
import unittest

sys.dont_write_bytecode = True
HERE = pathlib.Path(__file__).resolve().parent
TOP = HERE.parents[2]
sys.path.insert(0, os.path.join(TOP, "tools"))
import testing
from suygapid.trials import device_checker, rust_target, store_walk

SFI = pathlib.Path(os.environ.get("SFI", TOP / "crates" / "sfi" / "out" / "sfi"))
FLASH_SIZE = 1 << 25
PLACES = ("80100000:80404000", "80110000:80408000")     # of board.h, and so are these
INBOXES, CUT_AFTER = (0x80500000, 0x80580000), 0x80700000
NEVER = 0xffffffff
SECONDS = 60
PLACE_BYTES = range(8, 24)  # of an image: where its one sandbox's code and data lie
NOT_SIGNED = "takes no update: 7"
FLIPS = 8
WRITES_BETWEEN_CUTS = 150
CUTS = int(os.environ.get("CUTS", "8"))    # of a firmware
LANGUAGES = ("c", "cpp", "rust")
REPORTS = """
        call report
again:  call yield
        j    again
"""
ENDLESS = "again:  j    again\n"
TRAPS = "        lw   a0, -8(x0)\n"
SOURCE = """.sandbox 4096
.gate exit 0
.gate yield 3
.gate report 4
{}
.data
version: .word {}
"""


def image_of(plugin, text, version):
    made = subprocess.run([SFI, "build", "--raw", "--at", PLACES[plugin]], input=SOURCE.format(text, version).encode(), check=True,
                          stdout=subprocess.PIPE)
    return made.stdout


def hostile(image):
    """It writes mstatus at its start: nobody who checked it would sign it."""
    code_base, _, _, _, start, gates, _ = struct.unpack_from("<7I", image, 8)
    at = 8 + 28 + 8 * gates + start - code_base
    return image[:at] + bytes.fromhex("73100030") + image[at + 4:]


def update(plugin, sequence, image, key=store_walk.KEY):
    claim = bytes(store_walk.right(sequence, 0, image).claim())
    signature = hashlib.sha256(key + plugin.to_bytes(4, "little") + claim).digest().ljust(64, b"\0")
    return claim + signature + image + bytes(-len(image) % 4)


def inbox(updates):
    return b"".join(updates) + bytes(ctypes.sizeof(store_walk.Claim) + 64)


def of(plugin, lines):
    """What is told of a plug-in."""
    start = f"plug-in {plugin} "
    return [it.removeprefix(start) for it in lines if it.startswith(start)]


@unittest.skipUnless(shutil.which("qemu-system-riscv32"), "qemu-system-riscv32 isn't there")
@unittest.skipUnless(shutil.which("riscv64-unknown-elf-gcc"), "riscv64-unknown-elf-gcc isn't there")
@unittest.skipUnless(SFI.is_file(), f"{SFI} isn't there: ./sfi makes it")
class Built(unittest.TestCase):
    """What the Makefile builds for a language, with a flash and inboxes."""
    language = ""

    @staticmethod
    def compiler():
        """Words of make."""
        return []

    @classmethod
    def setUpClass(cls):
        room = tempfile.TemporaryDirectory()
        cls.addClassCleanup(room.cleanup)
        cls.room = pathlib.Path(room.name)
        subprocess.run(["make", "-s", "-C", HERE, f"OUT={cls.room}", f"CHECKER={device_checker.made()}", *cls.compiler(), cls.language],
                       check=True, stdout=subprocess.PIPE)

    def setUp(self):
        with open(self.room / "flash", "wb") as file:
            file.truncate(FLASH_SIZE)

    def send(self, *updates):
        for plugin, sent in enumerate(updates):
            (self.room / f"inbox{plugin}").write_bytes(inbox(sent))

    def power_on(self, cut_after=NEVER):
        """What the firmware says until it is over, or the power is cut after so many writes."""
        loaded = [f"loader,file={self.room}/inbox{plugin},addr={address:#x},force-raw=on" for plugin, address in enumerate(INBOXES)]
        loaded.append(f"loader,addr={CUT_AFTER:#x},data={cut_after:#x},data-len=4")
        command = ["qemu-system-riscv32", "-M", "virt", "-bios", "none", "-display", "none", "-monitor", "none", "-serial", "stdio",
                   "-device", f"loader,file={self.room}/{self.language}", "-drive", f"if=pflash,unit=1,format=raw,file={self.room}/flash"]
        made = subprocess.run([*command, *(word for it in loaded for word in ("-device", it))], stdin=subprocess.DEVNULL,
                              stdout=subprocess.PIPE, timeout=SECONDS, check=True)
        return made.stdout.decode().splitlines()



class Misuse(Built):
    """Each wrong call of misuse.c has an answer, and none writes the flash but the update that begins."""
    language = "misuse"

    def test_answers(self):
        self.send([update(0, 1, image_of(0, REPORTS, 1))], [])
        *lines, last = self.power_on()
        self.assertEqual(lines, ["61 right"])
        self.assertEqual(last, "off after 1 writes")


class Firmwares(Built):
    """The library is the same in each language: one has all cuts and flipped bits, by turns, and the others two."""
    language = "c"

    def share(self, count):
        return count if self.language in testing.by_turns(LANGUAGES, 1) or "CUTS" in os.environ else 2

    def send_updates(self):
        """Of the first plug-in the second version isn't accepted, the third traps, the fourth isn't signed, the fifth works."""
        good, traps = image_of(0, REPORTS, 1), image_of(0, TRAPS, 3)
        self.send([update(0, 1, good), update(0, 2, hostile(good)), update(0, 3, traps), update(1, 9, good), update(0, 5, good)],
                  [update(1, 1, image_of(1, REPORTS, 1))])

    def test_updates(self):
        self.send_updates()
        *lines, _ = self.power_on()
        first = ["starts 1", "keeps 1"]
        self.assertEqual(of(0, lines), [*first, "refuses 2", *first, "starts 3", "gives up 3", *first, NOT_SIGNED, "starts 5", "keeps 5"])
        self.assertEqual(of(1, lines), first)
        *lines, last = self.power_on()
        self.assertEqual((of(0, lines), of(1, lines), last), (["starts 5", "keeps 5", NOT_SIGNED], first, "off after 0 writes"))

    def test_cuts(self):
        """Once the power is back both plug-ins run, a kept one before any update is taken, and at last the newest version does."""
        self.send_updates()
        *_, last = self.power_on()
        writes = int(last.split()[2])
        count = min(self.share(CUTS), writes)
        for number in range(count):
            cut_after = number * writes // count
            with self.subTest(cut_after=cut_after):
                self.setUp()
                *before, last = self.power_on(cut_after)
                self.assertEqual(last, f"off after {cut_after} writes")
                *lines, _ = self.power_on()
                self.assertEqual([it for it in of(0, lines) if it != NOT_SIGNED][-2:], ["starts 5", "keeps 5"])
                self.assertEqual(of(1, lines), ["starts 1", "keeps 1"])
                for plugin in range(2):
                    if "keeps 1" in of(plugin, before):
                        self.assertIn(of(plugin, lines)[0].split()[0], ("starts", "refuses"))

    def run_of_cuts(self, chance):
        """From an empty flash on the power is cut after some writes, again and again, until an update's last. What was kept, or a newer
        version, is started before any update is taken, and at last runs. How often it was cut."""
        self.setUp()
        self.send_updates()
        cuts, kept = 0, [0, 0]
        while True:
            cut_after = chance.randrange(2 * WRITES_BETWEEN_CUTS)
            *lines, last = self.power_on(cut_after)
            for plugin, version in enumerate(kept):
                said = of(plugin, lines)
                if version and said:
                    self.assertIn(said[0].split()[0], ("starts", "refuses"), lines)
                kept[plugin] = max([version, *(int(it.split()[1]) for it in said if it.startswith("keeps"))])
                if version and last != f"off after {cut_after} writes":
                    self.assertIn(f"keeps {kept[plugin]}", said)
            if last != f"off after {cut_after} writes":
                return cuts
            cuts += 1

    def test_runs_of_cuts(self):
        chance, cuts = random.Random(CUTS), 0
        while cuts < self.share(CUTS):
            cuts += self.run_of_cuts(chance)

    def test_flipped_bits(self):
        """What `sfi check` refuses, the firmware does; what lies elsewhere, too; and the other plug-in runs on."""
        chance, good = random.Random(1), image_of(0, REPORTS, 1)
        for _ in range(self.share(FLIPS)):
            at, flipped = chance.randrange(8, len(good)), bytearray(good)
            flipped[at] ^= 1 << chance.randrange(8)
            checked = subprocess.run([SFI, "check"], input=bytes(flipped), stdout=subprocess.DEVNULL, check=False)
            with self.subTest(at=at, byte=flipped[at]):
                self.setUp()
                self.send([update(0, 1, good), update(0, 2, bytes(flipped))], [update(1, 1, image_of(1, REPORTS, 1))])
                *lines, _ = self.power_on()
                self.assertEqual(of(1, lines), ["starts 1", "keeps 1"])
                self.assertEqual(of(0, lines)[:2], ["starts 1", "keeps 1"])
                if checked.returncode != 0 or at in PLACE_BYTES:
                    self.assertEqual(of(0, lines)[2:], ["refuses 2", "starts 1", "keeps 1"])
                else:
                    self.assertEqual(of(0, lines)[2], "starts 2")


    def test_places(self):
        """An image for the other plug-in's place is refused there, as is one of two sandboxes."""
        good, other = image_of(0, REPORTS, 1), image_of(1, REPORTS, 1)
        two = subprocess.run([SFI, "build", "--raw", *(word for place in PLACES for word in ("--at", place))], check=True,
                             input=2 * SOURCE.format(REPORTS, 1).encode(), stdout=subprocess.PIPE).stdout
        self.send([update(0, 1, good), update(0, 2, other), update(0, 3, two)], [update(1, 1, other)])
        *lines, _ = self.power_on()
        first = ["starts 1", "keeps 1"]
        self.assertEqual((of(0, lines), of(1, lines)), ([*first, "refuses 2", *first, "refuses 3", *first], first))

    def test_endless(self):
        """A version that never reports gives way after its turns, while the other plug-in runs."""
        good = image_of(0, REPORTS, 1)
        self.send([update(0, 1, good), update(0, 2, image_of(0, ENDLESS, 2))], [update(1, 1, image_of(1, REPORTS, 1))])
        *lines, _ = self.power_on()
        first = ["starts 1", "keeps 1"]
        self.assertEqual((of(0, lines), of(1, lines)), ([*first, "starts 2", "gives up 2", *first], first))


class FirmwaresInCpp(Firmwares):
    language = "cpp"


class FirmwaresInRust(Firmwares):
    language = "rust"

    @staticmethod
    def compiler():
        try:
            tools = rust_target.toolchain()
        except rust_target.Failed as why:
            raise unittest.SkipTest(str(why)) from why
        return [f"RUSTC={tools.rustc}", f"SYSROOT={rust_target.sysroot_of(tools)}"]


if __name__ == "__main__":
    unittest.main()
