"""Tests of snapshots: a restored world goes on as the first one does, step by step, and what is no snapshot of an image is refused."""
import hashlib
import random
import struct
import unittest
import zlib

from test_calls import IMAGE, answers
from test_sfi_run import HERE, LOOPS, built  # which also finds the package
import sfi_run
from sfi_run import names, snapshots
from sfi_run.modules import Module

STEPS = 400  # that both worlds do one by one
COUNTS = (HERE.parents[1] / "counts.s").read_text(encoding="utf-8")


def resummed(snapshot):
    """With the right sum of what else it has."""
    return snapshot[:-4] + struct.pack("<I", zlib.crc32(snapshot[:-4]))


def state(world):
    return [(type(it.event), it.event, it.registers, it.steps, it.read(it.data.base, it.data.size)) for it in world]


def step(world):
    """A step of each sandbox, or an answer."""
    for sandbox in world:
        event = sandbox.turn(1)
        if isinstance(event, sfi_run.Call):
            if event.service == 0:
                event.exit(event.a0)
            else:
                event.reply((event.a0 * 77 + event.a1) & 0xFFFFFFFF)


def settled(world, image):
    """A snapshot, taken as soon as each sandbox stands where it can be."""
    while True:
        try:
            return snapshots.take(world, image)
        except snapshots.NotTaken:
            step(world)


class GoingOn(unittest.TestCase):
    def go_on_alike(self, first, second):
        self.assertEqual(state(first), state(second))
        for _ in range(STEPS):
            step(first)
            step(second)
            self.assertEqual(state(first), state(second))

    def test_as_the_first_would(self):
        pick = random.Random(983)
        for line in ("", ".format 2\n", ".format words\n", ".format single\n"):
            image = built(line + COUNTS)
            with sfi_run.World(image) as world, Module(image) as module:
                for number in range(6):
                    for _ in range(pick.randrange(200)):
                        step(world)
                    snapshot = settled(world, image)
                    self.assertEqual(snapshot[:4], b"SNAP")
                    before = state(world)
                    self.assertEqual((snapshots.take(world, image), state(world)), (snapshot, before))
                    with snapshots.restore(module if number % 2 else image, snapshot) as second:
                        self.assertEqual(snapshots.take(second, image), snapshot)
                        self.go_on_alike(world, second)

    def test_each_way_to_stand(self):
        image = built(LOOPS)
        ways = [lambda it: None, lambda it: it.turn(100), lambda it: (it.turn(100), it.exit(42)), lambda it: it.stop(),
                lambda it: (it.turn(100), it.stop())]
        for way, kind in zip(ways, (sfi_run.Ready, sfi_run.Call, sfi_run.Exited, sfi_run.Stopped, sfi_run.Stopped)):
            with sfi_run.World(image) as world:
                way(world[0])
                self.assertIsInstance(world[0].event, kind)
                with snapshots.restore(image, snapshots.take(world, image)) as second:
                    self.go_on_alike(world, second)

    def test_a_call_waits_in_both(self):
        image = built(LOOPS)
        with sfi_run.World(image) as world:
            call = world[0].turn(100)
            with snapshots.restore(image, snapshots.take(world, image)) as second:
                self.assertTrue(call.is_waiting)
                second[0].event.reply(1, 2)
                call.reply(1, 2)
                self.assertEqual(state(world), state(second))
                second[0].reset()
                world[0].reset()
                self.assertEqual(state(world), state(second))

    def test_plugins(self):
        with names.Plugin(IMAGE, ask=answers) as plugin:
            plugin.parse(77)
            kept = plugin.snapshot()
            with names.Plugin.restore(IMAGE, kept, ask=answers) as again:
                self.assertEqual(again.sandbox.read(again.address("noted"), 4), struct.pack("<I", 77))
                for one in (plugin, again):
                    self.assertEqual((one.get(61), one.parse(9), one.sum_by(5)), (1061, 9, 10))
                self.assertEqual(again.snapshot(), plugin.snapshot())


class Refusals(unittest.TestCase):
    def setUp(self):
        self.image = built(COUNTS)
        with sfi_run.World(self.image) as world:
            self.snapshot = settled(world, self.image)

    def refused(self, snapshot, why, image=None):
        with self.assertRaisesRegex(snapshots.WrongSnapshot, why):
            snapshots.restore(image or self.image, snapshot)

    def test_what_cannot_be_taken(self):
        image = built(".sandbox 4096\n nop\n nop\n ebreak\n")
        with sfi_run.World(image) as world:
            world[0].turn(1)
            before = state(world)
            with self.assertRaisesRegex(snapshots.NotTaken, "within a bundle"):
                snapshots.take(world, image)
            self.assertEqual(state(world), before)
            world[0].turn(300)
            with self.assertRaisesRegex(snapshots.NotTaken, "has trapped"):
                snapshots.take(world, image)

    def test_another_image(self):
        other = built(COUNTS.replace(".word 5", ".word 6"))
        self.refused(self.snapshot, "another image", other)
        of_nothing = self.snapshot[:8] + hashlib.sha256(b"").digest() + self.snapshot[40:]
        self.assertRaises(sfi_run.NoImage, snapshots.restore, b"", resummed(of_nothing))

    def test_changed_bytes(self):
        for at in range(len(self.snapshot)):
            changed = bytearray(self.snapshot)
            changed[at] ^= 1 << at % 8
            self.refused(changed, "CRC-32")

    def test_lengths(self):
        for length in range(len(self.snapshot)):
            self.refused(self.snapshot[:length], "CRC-32")
            if length >= 8:
                self.refused(resummed(self.snapshot[:length]), "ends before|end after|version|another image|of the image|no whole")
        self.refused(self.snapshot + b"\0", "CRC-32")
        self.refused(resummed(self.snapshot + b"\0"), "doesn't end")

    def forged(self, at, word):
        """With another word at an offset in the first sandbox."""
        at += snapshots.HEAD.size
        return resummed(self.snapshot[:at] + struct.pack("<I", word) + self.snapshot[at + 4 :])

    def test_forged_words(self):
        head = -snapshots.HEAD.size
        for at, word, why in ((head, 0, "version"), (head + 4, 2, "version"), (0, 4, "can't stand"), (0, 9, "can't stand"),
                              (0, 2, "can't stand"), (0, 3, "can't stand"), (8, 0x01000002, "its registers"), (8, 0, "its registers"), (12, 1, "can't stand"),
                              (12 + 4 * 26, 5, "its registers"), (12 + 4 * 24, 0, "its registers"), (148, 0x01900000, "of the image"),
                              (152, 511, "ends before|of the image|doesn't end")):
            self.refused(self.forged(at, word), why)


if __name__ == "__main__":
    unittest.main()
