"""The host with slots: updates, trials, calls and attacks, in three formats. ATTACKS=300,200 tries so many random images and
programs in place of 12 of each."""
import os
import queue
import random
import re
import sys
import tempfile
import unittest

sys.dont_write_bytecode = True
import device
from device import FORMATS, HERE, SLOTS, Device, image_of, names_of, place_of, program_of, verdict_of


def text_of(name):
    return (HERE / "cases" / f"{name}.s").read_text(encoding="utf-8")


PLUGIN, NEIGHBOUR, SILENT, BROKEN = map(text_of, ("plugin", "neighbour", "silent", "broken"))
ROOM = tempfile.TemporaryDirectory()


def tearDownModule():
    ROOM.cleanup()


class OnDevice(unittest.TestCase):
    chip = "virt"

    def setUp(self):
        why = device.missing()
        if why:
            self.skipTest(why)
        self.begin()

    def begin(self, trial=None):
        self.device = Device(os.path.join(ROOM.name, f"{self.chip}{trial or ''}"), self.chip, trial=trial)
        self.addCleanup(self.device.close)

    def restart(self, trial=None):
        """Has the chip begin anew."""
        self.device.close()
        self.begin(trial)

    def start(self, slot, text, image_format, state):
        """Updates a slot, and waits until it is in that state, without a trial."""
        line = self.device.update(slot, image_of(text, image_format, place_of(slot)))
        self.assertRegex(line, f"^slot={slot} started: version=[0-9]+ on trial ready put=0$")
        while " on trial" in line:
            line = self.device.ask("show", slot)
        if state != "ready":
            line = self.device.stopped(slot)
        self.assertRegex(line, f"^slot={slot} is: version=[0-9]+ {state} put=")
        return line

    def data_of(self, slot):
        """A sum of the slot's data: NEIGHBOUR changes its own in each turn."""
        return self.device.ask("sums").split()[2 + 2 * slot]


class Slots(OnDevice):
    def test_formats(self):
        for image_format in FORMATS:
            with self.subTest(image_format=image_format):
                self.walk(image_format)

    def test_single_masks_are_refused(self):
        """Low addresses aren't closed there."""
        self.assertEqual(self.device.update(1, image_of(PLUGIN, "single")), "slot=1 stays: the zone at zero of its format isn't closed here")

    def walk(self, image_format):
        """Two plug-ins come beside a third one that runs; one is called, killed, called again, and updated."""
        names = names_of(PLUGIN, image_format, place_of(1))
        self.start(0, NEIGHBOUR, image_format, "ready")
        first = self.start(1, PLUGIN, image_format, "exit=[0-9]+")
        version = int(re.search(r"version=(\d+) exit=\1 put=1 61$", first)[1])
        before = self.data_of(0)
        for calls in (1, 2):
            self.assertEqual(self.device.call(1, names["add"], 0x30, 4),
                             f"slot=1 is: version={version} exit={0x34 + calls} put=1 61")
        self.assertRegex(self.device.ask("call", 1, f"{names['endless']:x}", 0, 0), " called: .* ready ")
        self.assertEqual(self.device.ask("call", 1, f"{names['add']:x}", 0, 0), "no")
        self.assertRegex(self.device.ask("kill", 1), r" killed: .* trap=Killed at=\w{8} ")
        self.assertEqual(self.device.ask("kill", 1), "no")
        self.assertRegex(self.device.call(1, names["add"]), r" exit=3 ")
        self.assertRegex(self.start(1, PLUGIN, image_format, "exit=[0-9]+"), f"exit={version + 1} ")
        self.assertRegex(self.device.call(1, names["add"]), r" exit=1 ")  # with new data
        self.assertRegex(self.device.ask("start", 1), " started: .* ready ")
        self.assertRegex(self.device.stopped(1), f" exit={version + 1} put=1 61")
        self.assertNotEqual(self.data_of(0), before)

    def test_older_version(self):
        for image_format, text, why in (("1", SILENT, "trap=Killed"), ("2", BROKEN, "trap=Break"),
                                        ("words", SILENT, "trap=Killed")):
            with self.subTest(image_format=image_format):
                line = self.start(2, PLUGIN, image_format, "exit=[0-9]+")
                version = int(re.search(r"version=(\d+)", line)[1])
                line = self.device.update(2, image_of(text, image_format, place_of(2)))
                self.assertRegex(line, f"^slot=2 started: version={version + 1} on trial ready")
                self.assertRegex(self.device.next_line(), f"^slot=2 no report: version={version + 1} .*{why}")
                self.assertRegex(self.device.next_line(), f"^slot=2 older version: version={version} ready")
                self.assertRegex(self.device.stopped(2), f"^slot=2 is: version={version} exit={version} put=1 61")

    def test_no_older_version(self):
        self.device.update(3, image_of(SILENT, "1", place_of(3)))
        self.assertRegex(self.device.next_line(), "^slot=3 no report: version=1 on trial trap=Killed")
        self.assertEqual(self.device.ask("show", 3), "slot=3 is: version=0 empty put=0")
        for command in ("start 3", "kill 3", f"call 3 {place_of(3)[0]:x} 0 0", "remove 3"):
            self.assertEqual(self.device.ask(command), "no", command)

    def test_removed(self):
        """Both versions are gone, and their place is another slot's."""
        for _ in range(2):
            self.start(0, PLUGIN, "1", "exit=[0-9]+")
        image = image_of(PLUGIN, "2", (place_of(0)[0], place_of(1)[1]))
        self.assertEqual(self.device.update(1, image), "slot=1 stays: not apart from another slot")
        self.assertEqual(self.device.ask("remove", 0), "slot=0 removed: version=0 empty put=0")
        for command in ("start 0", "remove 0", f"call 0 {place_of(0)[0]:x} 0 0"):
            self.assertEqual(self.device.ask(command), "no", command)
        self.assertRegex(self.device.update(1, image), "^slot=1 started: version=1 ")

    def test_updates_on_trial(self):
        """While a version is on trial, the older one is kept: no update may take its memory."""
        self.restart(trial=10**9)  # which isn't over before the last command comes
        self.device.update(1, image_of(SILENT, "1", place_of(1)))
        self.assertEqual(self.device.ask("update", 1, 100), "no")
        self.assertEqual(self.device.ask("call", 1, "80120000", 0, 0), "no")
        self.assertEqual(self.device.ask("start", 1), "no")

    def test_places(self):
        code, data = place_of(1)
        rows = [
            ("not the slot's place", [(code, place_of(2)[1])]),
            ("not the slot's place", [(code, 0x80420000)]),         # the host's variables
            ("not the slot's place", [(0x80000000, data)]),         # the host's code
            ("not the slot's place", [(0x80200000, data)]),         # the images
            ("not apart from another slot", [(place_of(2)[0], data)]),
            ("not one plug-in", [(code, data), (place_of(3)[0], place_of(3)[1])])]
        self.start(2, PLUGIN, "1", "exit=[0-9]+")
        for image_format in FORMATS:
            for reason, places in rows:
                text = "".join(".sandbox 4096\n ebreak\n" for _ in places)
                with self.subTest(reason=reason, places=places, image_format=image_format):
                    self.assertEqual(self.device.update(1, image_of(text, image_format, *places)),
                                     f"slot=1 stays: {reason}")
        text = ".sandbox 2048\n ebreak\n"
        self.assertEqual(self.device.update(1, image_of(text, "1", (code, data))), "slot=1 stays: not the slot's place")

    def test_one_image_in_several_slots(self):
        """It was linked for another place, and has addresses in its data."""
        for image_format in FORMATS:
            with self.subTest(image_format=image_format):
                image = program_of("anywhere.c", image_format, "--movable")
                for slot in (0, 1):
                    self.assertRegex(self.device.add(image), f"^slot={slot} started: version=1 on trial ready put=0$")
                for slot in (0, 1):
                    self.assertRegex(self.settled(slot), f"^slot={slot} is: version=1 ready put=6 6f6e6574776f$")
                self.restart()

    def test_image_that_is_for_one_place(self):
        """Moved, it is as safe as it was, and names what it doesn't have. There are no more slots than these."""
        image = program_of("anywhere.c", "2")
        for slot in range(SLOTS):
            self.assertRegex(self.device.add(image), f"^slot={slot} started: version=1 on trial ready put=0$")
        for slot in range(SLOTS):
            self.assertRegex(self.settled(slot), f"^slot={slot} is: version=1 ready put=0$")
        self.assertEqual(self.device.add(image), "no")

    def settled(self, slot):
        """The slot's line once it isn't on trial, and has had some turns more."""
        while " on trial" in self.device.ask("show", slot):
            pass
        return [self.device.ask("show", slot) for _ in range(8)][-1]

    def test_watchdog(self):
        """It is fed after each 2048 bytes that are judged and 4096 that are placed, and the neighbour runs meanwhile."""
        text = ".sandbox 4096\n" + " addi sp, sp, 16\n" * 0x400
        image = image_of(text, "2", (0x80120000, place_of(1)[1]))
        self.assertEqual(len(image), 36 + 0x4000)
        self.start(0, NEIGHBOUR, "2", "ready")
        fed = self.pieces()
        before = self.data_of(0)
        self.assertRegex(self.device.update(1, image), "^slot=1 started")
        self.assertEqual(self.pieces() - fed, 9 + 4)
        self.assertNotEqual(self.data_of(0), before)

    def pieces(self):
        return int(re.search(r"between-pieces=(\d+) ", self.device.ask("watchdog"))[1])


class OnSifive(Slots):
    chip = "sifive_u"
    test_older_version = test_updates_on_trial = test_places = test_watchdog = test_image_that_is_for_one_place = None


class OnSpike(OnDevice):
    chip = "spike"

    def answered(self):
        """The answer to an empty line, sent again where none comes: QEMU's model can drop a byte."""
        for _ in range(30):
            try:
                return self.device.ask("", seconds=4)
            except queue.Empty:
                continue
        return None

    def test_a_line(self):
        self.assertEqual([self.answered() for _ in range(3)], ["no"] * 3)


# ---- Attacks

# Instructions that no accepted image has, or not there: rights, traps, the reserved registers, ways out, the host.
HOSTILE_WORDS = {
    "csrw mtvec, x0": 0x30501073, "csrw mscratch, x0": 0x34001073, "csrsi mstatus, 8": 0x30046073, "mret": 0x30200073,
    "sret": 0x10200073, "wfi": 0x10500073, "ecall": 0x00000073, "fence.i": 0x0000100f, "csrr a0, mepc": 0x34102573,
    "li x24, 0": 0x00000c13, "li x25, -1": 0xfff00c93, "lui x26, 0x80400": 0x80400d37, "li x27, -1": 0xfff00d93,
    "jalr x0, 0(a0)": 0x00050067, "sw a0, 0(a1)": 0x00a5a023, "lw a0, 0(a1)": 0x0005a503, "jal 1 MiB back": 0x8000006f,
    "amoadd.w": 0x00a5a52f, "c.jr a0": 0x85028502, "c.sw": 0xc188c188, "pmpcfg0": 0x3a051073,
    "csrw mie, x0": 0x30401073,
    "lui x2": 0x80400137, "sw to x0": 0x00002023}

# Programs that any build takes, and that try to leave their data and code. HOST, DATA and CODE are addresses.
HOSTILE_TEXTS = {
    "stores to the host": " li a0, HOST\n li a1, -1\n" + "".join(f" sw a1, {4 * k}(a0)\n" for k in range(16)),
    "stores to the neighbour": " li a0, DATA\nmore: sw a0, 0(a0)\n addi a0, a0, 64\n j more\n",
    "stores to the neighbour's code": " li a0, CODE\n sb a0, 0(a0)\n sh a0, 2(a0)\n sw x0, 4(a0)\n ebreak\n",
    "loads from the host": " li a0, HOST\n lw a0, 0(a0)\n call exit\n",
    "jumps to the host": " li a0, HOST\n jr a0\n",
    "jumps to the neighbour": " li a0, CODE\n jalr ra, 0(a0)\n",
    "jumps to the UART": " li a0, 0x10000000\n jr a0\n",
    "a stack that grows": "more: addi sp, sp, -2048\n sw a0, 0(sp)\n j more\n",
    "a stack that shrinks": "more: addi sp, sp, 2032\n sw a0, 0(sp)\n j more\n",
    "the lower guard zone": " li a0, 0\n sw a1, -2048(a0)\n",
    "the upper guard zone": " li a0, -1\n sw a1, 2047(a0)\n",
    "puts the host": " li a0, HOST\n li a1, 256\n call put\n call exit\n",
    "puts over its end": " li a0, -16\n li a1, 64\n call put\n call exit\n",
    "puts 2^32 - 1 bytes": " li a0, 0\n li a1, -1\n call put\n call exit\n",
    "reports for ever": "more: call report\n j more\n",
    "exits into the middle of a stub": " li ra, -2\n call exit\n",
    "recurses": "more: addi sp, sp, -16\n sw ra, 0(sp)\n call more\n",
    "yields with any registers": " li ra, HOST\n li sp, HOST\n li s0, HOST\n call yield\n ebreak\n"}


# How many images and programs by chance are tried.
RANDOM_IMAGES, RANDOM_TEXTS = (int(number) for number in os.environ.get("ATTACKS", "12,12").split(","))
REGISTERS = "ra sp t0 t1 t2 s0 s1 a0 a1 a2 a3".split()
RANDOM_LINES = 40


def random_line(chance):
    """A statement by chance: it makes an address, or accesses, jumps or calls by what registers hold."""
    one, other = chance.sample(REGISTERS, 2)
    value = chance.choice(["HOST", "DATA", "CODE", str(chance.getrandbits(32))])
    number = chance.choice([0, 4, -4, 1020, 2044, -2048, chance.randrange(-2048, 2048)])
    line = f"line{chance.randrange(RANDOM_LINES)}"
    return chance.choice([
        f"li {one}, {value}", f"li {one}, {value}", f"addi {one}, {other}, {number}",
        f"{chance.choice(['add', 'sub', 'xor', 'or', 'sll', 'mul'])} {one}, {one}, {other}",
        f"{chance.choice(['lb', 'lhu', 'lw'])} {chance.choice(REGISTERS[2:])}, {number}({other})",  # no build loads sp
        f"{chance.choice(['sb', 'sh', 'sw'])} {one}, {number}({other})",
        f"{chance.choice(['beq', 'bltu'])} {one}, {other}, {line}", f"jal ra, {line}", f"jr {one}", f"jalr ra, 0({one})",
        f"call {chance.choice(['put', 'yield', 'report', 'exit'])}"])


def random_text(chance):
    return "".join(f"line{number}: {random_line(chance)}\n" for number in range(RANDOM_LINES)) + " call exit\n"


def hostile_text(body):
    text = ".sandbox 4096\n.gate exit 0\n.gate put 1\n.gate yield 3\n.gate report 4\n call report\n" + body
    for name, value in (("HOST", 0x80000000), ("DATA", place_of(2)[1]), ("CODE", place_of(2)[0])):
        text = text.replace(name, hex(value))
    return text


class Attacks(OnDevice):
    """Slot 1 is the attacker's. Slot 0 runs on, and what slots 2 and 3 have, and the host, stays as it was."""

    def setUp(self):
        super().setUp()
        self.attacks = 0
        self.start(0, NEIGHBOUR, "1", "ready")
        for slot in (2, 3):
            self.start(slot, PLUGIN, "words", "exit=1")
        self.sums = self.kept_sums()

    def kept_sums(self):
        """The host's, and of slots 2 and 3; that each slot's code is as it was judged. The attacker's may have been dropped."""
        words = self.device.ask("sums").split()
        self.assertIn(words[3], ("code", "none"))
        self.assertEqual([words[1], *words[5::2]], ["code"] * (SLOTS - 1))
        return words[0], words[6], words[8]

    def attacked(self, what):
        """Looks at what an attack must not have changed."""
        self.attacks += 1
        with self.subTest(attack=what):
            self.assertEqual(self.kept_sums(), self.sums)
            self.assertRegex(self.device.ask("show", 0), "^slot=0 is: version=1 ready ")

    def settle(self):
        """Waits for the attacker's end, or kills it."""
        for _ in range(8):
            if " ready " not in self.device.ask("show", 1):
                return
        self.device.ask("kill", 1)

    def send(self, what, image):
        verdict = verdict_of(image)
        line = self.device.update(1, image)
        if verdict == "accepted":
            self.assertRegex(line, "^slot=1 (started|stays: not)", what)
            self.settle()
        else:
            self.assertEqual(line, f"slot=1 stays: {verdict}", what)
        self.attacked(what)
        return verdict

    def test_hostile_words(self):
        """One instruction of an accepted image is another, at a place by chance."""
        chance = random.Random(1)
        for image_format in FORMATS:
            image = image_of(PLUGIN, image_format, place_of(1))
            gates = int.from_bytes(image[28:32], "little")
            code = 36 + 8 * gates
            for name, word in HOSTILE_WORDS.items():
                at = code + 4 * chance.randrange(4 * gates, 48)
                changed = image[:at] + word.to_bytes(4, "little") + image[at + 4:]
                self.send(f"{name} at {at - code}, format {image_format}", changed)
        self.assertGreaterEqual(self.attacks, 60)

    def test_hostile_texts(self):
        """Accepted programs, each of which is entered within its code too."""
        for image_format in FORMATS:
            for name, body in HOSTILE_TEXTS.items():
                image = image_of(hostile_text(body), image_format, place_of(1))
                what = f"{name}, format {image_format}"
                self.assertEqual(self.send(what, image), "accepted")
                for offset in (64, 160):
                    self.device.ask("call", 1, f"{place_of(1)[0] + offset:x}", "80000000", "ffffffff")
                    self.settle()
                    self.attacked(f"{what}, entered at {offset}")

    def test_random_images(self):
        """Up to eight instructions of an accepted image are others by chance: hostile ones, or any words."""
        chance = random.Random(3)
        images = [image_of(PLUGIN, image_format, place_of(1)) for image_format in FORMATS]
        for number in range(RANDOM_IMAGES):
            image = bytearray(images[number % len(images)])
            code = 36 + 8 * int.from_bytes(image[28:32], "little")
            for _ in range(chance.randrange(1, 9)):
                at = code + 4 * chance.randrange(64)
                word = chance.choice([chance.choice(list(HOSTILE_WORDS.values())), chance.getrandbits(32)])
                image[at:at + 4] = word.to_bytes(4, "little")
            self.send(f"random image {number}", bytes(image))

    def test_random_texts(self):
        """Accepted programs by chance, each of which is entered within its code, too."""
        chance = random.Random(4)
        for number in range(RANDOM_TEXTS):
            text = random_text(chance)
            what = f"random program {number}:\n{text}"
            self.assertEqual(self.send(what, image_of(hostile_text(text), FORMATS[number % len(FORMATS)], place_of(1))), "accepted")
            self.device.ask("call", 1, f"{place_of(1)[0] + 16 * chance.randrange(8, 20):x}", "80000000", "ffffffff")
            self.settle()
            self.attacked(what)

    def test_flipped_bits(self):
        """An update in which a few bits have changed on the way."""
        chance = random.Random(2)
        for image_format in FORMATS:
            image = image_of(PLUGIN, image_format, place_of(1))
            for number in range(20):
                flipped = bytearray(image)
                for _ in range(1 + number % 3):
                    flipped[chance.randrange(len(flipped))] ^= 1 << chance.randrange(8)
                self.send(f"flipped {number}, format {image_format}", bytes(flipped))

    def test_hostile_updates(self):
        """Lengths, pieces and lines that aren't right; after each the shell answers as before."""
        image = image_of(PLUGIN, "2", place_of(1))
        rows = [["update 1 0"], ["update 1 20001"], ["update 1 ffffffff"], ["update 1 100000000"], ["update 4 100"],
                ["update ffffffff 100"], ["update 1"], ["update 1 10 10"], ["piece 00"], ["update 1 2", "piece 000000"],
                ["update 1 2", "piece 0"], ["update 1 2", "piece 0g"], ["update 1 2", "piece"],
                ["update 1 20", "piece " + "0" * 600],
                ["piece " + "0" * 9000], ["x" * 530], [""], ["update"], ["call 1 80000000 0 0"],
                ["call 1 80120001 0 0"],
                ["call 1 80130000 0 0"], ["call 0 80110000 0 0"], ["call 9 80110000 0 0"], ["call 1 80120000 0 "],
                ["kill 1"], ["kill 5"], ["start 7"], ["remove 4"], ["remove 1 0"], ["show 4"], ["show -1"], ["\0"], ["show 0\0"], ["\xff" * 40]]
        for row in rows:
            for line in row:
                answer = self.device.ask(line)
            self.assertEqual(answer, "no", row)
            self.attacked(row)
        for length in (1, 4, 8, 35, 100, len(image) - 1):
            self.send(f"{length} bytes", image[:length])
        self.send("a byte too many", image + b"\0")
        self.device.ask("update", 1, f"{len(image):x}")  # another one in the middle of it
        self.device.ask("piece", image[:64].hex())
        self.assertEqual(self.send("an update in the middle of another", image), "accepted")


if __name__ == "__main__":
    unittest.main()
