"""Tests of sfi-move, and of sfi-image --at: `tools/unit_tests.py tools`."""
import glob
import os
import re
import struct
import subprocess

from testing import OF_BINUTILS, SFI, SFI_CC, Folder, needs, needs_program

TOOLS = os.path.dirname(os.path.abspath(__file__))
TOP = os.path.dirname(TOOLS)
MOVE, IMAGE = os.path.join(TOOLS, "sfi-move"), os.path.join(TOOLS, "sfi-image")
BREAK, STUB = b"\x02\x90", bytes.fromhex("73000000b3ff9001b3ef8f0167800f00")
ONE = struct.pack("<I", 1)  # sandboxes
PLACES = ((0x1000000, 0x1800000), (0x2000000, 0x2800000))
STACK, ROOM = struct.pack("<IB", 8192, 6) + b".stack", struct.pack("<IB", 128, 5) + b".room"
EXPORT = struct.pack("<IB", 0x1800010, 3) + b"one"
IMPORT = struct.pack("<IB", 0x1000000, 4) + b"gate" + struct.pack("<IB", 0x1800100, 5) + b".room"  # the second is no address
NAMES = EXPORT + IMPORT + struct.pack("<3I", 7, len(EXPORT), len(IMPORT)) + b"SFIN"


def sandbox(code, data, first=b"", gates=((0, 3),), start=16):
    """A sandbox of an image, with 256 bytes of code and 512 of data."""
    head = struct.pack("<7I", code, 256, data, 512, code + start, len(gates), len(first))
    return head + b"".join(struct.pack("<2I", code + at, service) for at, service in gates) + STUB + BREAK * 120 + first


def image(*sandboxes):
    return b"SFI2" + struct.pack("<I", len(sandboxes)) + b"".join(sandboxes)


def with_exports(text, version):
    """A text in that format, whose sandboxes can be moved, with their labels as exports."""
    first, *sandboxes = re.split(r"(?m)^(?=\.sandbox)", re.sub(r"(?m)^\s*\.(format|movable|export)\b.*\n", "", text))
    for number, part in enumerate(sandboxes):
        line, _, rest = part.partition("\n")
        size = max(int(re.sub(r"#.*", "", line).split()[1], 0), 4096)
        exports = "".join(f".export {label}\n" for label in dict.fromkeys(re.findall(r"(?m)^([A-Za-z_]\w*):", rest)))
        sandboxes[number] = f".sandbox {size}\n.movable\n{exports}{rest}"
    return (first + f".format {version}\n" + "".join(sandboxes)).encode()


def call(tool, *words, content=b""):
    """The status of a tool, its output, and what it says."""
    done = subprocess.run([tool, *words], input=content, stdout=subprocess.PIPE, stderr=subprocess.PIPE, check=False,
                          env={**os.environ, "SFI": SFI})
    return done.returncode, done.stdout, done.stderr.decode()


@needs_program
class Moves(Folder):
    def test_a_sandbox(self):
        """The bases, the start and the gates, and no other byte; the other sandbox stays."""
        before = image(*(sandbox(*place) for place in PLACES))
        after = image(sandbox(*PLACES[0]), sandbox(0x500, 0x12000))
        wanted = image(sandbox(*PLACES[0]), sandbox(0x100, 0xffffee00))
        self.assertEqual(call(MOVE, "--raw", "--sandbox", "1", "--at", "500:12000", content=before), (0, after, ""))
        self.assertEqual(call(MOVE, "--raw", "--sandbox", "1", "--at", "100:ffffee00", content=before), (0, wanted, ""))
        text = before.hex().encode() + b"\n"
        self.assertEqual(call(MOVE, "--sandbox", "1", "--at", "500:12000", content=text), (0, after.hex().encode() + b"\n", ""))

    def test_names(self):
        moved = NAMES.replace(struct.pack("<I", 0x1800010), struct.pack("<I", 0x3000010))
        moved = moved.replace(struct.pack("<I", 0x1000000), struct.pack("<I", 0x400))
        before, after = image(sandbox(*PLACES[0], b"x" + NAMES)), image(sandbox(0x400, 0x3000000, b"x" + moved))
        self.assertEqual(call(MOVE, "--raw", "--at", "400:3000000", content=before), (0, after, ""))
        for first in (b"SFIN", NAMES[1:], b"\xff" * 12 + b"SFIN"):  # no table
            self.assertEqual(call(MOVE, "--raw", "--at", "400:3000000", content=image(sandbox(*PLACES[0], first)))[0], 0)

    def test_texts(self):
        """Each example that can be moved, with each of its labels as an export, is at a place what is built there."""
        tried = 0
        for path in sorted(glob.glob(os.path.join(TOP, "examples", "**", "*.s"), recursive=True)):
            with open(path, encoding="utf-8", errors="replace") as file:
                text = file.read()
            for version in ("2", "words"):
                named = with_exports(text, version)
                status, built, _ = call(SFI, "build", "--raw", content=named)
                if status or built[4:8] != ONE:
                    continue
                tried += 1
                with self.subTest(path=path, version=version):
                    there = call(SFI, "build", "--raw", "--at", "20500000:80000000", content=named)
                    self.assertEqual(call(SFI, "move", "--raw", "--at", "20500000:80000000", content=built), there)
        self.assertGreater(tried, 10)

    def refused(self, content, wanted, *words):
        with self.subTest(words=words, wanted=wanted):
            self.assertEqual(call(MOVE, "--raw", *words, content=content), (1, b"", f"sfi-move: {wanted}\n"))

    def test_refusals(self):
        before = image(*(sandbox(*place) for place in PLACES))
        nowhere = "move fault 3 NoPlace: sandbox"
        rows = [(("--at", "480:3000000"), before, f"{nowhere} 0: the code has 256 bytes, and lies at 0x480, which is no multiple of that"),
                (("--at", "400:3000100"), before, f"{nowhere} 0: the data has 512 bytes, and lies at 0x3000100, which is no multiple of that"),
                (("--at", "4000:e00"), before, f"{nowhere} 0: there is no room for a guard zone beside the data at 0xe00"),
                (("--at", "4000:fffff000"), before, f"{nowhere} 0: there is no room for a guard zone beside the data at 0xfffff000"),
                (("--at", "400:2801000"), before, f"{nowhere} 1 and sandbox 0 lie at one place: link each with a --sandbox of its own"),
                (("--at", "400:3000000", "--sandbox", "2"), before, "move fault 2 NoSandbox: the image has no sandbox 2"),
                (("--at", "400:3000000"), before[:-1], "layout fault 3 Short: the image is cut off"),
                (("--at", "400:3000000"), b"SFI2", "layout fault 3 Short: the image is cut off"),
                (("--at", "400:3000000"), before + b"\0", "layout fault 11 Trailing: bytes follow the image"),
                (("--at", "400:3000000"), b"SFI3" + before[4:], "input fault hex digit 0: this is no image")]
        for words, content, wanted in rows:
            self.refused(content, wanted, *words)
        self.assertEqual(call(MOVE, "--at", "400:3000000", content=b"0x"), (1, b"", "sfi-move: this is no hexadecimal text\n"))
        self.assertEqual(call(MOVE, "--at", "4", content=b"")[0], 2)

    def test_what_is_no_image(self):
        """Faults that don't show where it is read, and code that is refused."""
        rows = [(sandbox(0x1000000, 0), "layout fault 6 GuardRoom"), (sandbox(*PLACES[0], start=24), "layout fault 7 Start"),
                (sandbox(*PLACES[0], start=256), "layout fault 7 Start"), (sandbox(*PLACES[0], gates=((0, 3), (0, 3))), "layout fault 8 Gates"),
                (sandbox(*PLACES[0], gates=((0, 9),)), "layout fault 8 Gates"), (sandbox(*PLACES[0], b"x" * 513), "layout fault 9 Init"),
                (sandbox(*PLACES[0], gates=((16, 3),)), "refused findings=2 first=V3 sandbox=0 at=01000000")]
        for content, wanted in rows:
            self.refused(image(content), wanted, "--at", "400:3000000")

    def test_without_a_program(self):
        self.refused(image(sandbox(*PLACES[0])), "/nothing/sfi can't be run: No such file or directory",
                     "--at", "400:3000000", "--program", "/nothing/sfi")


@needs(*OF_BINUTILS)
class Programs(Folder):
    TEXT = "\t.text\n\t.globl\tmain\nmain:\n\tla\ta0,main\n\taddi\ta5,sp,100\n\tlw\ta1,-100(a5)\n\tret\n"

    def linked(self, *words):
        program = self.write("program", "#!/bin/sh\ncat >/dev/null\n", 0o755)
        output = self.path("made.elf")
        status, _, told = call(SFI_CC, "--program", program, *words, "-o", output, self.write("main.s", self.TEXT))
        self.assertEqual((status, told), (0, ""))
        return output

    @needs_program
    def test_a_movable_program(self):
        for words, end in (([], b""), (["--export", "main"], STACK + ROOM + struct.pack("<3I", 0, 9, 21) + b"SFIN")):
            path = self.linked("--movable", *words)
            _, before, _ = call(IMAGE, "--raw", path)
            status, after, told = call(IMAGE, "--raw", "--at", "3000000:4000000", path)
            self.assertEqual((status, told, after[len(after) - len(end):]), (0, "", end))
            self.assertEqual(call(MOVE, "--raw", "--at", "3000000:4000000", content=before), (0, after, ""))

    def test_one_that_is_not(self):
        path = self.linked()
        self.assertEqual(call(IMAGE, "--raw", "--at", "1800000:80000000", path)[0], 0)  # where it was linked
        self.assertEqual(call(IMAGE, "--at", "3000000:4000000", path),
                         (1, b"", f"sfi-image: {path} can't be moved: link it with --movable, or with --at\n"))
