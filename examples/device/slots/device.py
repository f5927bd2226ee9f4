"""The host with slots on QEMU, and images for it."""
import os
import pathlib
import queue
import shutil
import subprocess
import sys
import tempfile
import threading

HERE = pathlib.Path(__file__).resolve().parent
TOP = HERE.parents[2]
SFI = os.environ.get("SFI", str(TOP / "crates" / "sfi" / "out" / "sfi"))
CHECKER = os.environ.get("CHECKER", str(HERE.parent / "out" / "moving.o"))
FORMATS = ("1", "2", "words")
CHIPS = {"virt": "virt", "sifive_u": "sifive_u", "spike": "spike"}  # those of chips/ whose memory holds code
PIECE = 256
SLOTS = 4


def place_of(slot):
    """Where the code and the data of a slot's plug-in are: the data's place is the slot's, the code's is chosen."""
    return 0x80110000 + 0x10000 * slot, 0x80401000 + 0x3000 * slot


def sfi(*words, text=b"", status=0):
    done = subprocess.run([SFI, *words], input=text, stdout=subprocess.PIPE, check=False)
    if status is not None and done.returncode != status:
        raise RuntimeError(f"sfi {' '.join(words)} ended in {done.returncode}: {done.stdout[:200]!r}")
    return done.stdout.decode()


def in_format(text, image_format):
    return f".format {image_format}\n{text}".encode()


def image_of(text, image_format, *places):
    """The image of a source text, each of its sandboxes at the next of the places."""
    at = [word for code, data in places for word in ("--at", f"{code:x}:{data:x}")]
    return bytes.fromhex(sfi("build", *at, text=in_format(text, image_format)))


def program_of(name, image_format, *words):
    """The image of a program of cases/, by tools/sfi-cc."""
    with tempfile.TemporaryDirectory() as room:
        made = os.path.join(room, "made.image")
        subprocess.run([TOP / "tools" / "sfi-cc", "--program", SFI, "--format", image_format, "--data", "4096", "--stack", "512",
                        "--gate", "report=4", *words, "-o", made, HERE / "cases" / name], check=True)
        return pathlib.Path(made).read_bytes()


def names_of(text, image_format, place):
    """The addresses of a source text's names."""
    lines = sfi("map", "--at", f"{place[0]:x}:{place[1]:x}", text=in_format(text, image_format)).splitlines()
    return {line.split()[2]: int(line.rsplit("=", 1)[1], 16) for line in lines}


def verdict_of(image):
    """The line of `sfi check`."""
    line = sfi("check", "--raw", text=image, status=None).strip()
    return "accepted" if line.startswith("accepted") else line


class Device:
    """A chip that runs the host. Each command is answered by a line; others tell of slots that are rolled back. MEMORY names
    a file that keeps the memory of `virt` when the power is cut. The chip's clock counts instructions: a turn is as long on a
    busy machine. How many turns come between two commands depends on the machine. TRIAL is the most of a new version's."""

    def __init__(self, out, chip="virt", memory=None, trial=None):
        flags = [f"HOST_FLAGS=-DTRIAL_TURNS={trial}"] if trial else []
        made = subprocess.run(["make", "-s", "-C", str(HERE), f"CHIP={chip}", f"OUT={out}", f"CHECKER={CHECKER}", *flags],
                              stdout=subprocess.PIPE, stderr=subprocess.STDOUT, check=False)
        if made.returncode:
            raise RuntimeError(made.stdout.decode())
        self.command = ["qemu-system-riscv32", "-M", CHIPS[chip], "-bios", "none", "-display", "none", "-monitor", "none",
                        "-serial", "stdio", "-icount", "shift=0", "-kernel", f"{out}/checked"]
        if memory:
            self.command += ["-machine", "memory-backend=kept", "-object",
                             f"memory-backend-file,id=kept,size=128M,mem-path={memory},share=on"]
        self.power_on()

    def power_on(self):
        self.qemu = subprocess.Popen(self.command, stdin=subprocess.PIPE, stdout=subprocess.PIPE, bufsize=0)
        self.lines = queue.Queue()
        self.reader = threading.Thread(target=self.read, daemon=True)
        self.reader.start()
        self.wait_for("slots")

    def cut_power(self):
        """At once, whatever the chip does; then it begins anew."""
        self.close()
        self.power_on()

    def read(self):
        for line in iter(self.qemu.stdout.readline, b""):
            self.lines.put(line.decode("latin1").rstrip("\r\n"))

    def close(self):
        self.qemu.kill()
        self.qemu.wait()
        self.reader.join()
        self.qemu.stdin.close()
        self.qemu.stdout.close()

    def next_line(self, seconds=120):
        """The next line; raises queue.Empty where none comes."""
        return self.lines.get(timeout=seconds)

    def wait_for(self, text, seconds=120):
        """The next line that has the text in it; those before it are dropped."""
        while True:
            line = self.next_line(seconds)
            if text in line:
                return line

    def ask(self, *words, seconds=120, told=lambda line: None):
        """The answer to a command, or queue.Empty. Lines may come before it that tell of a rolled back slot: `told` gets each."""
        self.qemu.stdin.write(" ".join(str(word) for word in words).encode() + b"\n")
        while True:
            line = self.next_line(seconds)
            if ": version=" not in line or not (" no report: " in line or " older version: " in line):
                return line
            told(line)

    def update(self, slot, image, piece=PIECE):
        """The line after the last piece."""
        return self.fed(self.ask("update", f"{slot:x}", f"{len(image):x}"), image, piece)

    def add(self, image):
        """The same of an image for any place."""
        return self.fed(self.ask("add", f"{len(image):x}"), image, PIECE)

    def fed(self, line, image, piece):
        """The line after the last piece of an image that is awaited."""
        for start in range(0, len(image), piece):
            if not line.startswith("awaits="):
                return line
            line = self.ask("piece", image[start:start + piece].hex())
        return line

    def stopped(self, slot):
        """The slot's line, once its plug-in isn't ready."""
        while True:
            line = self.ask("show", slot)
            if " ready " not in line:
                return line

    def call(self, slot, pc, first=0, second=0):
        answer = self.ask("call", slot, f"{pc:x}", f"{first:x}", f"{second:x}")
        return answer if answer == "no" else self.stopped(slot)


def missing():
    """What of the tools isn't there, or None."""
    for command in ("qemu-system-riscv32", "riscv64-unknown-elf-gcc", "make"):
        if not shutil.which(command):
            return f"{command} isn't there"
    if not os.access(SFI, os.X_OK):
        return f"{SFI} isn't built"
    return None if os.path.exists(CHECKER) else f"{CHECKER} isn't there"


if __name__ == "__main__":
    sys.exit("device.py holds what test_slots.py uses")
