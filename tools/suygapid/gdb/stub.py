"""Answers what gdb asks of a machine, by its remote protocol: gdb's manual, appendix E, has the packets."""
import re
import struct
from zlib import crc32

from sfi_run import NotEntered, OutsideData
from suygapid.gdb.machine import End, Stop
from suygapid.gdb.packets import INTERRUPT

REGISTERS = struct.Struct("<33I")
WRONG, DONE = "E01", "OK"
FEATURES = f"PacketSize={0x8000:x};vContSupported+;QStartNoAckMode+;ReverseStep+;ReverseContinue+"
# The name that a packet begins with, of one letter but for these.
NAME = re.compile(r"vCont[?;]|b[cs]|[qQv][A-Za-z]+|[Zz]\d,|.", re.DOTALL)
REVERSED = bytes(int(f"{byte:08b}"[::-1], 2) for byte in range(256))  # each byte with its bits in the other order
CANNOT_GO = ("The registers can't be set here: write them where a bundle or word begins, as at a function's first instruction.\n")


def numbers(text):
    return [int(part, 16) for part in text.split(",")]


def remote_crc(content):
    """The sum of 32 bits that gdb's `compare-sections` asks for: the polynomial of zlib's, with the highest bit first, begun
    with all bits set, and none changed at the end."""
    return int(f"{crc32(content.translate(REVERSED)) ^ 0xffffffff:032b}"[::-1], 2)


def reply_of(stop):
    """A stop as gdb reads it."""
    if isinstance(stop, End):
        return f"{'X' if stop.is_signal else 'W'}{stop.number:02x}"
    more = "" if stop.watched is None else f"watch:{stop.watched:x};"
    return f"T{stop.signal:02x}{more}" + ("replaylog:begin;" if stop.is_beginning else "")


class Stub:
    """A session with a gdb."""

    def __init__(self, machine, line):
        self.machine, self.line, self.stop = machine, line, Stop()
        machine.say, machine.is_interrupted = self.say, line.is_interrupted

    def say(self, text):
        """Has gdb show what the program puts."""
        self.line.send(f"O{text.hex()}")

    def serve(self):
        """Answers until gdb leaves."""
        while True:
            packet = self.line.packet()
            if packet == INTERRUPT:
                self.line.send(reply_of(Stop()))
                continue
            text = packet.decode("latin-1")
            if text.startswith("k"):
                return
            self.line.send(self.answer(text))
            if text.startswith("QStartNoAckMode"):
                self.line.acknowledges = False
            if text.startswith("D"):
                return

    def answer(self, text):
        """What a packet gets. An empty answer says that it isn't known."""
        name = NAME.match(text)
        answer = self.ANSWERS.get(name.group(), "") if name else ""
        try:
            return answer if isinstance(answer, str) else answer(self, text[name.end():])
        except (OutsideData, ValueError):
            return WRONG

    def run(self, run, *words):
        """Has the program go on, and tells where it stops."""
        try:
            self.stop = run(*words)
        except NotEntered:
            self.say(CANNOT_GO.encode())
            return WRONG
        return reply_of(self.stop)

    def threads(self, _):
        """The one thread, which is there until the program has ended."""
        return "l" if isinstance(self.stop, End) else "m1"

    def restart(self, _):
        self.machine.restart()
        self.stop = Stop()
        return reply_of(self.stop)

    def go(self, actions):
        """The first action, as there is one thread: steps, steps within a range, or runs."""
        action = actions.split(";")[0].split(":")[0]
        if action[:1] in ("s", "S"):
            return self.run(self.machine.step)
        return self.run(self.machine.go, numbers(action[1:]) if action[:1] == "r" else None)

    def read(self, place):
        return self.machine.read(*numbers(place)).hex()

    def sum_of(self, place):
        """The sum of some bytes, all of which have to be there."""
        at, size = numbers(place[1:])
        content = self.machine.read(at, size)
        return f"C{remote_crc(content):x}" if len(content) == size else WRONG

    def write(self, rest):
        place, content = rest.split(":")
        self.machine.write(numbers(place)[0], bytes.fromhex(content))
        return DONE

    def registers(self, _):
        return REGISTERS.pack(*self.machine.registers).hex()

    def set_registers(self, content):
        self.machine.registers = REGISTERS.unpack(bytes.fromhex(content))
        return DONE

    def register(self, number):
        values = self.machine.registers
        return struct.pack("<I", values[int(number, 16)]).hex() if int(number, 16) < len(values) else WRONG

    def set_register(self, rest):
        number, content = rest.split("=")
        values = list(self.machine.registers)
        values[int(number, 16)] = struct.unpack("<I", bytes.fromhex(content))[0]
        self.machine.registers = values
        return DONE

    def set_break(self, rest):
        self.machine.breaks.add(numbers(rest)[0])
        return DONE

    def clear_break(self, rest):
        self.machine.breaks.discard(numbers(rest)[0])
        return DONE

    def set_watch(self, rest):
        place = tuple(numbers(rest))
        self.machine.read(*place)
        self.machine.watches.add(place)
        return DONE

    def clear_watch(self, rest):
        self.machine.watches.discard(tuple(numbers(rest)))
        return DONE

    # By a packet's name.
    ANSWERS = {
        "qSupported": FEATURES, "QStartNoAckMode": DONE, "!": DONE, "qAttached": "0", "qC": "QC1", "qfThreadInfo": threads,
        "qsThreadInfo": "l", "H": DONE, "T": DONE, "D": DONE, "vKill": DONE, "vCont?": "vCont;c;C;s;S;r",
        "vRun": restart, "?": lambda self, _: reply_of(self.stop), "vCont;": go, "c": lambda self, _: self.run(self.machine.go),
        "s": lambda self, _: self.run(self.machine.step), "bc": lambda self, _: self.run(self.machine.go_back),
        "bs": lambda self, _: self.run(self.machine.step_back), "m": read, "M": write, "g": registers, "G": set_registers,
        "p": register, "P": set_register, "Z0,": set_break, "Z1,": set_break, "z0,": clear_break, "z1,": clear_break,
        "Z2,": set_watch, "z2,": clear_watch, "qCRC": sum_of,
    }
