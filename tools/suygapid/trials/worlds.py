"""Worlds of sandboxes as sfi_run.h says that they behave: a model, and the library behind the same methods.

Each method answers what a caller of the C call sees. The model is untrusted, and stands on machine.py.
"""
import collections
import ctypes
import os
import re
import subprocess

import libraries
from suygapid import TOP
from suygapid.image import layout
from suygapid.trials import machine, word_rules

NONE, READY, CALL, EXITED, TRAPPED, STOPPED = range(6)
CHANGED, NO_WORLD, NO_MODULE, NO_SANDBOX, MEETS, FULL, NO_MEMORY = range(7)
SLACK = 1020  # how far off the data the address in a data register may be, in words
DATA_REGISTERS = {layout.WORDS: word_rules.WORDS.data_registers, layout.SINGLE: word_rules.SINGLE.data_registers}
Event = collections.namedtuple("Event", "kind number gate pc a0 a1 a2 a3 a4 a5 a6 a7", defaults=(0, 0, 0, 0, 0, 0, 0, 0, 0, 0, 0))
LIBRARY, HEADER = libraries.built("sfi_run"), libraries.header("sfi_run")
FILL = 0xA5  # what a buffer holds before a read


class Sandbox(machine.Machine):
    """A machine with what its host knows of it."""

    def __init__(self, part):
        super().__init__(part)
        self.steps, self.ended = 0, None
        self.begin(part.start)

    def begin(self, pc):
        part = self.part
        self.x, self.pc, self.ended = [0] * 32, pc, None
        self.x[2] = part.data_base + part.data_size - 16
        self.x[24:28] = part.reserved()
        if part.format in DATA_REGISTERS:
            self.x[3] = self.x[4] = self.x[29] = part.data_base
            self.x[30] = pc

    def exit_gate(self):
        return next((address for address, service in self.part.gates.items() if service == 0), 0)

    def room(self):
        """How many bytes the image asks for above the stack of a function that is called; 0 where the data have no place for them."""
        init = self.part.init
        is_told = len(init) >= 26 and init[-22:-16] == b"\x05.room" and init[-4:] == b"SFIN"
        asked = int.from_bytes(init[-26:-22], "little") if is_told else 0
        return asked if asked + 16 <= self.part.data_size else 0

    def is_near(self, address):
        """Whether a data register may hold it: near the data or, with single masks, near the addresses below the data's size."""
        bases = (self.part.data_base, 0, layout.ADDRESSES)[:3 if self.part.format == layout.SINGLE else 1]
        return any(-SLACK <= address - base < self.part.data_size + SLACK for base in bases)

    def may_hold(self, pc, x):
        """Whether it may be ready with this pc and these registers, as at an entry."""
        part = self.part
        data_registers = DATA_REGISTERS.get(part.format, ())
        reserved = all(it in data_registers or x[it] == value for it, value in enumerate(part.reserved(), 24))
        if pc % part.unit() or not part.has_code(pc) or not reserved:
            return False
        if data_registers:
            is_offset = 31 in data_registers or x[31] < part.data_size
            return all(self.is_near(x[it]) for it in data_registers) and x[30] % 4 == 0 and part.has_code(x[30]) and is_offset
        return part.format == 1 or part.has_data(x[2], 1)

    def event(self):
        if self.ended:
            return self.ended._replace(pc=self.pc)
        if self.stands_at_call():
            return Event(CALL, self.part.gates[self.pc], sorted(self.part.gates).index(self.pc), self.pc, *self.x[10:18])
        return Event(READY, pc=self.pc)

    def turn(self, most):
        for _ in range(most):
            if self.ended or self.stands_at_call():
                return
            stop = self.step()
            if stop:
                self.ended = Event(TRAPPED, stop.cause, a0=stop.at)
                return
            self.steps += 1


class Model:
    """judge gives the verdicts on images."""

    def __init__(self, judge):
        self.judge, self.sandboxes = judge, []

    def at(self, number):
        return self.sandboxes[number] if number < len(self.sandboxes) else None

    def load(self, data):
        verdict = self.judge.verdict(data)
        self.sandboxes = [] if verdict.status else [Sandbox(part) for part in layout.parts(data)]
        return verdict.status, numbers_of(verdict)

    def module(self, data):
        """What `instance` and `add` take: the image, which is accepted."""
        return layout.parts(data)

    def instance(self, module):
        self.sandboxes = [Sandbox(part) for part in module]
        return True

    def add(self, module):
        """The status, and the number of the first that was added; FILL where there is none."""
        if any(part.meets(it.part) for it in self.sandboxes for part in module):
            return MEETS, FILL
        first = len(self.sandboxes)
        self.sandboxes += [Sandbox(part) for part in module]
        return CHANGED, first

    def remove(self, number):
        if not self.at(number):
            return NO_SANDBOX
        del self.sandboxes[number]
        return CHANGED

    def free(self):
        self.sandboxes = []

    def move(self):
        """The world's bytes go to another place."""

    def count(self):
        return len(self.sandboxes)

    def event(self, number):
        sandbox = self.at(number)
        return sandbox.event() if sandbox else Event(NONE)

    def turn(self, number, steps):
        sandbox = self.at(number)
        if sandbox:
            sandbox.turn(steps)
        return self.event(number)

    def until(self, number, stops, steps):
        """A turn that ends, too, where it comes to one of these addresses."""
        sandbox = self.at(number)
        for _ in range(steps if sandbox else 0):
            before = sandbox.steps
            sandbox.turn(1)
            if sandbox.steps == before or sandbox.pc in stops:
                break
        return self.event(number)

    def end_call(self, number, a0, a1):
        """Whether it stands at a call, which is over then."""
        sandbox = self.at(number)
        if not sandbox or sandbox.event().kind != CALL:
            return False
        sandbox.x[10], sandbox.x[11] = a0, a1
        sandbox.steps += 1
        return True

    def reply(self, number, a0, a1):
        if not self.end_call(number, a0, a1):
            return False
        self.at(number).pc += 4
        return True

    def exit(self, number, code):
        if not self.end_call(number, code, 0):
            return False
        self.at(number).ended = Event(EXITED, code)
        return True

    def stop(self, number):
        sandbox = self.at(number)
        if not sandbox or sandbox.ended:
            return False
        sandbox.ended = Event(STOPPED)
        return True

    def reset(self, number):
        sandbox = self.at(number)
        if sandbox:
            self.sandboxes[number] = Sandbox(sandbox.part)
        return bool(sandbox)

    def has_data(self, number, at, length):
        sandbox = self.at(number)
        return bool(sandbox) and (length == 0 or sandbox.part.has_data(at, length))

    def read(self, number, at, length, room):
        """Whether it is done, and what is in the buffer afterwards."""
        if length > room or not self.has_data(number, at, length):
            return False, bytes([FILL]) * room
        begin = at - self.at(number).part.data_base
        found = self.at(number).data[begin : begin + length] if length else b""
        return True, bytes(found) + bytes([FILL]) * (room - length)

    def write(self, number, at, given):
        if not self.has_data(number, at, len(given)):
            return False
        if given:
            begin = at - self.at(number).part.data_base
            self.at(number).data[begin : begin + len(given)] = given
        return True

    def enter(self, number, pc, arguments):
        sandbox = self.at(number)
        if not sandbox or not sandbox.ended or pc % sandbox.part.unit() or not sandbox.part.has_code(pc):
            return False
        sandbox.begin(pc)
        sandbox.x[1] = sandbox.exit_gate()
        sandbox.x[2] -= sandbox.room()
        sandbox.x[10:18] = arguments
        return True

    def call(self, number, pc, arguments, steps):
        is_done = self.enter(number, pc, arguments)
        return is_done, self.turn(number, steps) if is_done else self.event(number)

    def call_back(self, number, pc, arguments):
        """Whether it is called back, and the pc and registers of its call; FILL where it isn't."""
        kept = self.registers(number)
        if self.event(number).kind != CALL:
            return False, [FILL] * 33
        registers = [pc, *kept[1:]]
        registers[2], registers[11:19] = self.at(number).exit_gate(), arguments
        if not self.set_registers(number, registers):
            return False, [FILL] * 33
        return True, kept

    def set_registers(self, number, registers):
        sandbox = self.at(number)
        if not sandbox or not sandbox.may_hold(registers[0], registers[1:]):
            return False
        sandbox.pc, sandbox.x, sandbox.ended = registers[0], [0, *registers[2:]], None
        return True

    def steps(self, number):
        sandbox = self.at(number)
        return sandbox.steps if sandbox else 0

    def registers(self, number):
        """pc and x0 to x31; None where there is no such sandbox."""
        sandbox = self.at(number)
        return [sandbox.pc, *sandbox.x] if sandbox else None

    def region(self, number):
        sandbox = self.at(number)
        return (sandbox.part.data_base, sandbox.part.data_size) if sandbox else None


def numbers_of(verdict):
    """The fields of struct sfi_verdict. What the status doesn't speak of is 0."""
    counts = (verdict.sandboxes, verdict.bundles) if verdict.status == 0 else (0, 0)
    sandbox, address, rule = verdict.findings[0] if verdict.findings else (0, 0, "V0")
    return (verdict.status, verdict.fault, *counts, len(verdict.findings), sandbox, address, int(rule[1:]))


# ---- models with a fault, which the comparison has to see


class ReplyIsNoStep(Model):
    def reply(self, number, a0, a1):
        is_done = super().reply(number, a0, a1)
        if is_done:
            self.at(number).steps -= 1
        return is_done


class ReadGoesPastTheRoom(Model):
    def read(self, number, at, length, room):
        return super().read(number, at, min(length, room), room)


class EnterIsLoose(Model):
    def enter(self, number, pc, arguments):
        return super().enter(number, pc & ~15, arguments)


class EnterLeavesNoRoom(Model):
    def enter(self, number, pc, arguments):
        is_done = super().enter(number, pc, arguments)
        if is_done:
            self.at(number).x[2] += self.at(number).room()
        return is_done


class CallForgetsTheTurn(Model):
    def call(self, number, pc, arguments, steps):
        return super().call(number, pc, arguments, 0)


class StopForgetsData(Model):
    def stop(self, number):
        is_done = super().stop(number)
        if is_done:
            self.at(number).data[-1] ^= 1
        return is_done


class ResetKeepsAByte(Model):
    def reset(self, number):
        kept = self.at(number)
        is_done = super().reset(number)
        if is_done:
            self.at(number).data[-1] = kept.data[-1]
        return is_done


class TrapCounts(Model):
    def turn(self, number, steps):
        before = super().event(number).kind
        event = super().turn(number, steps)
        if event.kind == TRAPPED and before != TRAPPED:
            self.at(number).steps += 1
        return event


class RemoveTakesTheNext(Model):
    def remove(self, number):
        return super().remove(number + 1 if self.at(number + 1) else number)


class AddBeginsTheFirstAnew(Model):
    def add(self, module):
        status, first = super().add(module)
        if status == CHANGED and first:
            self.reset(0)
        return status, first


class AddOverlooksTheGuards(Model):
    def add(self, module):
        first = len(self.sandboxes)
        status, number = super().add(module)
        spans = [it for sandbox in self.sandboxes[:first] for it in sandbox.part.spans(0)]
        if status == MEETS and all(layout.are_apart(it, other) for part in module for it in part.spans(0) for other in spans):
            self.sandboxes += [Sandbox(part) for part in module]
            return CHANGED, first
        return status, number


# those of worlds that sandboxes come into and leave
PLANTS_BESIDE = {it.__name__: it for it in (RemoveTakesTheNext, AddBeginsTheFirstAnew, AddOverlooksTheGuards)}
PLANTS = {
    it.__name__: it
    for it in (ReplyIsNoStep, ReadGoesPastTheRoom, EnterIsLoose, EnterLeavesNoRoom, CallForgetsTheTurn, StopForgetsData, ResetKeepsAByte, TrapCounts)
}

# ---- the library

_WORD, _SIZE, _BOOL = ctypes.c_uint32, ctypes.c_size_t, ctypes.c_bool
_BYTES, _ROOM = ctypes.c_char_p, ctypes.c_void_p


class CWorld(ctypes.Structure):
    _fields_ = [("held", _WORD), ("at", ctypes.c_void_p)]


class CModule(ctypes.Structure):
    _fields_ = [("held", _WORD), ("at", ctypes.c_void_p)]


_EVENT, _VERDICT, _REGISTERS, _REGION, _ARGUMENTS = (_WORD * count for count in (12, 8, 33, 2, 8))
_OF_WORLD, _OF_MODULE = ctypes.POINTER(CWorld), ctypes.POINTER(CModule)
_CALLS = {
    "load": (_WORD, [_BYTES, _SIZE, _OF_WORLD, _ROOM]),
    "module_new": (_WORD, [_BYTES, _SIZE, _OF_MODULE, _ROOM]),
    "module_free": (None, [_OF_MODULE]),
    "instance": (_BOOL, [_OF_MODULE, _OF_WORLD]),
    "add": (_WORD, [_OF_WORLD, _OF_MODULE, _ROOM]),
    "remove": (_WORD, [_OF_WORLD, _WORD]),
    "free": (None, [_OF_WORLD]),
    "count": (_SIZE, [_OF_WORLD]),
    "turn": (_WORD, [_OF_WORLD, _WORD, _WORD, _ROOM]),
    "until": (_WORD, [_OF_WORLD, _WORD, _ROOM, _SIZE, _WORD, _ROOM]),
    "event": (_WORD, [_OF_WORLD, _WORD, _ROOM]),
    "reply": (_BOOL, [_OF_WORLD, _WORD, _WORD, _WORD]),
    "exit": (_BOOL, [_OF_WORLD, _WORD, _WORD]),
    "stop": (_BOOL, [_OF_WORLD, _WORD]),
    "reset": (_BOOL, [_OF_WORLD, _WORD]),
    "read": (_BOOL, [_OF_WORLD, _WORD, _WORD, _SIZE, _ROOM, _SIZE]),
    "write": (_BOOL, [_OF_WORLD, _WORD, _WORD, _BYTES, _SIZE]),
    "enter": (_BOOL, [_OF_WORLD, _WORD, _WORD, _ROOM]),
    "call": (_BOOL, [_OF_WORLD, _WORD, _WORD, _ROOM, _WORD, _ROOM]),
    "call_back": (_BOOL, [_OF_WORLD, _WORD, _WORD, _ROOM, _ROOM]),
    "steps": (ctypes.c_uint64, [_OF_WORLD, _WORD]),
    "registers": (_BOOL, [_OF_WORLD, _WORD, _ROOM]),
    "set_registers": (_BOOL, [_OF_WORLD, _WORD, _ROOM]),
    "data": (_BOOL, [_OF_WORLD, _WORD, _ROOM]),
    "version": (_WORD, []),
}


def header_version():
    """SFI_RUN_VERSION of the header, as sfi_run_version tells it."""
    with open(HEADER, encoding="utf-8") as file:
        numbers = re.search(r'SFI_RUN_VERSION "(\d+)\.(\d+)\.(\d+)"', file.read()).groups()
    major, minor, patch = map(int, numbers)
    return major << 16 | minor << 8 | patch


class Calls:
    """The calls of a shared library, by their names without sfi_run_. AttributeError where one isn't there."""

    def __init__(self, path):
        handle = ctypes.CDLL(path)
        for name, (result, arguments) in _CALLS.items():
            call = getattr(handle, f"sfi_run_{name}")
            call.restype, call.argtypes = result, arguments
            setattr(self, name, call)


class Module:
    """A module of the library, freed with it. ValueError where the image isn't accepted."""

    def __init__(self, calls, data):
        self.calls, self.raw = calls, CModule()
        if calls.module_new(data, len(data), self.raw, _VERDICT()):
            raise ValueError("the image isn't accepted")

    def __del__(self):
        self.calls.module_free(self.raw)


class Library:
    """A world of the library, by the methods of Model. What a call may not write is looked at, too."""

    def __init__(self, calls):
        self.calls, self.world = calls, CWorld()

    def load(self, data):
        verdict = _VERDICT(*[FILL] * 8)
        return self.calls.load(data, len(data), self.world, verdict), tuple(verdict)

    def module(self, data):
        return Module(self.calls, data)

    def instance(self, module):
        return self.calls.instance(module.raw, self.world)

    def add(self, module):
        first = _WORD(FILL)
        return self.calls.add(self.world, module.raw, ctypes.byref(first)), first.value

    def remove(self, number):
        return self.calls.remove(self.world, number)

    def free(self):
        self.calls.free(self.world)

    def move(self):
        old, self.world = self.world, CWorld(self.world.held, self.world.at)
        ctypes.memset(ctypes.byref(old), FILL, ctypes.sizeof(old))

    def count(self):
        return self.calls.count(self.world)

    def told(self, call, *arguments):
        event = _EVENT(*[FILL] * 12)
        kind = call(self.world, *arguments, event)
        return Event(*event) if kind == event[0] else (kind, tuple(event))

    def event(self, number):
        return self.told(self.calls.event, number)

    def turn(self, number, steps):
        return self.told(self.calls.turn, number, steps)

    def until(self, number, stops, steps):
        return self.told(self.calls.until, number, (_WORD * len(stops))(*stops), len(stops), steps)

    def reply(self, number, a0, a1):
        return self.calls.reply(self.world, number, a0, a1)

    def exit(self, number, code):
        return self.calls.exit(self.world, number, code)

    def stop(self, number):
        return self.calls.stop(self.world, number)

    def reset(self, number):
        return self.calls.reset(self.world, number)

    def read(self, number, at, length, room):
        buffer = ctypes.create_string_buffer(bytes([FILL]) * room, room + 1)
        is_done = self.calls.read(self.world, number, at, length, buffer, room)
        return is_done, buffer.raw[:room]

    def write(self, number, at, given):
        return self.calls.write(self.world, number, at, given, len(given))

    def enter(self, number, pc, arguments):
        return self.calls.enter(self.world, number, pc, _ARGUMENTS(*arguments))

    def call(self, number, pc, arguments, steps):
        event = _EVENT(*[FILL] * 12)
        return self.calls.call(self.world, number, pc, _ARGUMENTS(*arguments), steps, event), Event(*event)

    def call_back(self, number, pc, arguments):
        kept = _REGISTERS(*[FILL] * 33)
        return self.calls.call_back(self.world, number, pc, _ARGUMENTS(*arguments), kept), list(kept)

    def set_registers(self, number, registers):
        return self.calls.set_registers(self.world, number, _REGISTERS(*registers))

    def steps(self, number):
        return self.calls.steps(self.world, number)

    def written(self, call, kind, number):
        """What the call writes to an array of that kind; None where it says that there is nothing, and writes nothing."""
        array = kind(*[FILL] * kind._length_)
        is_there = call(self.world, number, array)
        return list(array) if is_there or set(array) != {FILL} else None

    def registers(self, number):
        return self.written(self.calls.registers, _REGISTERS, number)

    def region(self, number):
        found = self.written(self.calls.data, _REGION, number)
        return found and tuple(found)


def linked(library, folder):
    """The path of a shared library: that one, or one made of a static library of rt's."""
    if not library.endswith(".a"):
        return os.path.abspath(library)
    subprocess.run([os.path.join(TOP, "tools", "libraries.py"), "sfi_run", os.path.abspath(library), folder], check=True, stdout=subprocess.DEVNULL)
    return os.path.join(folder, "libsfi_run.so")
