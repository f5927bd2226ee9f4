"""Snapshots: the sandboxes of a world as bytes, and a world again that goes on as that would have:

    from sfi_run import snapshots

    kept = snapshots.take(world, image)
    again = snapshots.restore(image, kept)

A snapshot has the data, registers and steps of each sandbox, and how it stands; what a `Console` keeps isn't in it. A restored world
is made by the calls that every host has: so whatever the bytes are, each sandbox stays in its own data. Who can write a snapshot
decides what its sandboxes' data are and where their code goes on, and no more.

The bytes, which sfi_run_snapshot.h makes, too, and in which numbers are little-endian, of 32 bits but for the steps:

    SNAP, the version 1, the image's SHA-256 (32 bytes), the number of sandboxes
    of each: kind (as sfi_run.h has it: 1 ready, 2 at a call, 3 exited, 5 stopped), the number of its exit or 0, pc, x0 to x31, steps
             (64 bits), the base and size of its data, the data
    the CRC-32 of all before
"""
from __future__ import annotations

import hashlib
import struct
import zlib
from dataclasses import dataclass
from typing import TYPE_CHECKING, Union

from . import Library, Sandbox, World, _bytes, _library
from .told import Call, Event, Exited, Ready, Registers, Region, Stopped, Trapped

if TYPE_CHECKING:
    from .modules import Module

MAGIC, VERSION = b"SNAP", 1
HEAD = struct.Struct("<4sI32sI")
SANDBOX = struct.Struct("<II33IQII")
SUM = struct.Struct("<I")
KINDS: dict[type, int] = {Ready: 1, Call: 2, Exited: 3, Stopped: 5}


class NotTaken(Exception):
    """A world of which no snapshot is taken now: a sandbox has trapped, or stands within a bundle (in words: between the steps of an
    address), where no host may have it go on. It is taken after some more steps, or at the next call."""


class WrongSnapshot(ValueError):
    """Bytes that are no snapshot of that image."""


@dataclass(frozen=True)
class Taken:
    """What a snapshot has of a sandbox."""
    kind: int
    number: int
    registers: Registers
    steps: int
    region: Region
    data: bytes

    def packed(self) -> bytes:
        at = self.registers
        return SANDBOX.pack(self.kind, self.number, at.pc, *at.x, self.steps, self.region.base, self.region.size) + self.data


def take(world: World, image: bytes) -> bytes:
    """A snapshot of a world of that image, in which nothing changes. Raises NotTaken."""
    with world._lock:
        taken = [_taken(sandbox) for sandbox in world]
    head = HEAD.pack(MAGIC, VERSION, hashlib.sha256(_bytes(image)).digest(), len(taken))
    content = b"".join([head, *(it.packed() for it in taken)])
    return content + SUM.pack(zlib.crc32(content))


def _taken(sandbox: Sandbox) -> Taken:
    event, registers, region = sandbox.event, sandbox.registers, sandbox.data
    if isinstance(event, Trapped):
        raise NotTaken(f"sandbox {sandbox.number} has trapped")
    if not isinstance(event, Exited) and not _goes_on(sandbox, registers, isinstance(event, Stopped)):
        raise NotTaken(f"sandbox {sandbox.number} stands at {registers.pc:08x}, within a bundle or the steps of an address")
    number = event.number if isinstance(event, Exited) else 0
    return Taken(KINDS[type(event)], number, registers, sandbox.steps, region, sandbox.read(region.base, region.size))


def _goes_on(sandbox: Sandbox, registers: Registers, has_stopped: bool) -> bool:
    """Whether a host may have it go on with the registers that it has. Nothing changes."""
    is_set = sandbox._call("set_registers", _library.Registers(registers.pc, registers.x))
    if is_set and has_stopped:
        sandbox._call("stop")
    return bool(is_set)


def restore(image: Union[bytes, Module], snapshot: bytes, library: Library | None = None) -> World:
    """A world of the image, or of a module of it, whose sandboxes are those of the snapshot. Raises WrongSnapshot where that is of
    another image, cut or changed, and what World does."""
    own: bytes = getattr(image, "image", None) or _bytes(image)  # type: ignore[arg-type]
    taken = _parsed(own, _bytes(snapshot))
    world = image.world() if hasattr(image, "world") else World(own, library)
    try:
        if [sandbox.data for sandbox in world] != [it.region for it in taken]:
            raise WrongSnapshot("its sandboxes aren't those of the image")
        for sandbox, it in zip(world, taken):
            _put_back(sandbox, it)
    except BaseException:
        world.close()
        raise
    return world


def _parsed(image: bytes, snapshot: bytes) -> list[Taken]:
    """What a snapshot has of each sandbox. Raises WrongSnapshot."""
    if len(snapshot) < HEAD.size + SUM.size or zlib.crc32(snapshot[: -SUM.size]) != SUM.unpack(snapshot[-SUM.size :])[0]:
        raise WrongSnapshot("the bytes are no whole snapshot: their CRC-32 is another")
    magic, version, digest, count = HEAD.unpack_from(snapshot)
    if (magic, version) != (MAGIC, VERSION):
        raise WrongSnapshot("the bytes are no snapshot of this version")
    if digest != hashlib.sha256(image).digest():
        raise WrongSnapshot(f"it is a snapshot of another image, whose SHA-256 is {digest.hex()}")
    taken, at, end = [], HEAD.size, len(snapshot) - SUM.size
    for _ in range(count):
        if end - at < SANDBOX.size:
            raise WrongSnapshot("it ends before its last sandbox")
        kind, number, pc, *rest = SANDBOX.unpack_from(snapshot, at)
        at += SANDBOX.size
        steps, base, size = rest[32:]
        taken.append(Taken(kind, number, Registers(pc, tuple(rest[:32])), steps, Region(base, size), snapshot[at : at + size]))
        at += size
    if at != end:
        raise WrongSnapshot("it doesn't end after its last sandbox")
    return taken


def _put_back(sandbox: Sandbox, taken: Taken) -> None:
    """Has a new sandbox stand as that did. Raises WrongSnapshot."""
    at = taken.registers
    sandbox.write(taken.region.base, taken.data)
    if not sandbox._entered("set_registers", _library.Registers(at.pc, at.x)):
        raise WrongSnapshot(f"sandbox {sandbox.number} can't go on with its registers")
    event: Event = sandbox.event
    if taken.kind == KINDS[Exited] and isinstance(event, Call):
        event.exit(taken.number)
    elif taken.kind == KINDS[Stopped]:
        sandbox.stop()
    sandbox._seat.before = taken.steps - sandbox._call("steps")
    if KINDS.get(type(sandbox.event)) != taken.kind or sandbox.registers != at:
        raise WrongSnapshot(f"sandbox {sandbox.number} can't stand as it says")
