"""What this package raises, and how a sandbox stands."""
from __future__ import annotations

import enum
from dataclasses import dataclass, field
from typing import TYPE_CHECKING, Any, Union

if TYPE_CHECKING:
    from . import Sandbox


@dataclass(frozen=True)
class Finding:
    """A rule that is broken, 1 for V1 and so on, and where: the sandbox, and the address of the instruction's first byte,
    or of the bytes that are none; for V9 that of the gate."""
    sandbox: int
    address: int
    rule: int


class Refused(Exception):
    """An image in which rules are broken `findings` times, the `first` time there: `sfi check --report` tells all."""

    def __init__(self, findings: int, first: Finding) -> None:
        super().__init__(findings, first)
        self.findings, self.first = findings, first

    def __str__(self) -> str:
        first = self.first
        place = f"first=V{first.rule} sandbox={first.sandbox} at={first.address:08x}"
        return f"rules are broken in the image: findings={self.findings} {place}"


class NoImage(Exception):
    """Bytes that are no image, by the layout's `fault` of that number, 1 to 11, as `sfi check` names it."""

    def __init__(self, fault: int) -> None:
        super().__init__(fault)
        self.fault = fault

    def __str__(self) -> str:
        from sfi_check import FAULTS  # here, since few programs print it
        return f"the bytes are no image: layout fault {self.fault} {FAULTS[self.fault]}"


class OutsideData(Exception):
    """An address that isn't one of the sandbox's data."""


class NotWaiting(Exception):
    """A reply to a sandbox that stands at no call, or no longer at the call that is replied to."""


class NotEntered(Exception):
    """An entry into a sandbox that hasn't stopped, or at an address where no bundle or word of its code begins; or registers that
    it mustn't hold."""


class Ended(enum.Enum):
    """Why a call of a function is over without a result."""
    NO_FUNCTION = "no bundle or word of the sandbox's code begins there"
    BUSY = "the sandbox is in the midst of a run, which `turn` and `events` go on with, and `stop` ends"
    TRAPPED = "it trapped"
    STEPS_USED = "its steps are used (what may take more steps is begun by `enter`, and goes on by `events`)"
    REFUSED = "it calls a gate, and no handler replied"
    STOPPED = "a handler stopped the sandbox"
    GONE = "a handler reset, entered or removed the sandbox, or set its registers"
    TIMED_OUT = "its time is over"
    INTERRUPTED = "it is interrupted"


class NotReturned(Exception):
    """A call of a function that is over without a result, for its `cause`. The `event` is how the sandbox stood when it ended;
    where it is removed, None."""

    def __init__(self, cause: Ended, event: Event | None, text: str) -> None:
        super().__init__(cause, event, text)
        self.cause, self.event, self.text = cause, event, text

    def __str__(self) -> str:
        return self.text


class NotRunning(Exception):
    """A sandbox that is to be stopped, and has stopped already."""


class WrongArguments(TypeError):
    """Arguments that a function's signature doesn't take, by their count, type or range. Nothing has run."""

    def __init__(self, name: str, signature: str, given: tuple[Any, ...], why: str) -> None:
        super().__init__(name, signature, given, why)
        self.name, self.signature, self.given, self.why = name, signature, given, why

    def __str__(self) -> str:
        return f"{self.name}{self.signature}: {self.why}"


class TooLong(ValueError):
    """Texts and bytes that a call would take to the sandbox, `size` bytes of its stack, where there is room for `room`. Nothing has
    run."""

    def __init__(self, name: str, size: int, room: int) -> None:
        super().__init__(name, size, room)
        self.name, self.size, self.room = name, size, room

    def __str__(self) -> str:
        return f"{self.name}: texts and bytes take {self.size} bytes of the sandbox's stack, and may take {self.room}"


class WrongSignature(Exception):
    """An image that claims another signature for a name than its host states."""

    def __init__(self, name: str, stated: str, claimed: str) -> None:
        super().__init__(name, stated, claimed)
        self.name, self.stated, self.claimed = name, stated, claimed

    def __str__(self) -> str:
        return f"{self.name}: the host states {self.stated}, and the image claims {self.claimed}"


class Meets(Exception):
    """Sandboxes that are to be added to a world, where one would lie on an address that one of the world's takes up."""


class Cause(enum.Enum):
    """Why a sandbox trapped. Accepted code never meets the first two."""
    FETCH = 1
    ILLEGAL = 2
    BREAK = 3
    LOAD = 4
    STORE = 5


@dataclass(frozen=True)
class Ready:
    """The sandbox can take a turn, and doesn't stand at a call."""


@dataclass(frozen=True)
class Call:
    """The sandbox stands at a call of a gate, and waits for a reply. The service is the gate's; the gate is its place
    among the sandbox's gates, 0 to 63, and pc is its address."""
    service: int
    a0: int
    a1: int
    a2: int
    a3: int
    a4: int
    a5: int
    a6: int
    a7: int
    gate: int
    pc: int
    sandbox: Sandbox = field(repr=False, compare=False)
    _turns: int = field(repr=False, compare=False, default=-1)

    def reply(self, a0: int, a1: int | None = None) -> None:
        """Has the sandbox go on after the call in its next turn, with these in a0 and a1. Without an a1 that of the call
        stays. Raises ValueError where one isn't from 0 to 2^32 - 1: -1 is 0xFFFFFFFF here, and what is computed of what the
        sandbox passed wants `& 0xFFFFFFFF`; and NotWaiting where the sandbox no longer stands at this call."""
        self._now().reply(a0, self.a1 if a1 is None else a1)

    def exit(self, number: int) -> None:
        """Has the sandbox stop at the call, with that number. Raises as `reply` does."""
        self._now().exit(number)

    @property
    def is_waiting(self) -> bool:
        """Whether the sandbox still stands at this call: it has gone on where it was replied to, stopped or entered since."""
        return self.sandbox._seat.gone_on == self._turns

    def _now(self) -> Sandbox:
        """The sandbox, if it still stands at this call."""
        sandbox = self.sandbox
        if sandbox._seat.gone_on != self._turns:
            raise NotWaiting(f"sandbox {sandbox.number} no longer stands at this call")
        return sandbox


@dataclass(frozen=True)
class Exited:
    """The sandbox has stopped, by `exit`."""
    number: int


@dataclass(frozen=True)
class Trapped:
    """The sandbox has stopped, at an instruction that trapped. The address is that of the access, or else the pc."""
    cause: Cause
    address: int


@dataclass(frozen=True)
class Stopped:
    """The sandbox has stopped, by `stop`."""


Event = Union[Ready, Call, Exited, Trapped, Stopped]


@dataclass(frozen=True)
class Registers:
    """pc, and the registers x0 to x31."""
    pc: int
    x: tuple[int, ...]


@dataclass(frozen=True)
class Region:
    """The addresses of a sandbox's data."""
    base: int
    size: int
