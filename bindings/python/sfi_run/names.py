"""A plug-in whose functions are called by their names, and calls the host's by theirs, as `sfi-cc --export` and `--import`
name them:

    from sfi_run.names import Plugin

    with Plugin(image, log=lambda text: print(text)) as plugin:
        print(plugin.add(2, 3))

Where the image claims a signature of a function, it takes and gives values, as `sfi_run.signatures` has them; else words. Names and
signatures are what the image says of itself, and may be any: a call of one that can't be entered raises NotReturned. Where the
plug-in is a stranger's, state the signatures: `signatures=` of Plugin.
"""
from __future__ import annotations

import ctypes
import functools
import operator
from collections.abc import Callable, Iterator, Mapping
from dataclasses import dataclass, field
from types import TracebackType
from typing import Any

from . import Call, Library, World, _functions, _library, _limits, _passing, snapshots
from .signatures import Signature, claimed, parsed
from .told import WrongSignature

# Gets the values of its import's signature, and answers that of its result; without one it gets the Call, and answers an int, a pair
# of them, or None.
Handler = Callable[..., Any]

WHY = {1: "the bytes are no image", 2: "there is no such sandbox", 3: "there is no table of names", 4: "the table of names is broken",
       5: "the table doesn't have the name"}


MOST_ENTRIES = 512  # of the exports, or the imports, in which signatures are looked for: in more it would take long
STACK, ABOVE = ".stack", ".room"  # the claims of how many bytes the stack has, and of how many lie above it


class NoName(LookupError):
    """A name for which there is no address. `why` is the number by which sfi_run.h tells the reason."""

    def __init__(self, name: str, why: int) -> None:
        super().__init__(f"{name}: {WHY.get(why, why)}")
        self.why = why


def _number(call: str, image: bytes, sandbox: int, name: str | None, library: Library | None) -> int:
    found = ctypes.c_uint32()
    named = () if name is None else (name.encode(), len(name.encode()))
    why = (library or _library.default())[call](image, len(image), sandbox, *named, ctypes.byref(found))
    if why:
        raise NoName(name or "the version", why)
    return found.value


def export(image: bytes, name: str, sandbox: int = 0, library: Library | None = None) -> int:
    """The address of a function to call, or of an object of the data. Raises NoName where there is none."""
    return _number("export", image, sandbox, name, library)


def imported(image: bytes, name: str, sandbox: int = 0, library: Library | None = None) -> int:
    """The address of a gate, at which pc is when it is called. Raises NoName where there is none."""
    return _number("import", image, sandbox, name, library)


def api(image: bytes, sandbox: int = 0, library: Library | None = None) -> int:
    """The version of the host's interface for which the code is made. Raises NoName where there is no table."""
    return _number("api", image, sandbox, None, library)


@dataclass
class Claims:
    """What a sandbox's table claims: the signatures of exports and of imports, by their names, and its stack."""
    exports: dict[str, Signature] = field(default_factory=dict)
    imports: dict[str, Signature] = field(default_factory=dict)
    stack: _passing.Stack = _passing.Stack()

    def stated(self, signatures: Mapping[str, str]) -> Claims:
        """Those that the host states, in place of these. Raises ValueError where one is none, and WrongSignature."""
        stated: dict[str, Signature] = {}
        for name, text in signatures.items():
            signature = parsed(text) if isinstance(text, str) else None
            if signature is None:
                raise ValueError(f"{name}: {text!r} is no signature of at most eight words")
            for claims in (self.exports, self.imports):
                if claims.get(name, signature) != signature:
                    raise WrongSignature(name, text, str(claims[name]))
            stated[name] = signature
        return Claims(stated, stated, self.stack)


def claims(image: bytes, sandbox: int = 0, library: Library | None = None) -> Claims:
    """What the table of a sandbox claims: nothing where it has none, and no signatures of more than 512 exports or imports with their
    claims."""
    calls = library or _library.default()
    exports, imports = (_signatures(_entries(calls[call], image, sandbox)) for call in ("export_at", "import_at"))
    size, above = (_claimed_number(image, name, sandbox, library) for name in (STACK, ABOVE))
    return Claims(exports, imports, _passing.Stack(size, above or 0))


def _claimed_number(image: bytes, name: str, sandbox: int, library: Library | None) -> int | None:
    try:
        return imported(image, name, sandbox, library)
    except NoName:
        return None


def _entries(call: Callable[..., int], image: bytes, sandbox: int) -> Iterator[tuple[str, int]]:
    """The names and numbers of the exports or the imports, if they aren't too many."""
    name, size, number = ctypes.create_string_buffer(255), ctypes.c_uint32(), ctypes.c_uint32()

    def has(index: int) -> bool:
        return call(image, len(image), sandbox, index, name, ctypes.byref(size), ctypes.byref(number)) == 0
    count = 0 if has(MOST_ENTRIES) else MOST_ENTRIES
    for index in range(count):
        if not has(index):
            return
        yield name.raw[: size.value].decode("ascii"), number.value


def _signatures(entries: Iterator[tuple[str, int]]) -> dict[str, Signature]:
    """Those that are claimed of names that are there: the first of each name."""
    names, found = set(), {}
    for entry, number in entries:
        claim = claimed(entry)
        if claim and number == 0:
            found.setdefault(*claim)
        names.add(entry)
    return {name: signature for name, signature in found.items() if name in names}


@dataclass(frozen=True)
class _ByCall:
    """A handler that gets the Call."""
    handler: Callable[[Call], Any]


def by_call(handler: Callable[[Call], Any]) -> Any:
    """The handler, which gets the Call where its import has a signature, too, and answers as without one."""
    return _ByCall(handler)


def _words(answer: Any) -> tuple[int, ...]:
    """What a handler answered, as what `Call.reply` takes: of each number the lowest 32 bits."""
    if isinstance(answer, int):
        return (answer & 0xFFFFFFFF,)
    given = (0,) if answer is None else answer if isinstance(answer, tuple) and len(answer) == 2 else (answer,)
    try:
        return tuple(operator.index(number) & 0xFFFFFFFF for number in given)
    except TypeError:
        raise TypeError(f"a handler answers an int, two of them, or None, and not {answer!r}") from None


def _served(handler: Callable[[Call], Any], call: Call, _: _passing.Allowance) -> None:
    """Replies to a call as its handler answers, unless that has replied itself."""
    answer = handler(call)
    if call.is_waiting:
        call.reply(*_words(answer))


class Plugin:
    """A sandbox of an image of its own. Its exports are its methods, but for those that are named as what stands here: `call`
    takes any name. Threads may share it: a call waits until that of another thread is over (`World` says what handlers owe).

    An export that has a signature takes its values, and gives that of its result: `plugin.greet("you")`. Arguments of another
    count, type or range raise WrongArguments, and texts and bytes that don't fit TooLong: both before anything runs. Texts and bytes
    are copied onto the sandbox's stack, where they stay as long as the call, and may take half of what is left of it, or 1024 bytes
    where the image doesn't say how much it has. What the sandbox leaves in a bytearray is copied back when it returns. A text that it
    gives is read up to its byte 0; OutsideData tells that it doesn't lie in its data. An export without a signature takes and gives
    words."""

    def __init__(self, image: bytes, *, number: int = 0, steps: int = 1_000_000, library: Library | None = None,
                 signatures: Mapping[str, str] | None = None, timeout: float | None = None,
                 interrupt: _limits.Interrupt | None = None, **handlers: Handler) -> None:
        """Loads the image, and runs the sandbox of that number through its start, which has to exit. A handler gets each call of
        the gate of its name. Where that has a signature, it gets the values, and answers the result's: for a text an address of the
        sandbox's. A call with a text or bytes that don't lie in the sandbox's data is refused. Without a signature, and in
        `by_call`, it gets the Call, and answers its result: of an int the lowest 32 bits, 64 bits as the pair (low, high), 0 as
        None, or nothing that counts, once it has replied by `call.reply`. Those whose name the image doesn't import are never
        called. `signatures` states what exports and imports take and give, as {"add": "(ii)i"}. Without it, the image chooses of
        which types a handler's values are, and what a call gives; with it, also {}, no claim holds, and names that it hasn't go by
        words. A call has at most `steps` steps, and its handlers get at most 16 bytes of texts, `b` and `w` for each: more are
        refused. It has at most `timeout` seconds, and ends once `interrupt` is set, as `Sandbox.call` has them; so do later calls
        then, until that is cleared. `plugin.steps`, `timeout` and `interrupt` can be changed between calls. Raises what World does, NotReturned, and WrongSignature where the image claims another signature than that which
        is stated."""
        image = bytes(memoryview(image))
        self.steps, self.timeout, self.interrupt = steps, timeout, interrupt
        self._begin(image, library, World(image, library), number, signatures, handlers)
        self._start()

    def _begin(self, image: bytes, library: Library | None, world: World, number: int, signatures: Mapping[str, str] | None,
               handlers: dict[str, Handler], found: Claims | None = None) -> None:
        """In that world, which is closed where it can't be. `found` are the sandbox's claims, if they are known."""
        self.image, self._library, self.world = image, library, world
        try:
            self.sandbox = world[number]
            of_image = found or claims(image, number, library)
            self._claims = of_image if signatures is None else of_image.stated(signatures)
            self._handle(number, handlers)
        except BaseException:
            world.close()
            raise

    def _start(self) -> None:
        """Runs the sandbox through its start. The world is closed where it doesn't exit."""
        try:
            with self.world._lock:
                _functions.Run(self.sandbox, self._limit()).finish(self.steps, self._serving())
        except BaseException:
            self.world.close()
            raise

    @classmethod
    def restore(cls, image: bytes, snapshot: bytes, *, number: int = 0, steps: int = 1_000_000, library: Library | None = None,
                signatures: Mapping[str, str] | None = None, timeout: float | None = None,
                interrupt: _limits.Interrupt | None = None, **handlers: Handler) -> Plugin:
        """A plug-in of that image as it was when `snapshot` was taken, whose start isn't run again. Raises what `snapshots.restore`
        does, and WrongSignature."""
        image, made = bytes(memoryview(image)), cls.__new__(cls)
        made.steps, made.timeout, made.interrupt = steps, timeout, interrupt
        made._begin(image, library, snapshots.restore(image, snapshot, library), number, signatures, handlers)
        return made

    def snapshot(self) -> bytes:
        """The plug-in as bytes: `snapshots.take`."""
        return snapshots.take(self.world, self.image)

    def _handle(self, number: int, handlers: dict[str, Handler]) -> None:
        self._handlers: dict[int, Callable[[Call, _passing.Allowance], None]] = {}
        for name, handler in handlers.items():
            signature = self._claims.imports.get(name)
            if isinstance(handler, _ByCall):
                handler, signature = handler.handler, None
            if not callable(handler):
                raise TypeError(f"the handler {name} is no function: {handler!r}")
            serve = functools.partial(_passing.served, name, signature, handler) if signature else functools.partial(_served, handler)
            try:
                self._handlers[imported(self.image, name, number, self._library)] = serve
            except NoName as missing:
                if missing.why != 5:
                    raise

    def _limit(self) -> _limits.Limit:
        """That of a call which begins now."""
        return _limits.Limit(self.timeout, self.interrupt)

    def _serving(self) -> Callable[[Call], None]:
        """What serves the calls of one run."""
        allowance = _passing.Allowance(self.steps)

        def serve(call: Call) -> None:
            handler = self._handlers.get(call.pc)
            if handler:
                handler(call, allowance)
        return serve

    @property
    def signatures(self) -> dict[str, str]:
        """Those that hold, by the names of exports and imports: what the host states, or what the image claims where it states none.
        A name that isn't there has none, and is called in words."""
        return {name: str(signature) for name, signature in {**self._claims.imports, **self._claims.exports}.items()}

    def address(self, name: str) -> int:
        """That of an export. Raises NoName."""
        return export(self.image, name, self.sandbox.number, self._library)

    def call(self, name: str, *arguments: Any) -> Any:
        """Calls an export: its result. By its signature, if it has one, and else as `call_words`. Raises NoName, and what
        `Sandbox.call` does."""
        return self._function(name)(*arguments)

    def call_words(self, name: str, *arguments: int) -> int:
        """Calls an export, also one that has a signature, with at most eight words, from -2^31 to 2^32 - 1: the word of its result.
        Raises likewise."""
        return self._called(self.address(name), *arguments)

    def call64(self, name: str, *arguments: int) -> int:
        """The same, with a result of 64 bits: `Sandbox.call64` says of which functions."""
        return self.sandbox.call64(self.address(name), *arguments, steps=self.steps, serve=self._serving(), timeout=self.timeout,
                                   interrupt=self.interrupt)

    def _called(self, address: int, *arguments: int) -> int:
        return self.sandbox.call(address, *arguments, steps=self.steps, serve=self._serving(), timeout=self.timeout,
                                 interrupt=self.interrupt)

    def _called_by(self, address: int, name: str, signature: Signature, *arguments: Any) -> Any:
        return _passing.called(self.sandbox, address, name, signature, arguments, self._claims.stack, self.steps, self._serving(),
                               self._limit())

    def _function(self, name: str) -> Callable[..., Any]:
        address, signature = self.address(name), self._claims.exports.get(name)
        if signature is None:
            return functools.partial(self._called, address)
        return functools.partial(self._called_by, address, name, signature)

    def __getattr__(self, name: str) -> Any:
        if name.startswith("_"):
            raise AttributeError(name)
        try:
            return self._function(name)
        except NoName as missing:
            raise AttributeError(str(missing)) from missing

    def close(self) -> None:
        """Frees the world."""
        self.world.close()

    def __enter__(self) -> Plugin:
        return self

    def __exit__(self, kind: type[BaseException] | None, value: BaseException | None, trace: TracebackType | None) -> None:
        self.close()
