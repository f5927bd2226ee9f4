"""Flame graphs of a run: how many steps each function takes, by the calls that led to it; as a picture, and as a file for speedscope
(https://www.speedscope.app/file-format-schema.json)."""
import json
import re
import zlib
from collections import Counter
from dataclasses import dataclass, field
from typing import Any, Iterator, Optional

from sfi_run import Trapped
from suygapid.pictures import svg
from suygapid.trace.programs import Program
from suygapid.trace.tracing import Watch

JUMP = re.compile(r"^(jalr?) x(\d+), ")
WIDTH, ROW, TOP = 1200.0, 18.0, 44.0
SCHEMA = "https://www.speedscope.app/file-format-schema.json"
Path = tuple[str, ...]  # functions, each called by the one before
DEEPEST = 200  # functions of a path: the last one has the steps of what it calls, too; a jump goes back over as many calls
MOST_OPEN = 1 << 17  # calls, more than the longest stack has room for


@dataclass
class Frame:
    """A function that was called, and the address at which its caller goes on."""
    function: str
    returns: Optional[int]


@dataclass
class Stack:
    """The calls of a sandbox that are open, as its jumps tell them."""
    program: Program
    frames: list[Frame] = field(default_factory=list)
    last: Optional[int] = None  # the pc before
    path: Path = ()

    def move(self, pc: int) -> Path:
        """The functions that are open at the next pc."""
        last, self.last = self.last, pc
        if last is None:
            self.frames = [Frame(self.program.place(pc).function, None)]
        else:
            word, said = self.program.listing.get(last, ("", ""))
            after = last + len(word) // 2
            if pc == after and pc not in self.program.starts:
                return self.path
            self._jump(JUMP.match(said), after, pc)
        self.path = tuple(it.function for it in self.frames[:DEEPEST])
        return self.path

    def _jump(self, jump: Optional[re.Match[str]], after: int, pc: int) -> None:
        function = self.program.place(pc).function
        if jump and jump[2] != "0":
            del self.frames[MOST_OPEN:]
            self.frames.append(Frame(function, after))
            return
        if jump and jump[1] == "jalr":
            self._return(pc)
        if self.frames[-1].function != function:
            self._other(function, pc)

    def _last(self) -> range:
        """The last calls, by their places among the frames."""
        return range(max(1, len(self.frames) - DEEPEST), len(self.frames))

    def _return(self, pc: int) -> None:
        """To the innermost call after which it goes on there, if it is a return."""
        for k in reversed(self._last()):
            if self.frames[k].returns == pc:
                del self.frames[k:]
                return

    def _other(self, function: str, pc: int) -> None:
        """To another function without a call: a last call in the place of a return, or into the midst of one that is open (longjmp)."""
        opened = [k for k in (0, *self._last()) if self.frames[k].function == function]
        if opened and pc not in self.program.starts:
            del self.frames[opened[-1] + 1 :]
        else:
            self.frames[-1] = Frame(function, self.frames[-1].returns)


class Flame(Watch):
    """Counts the steps of each path of calls, of each sandbox."""

    def __init__(self, program: Program) -> None:
        self.program = program
        self.counts: dict[int, Counter[Path]] = {}
        self.stacks: dict[int, Stack] = {}

    def before(self, sandbox: Any, pc: int) -> None:
        stack = self.stacks.setdefault(sandbox.number, Stack(self.program))
        self.counts.setdefault(sandbox.number, Counter())[stack.move(pc)] += 1

    def after(self, sandbox: Any, pc: int, event: object) -> None:
        if isinstance(event, Trapped):
            self.counts[sandbox.number][self.stacks[sandbox.number].path] -= 1  # a trap is no step

    def paths(self) -> Iterator[tuple[int, Path, int]]:
        """Each sandbox's paths, with their steps."""
        for number, counts in sorted(self.counts.items()):
            yield from ((number, path, count) for path, count in sorted(counts.items()) if count)


# ---- a file for speedscope


def speedscope(flame: Flame, name: str) -> str:
    frames: dict[str, int] = {}
    profiles: dict[int, dict[str, Any]] = {}
    for number, path, count in flame.paths():
        own = profiles.setdefault(number, {"type": "sampled", "name": f"sandbox {number}", "unit": "none", "startValue": 0, "endValue": 0,
                                           "samples": [], "weights": []})
        own["samples"].append([frames.setdefault(it, len(frames)) for it in path])
        own["weights"].append(count)
        own["endValue"] += count
    return json.dumps({"$schema": SCHEMA, "exporter": "sfi-trace", "name": name, "shared": {"frames": list(map(flame.program.told, frames))},
                       "profiles": list(profiles.values())}) + "\n"


# ---- a picture


@dataclass
class Node:
    """A function with its caller, and its own steps and those of what it calls."""
    steps: int = 0
    own: int = 0
    called: dict[str, "Node"] = field(default_factory=dict)

    def depth(self) -> int:
        return 1 + max((it.depth() for it in self.called.values()), default=0)


def tree(flame: Flame) -> Node:
    """All steps; where there are several sandboxes, below each one's own."""
    root, several = Node(), len(flame.counts) > 1
    for number, path, count in flame.paths():
        node = root
        node.steps += count
        for name in ([f"sandbox {number}"] if several else []) + list(path):
            node = node.called.setdefault(name, Node())
            node.steps += count
        node.own += count
    return root


def colour(name: str) -> str:
    """Warm, and the same of a name in each picture."""
    number = zlib.crc32(name.encode())
    return f"hsl({10 + number % 45} {70 + number // 64 % 20}% {68 + number // 4096 % 14}%)"


def draw(parent: svg.Element, name: str, node: Node, x: float, y: float, scale: float, whole: int) -> None:
    """A function, and above it what it calls."""
    share = f"{100 * node.steps / whole:.2f}%"
    own = "" if node.own == node.steps else f", {node.own} its own"
    svg.box(parent, x, y, node.steps * scale, ROW - 1, colour(name), f"{name}: {node.steps} steps{own}, {share}", name)
    for called, below in sorted(node.called.items()):
        draw(parent, called, below, x, y - ROW, scale, whole)
        x += below.steps * scale


def picture(flame: Flame, name: str) -> str:
    root = tree(flame)
    depth = root.depth() - 1
    made = svg.picture(WIDTH, TOP + ROW * depth + 10, f"flame graph of {name}")
    svg.text(made, 10.0, 16.0, f"{name}: {root.steps:,} steps", "title")
    svg.text(made, 10.0, 33.0, "wide is many steps; above a function is what it calls; the pointer tells the numbers", "soft")
    x, scale = 10.0, (WIDTH - 20) / max(root.steps, 1)
    for called, node in sorted(root.called.items()):
        draw(made, called, node, x, TOP + ROW * (depth - 1), scale, root.steps)
        x += node.steps * scale
    return svg.written(made)


def write(flame: Flame, name: str, target: str) -> None:
    """Both files, of the name and an ending."""
    for ending, made in ((".svg", picture(flame, name)), (".speedscope.json", speedscope(flame, name))):
        with open(target + ending, "w", encoding="utf-8") as file:
            file.write(made)
