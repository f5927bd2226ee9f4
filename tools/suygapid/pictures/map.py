"""A map of an image: where code, gates, data and guard zones lie, by functions and objects where their names are known, and where
rules are broken."""
import re
from dataclasses import dataclass

from suygapid.image.layout import GUARD, MAGICS, Part, parts
from suygapid.pictures import svg
from suygapid.services import SERVICES
from suygapid.trace.programs import Program

WIDTH, LEFT, HIGH, GAP = 1180.0, 10.0, 30.0, 118.0
CODE, OTHER_CODE, GATE, FILL = "#7f9fe0", "#a9c0ee", "#c9a3e2", "#dfe3ee"
DATA, OTHER_DATA, ZEROS, ZONE, BAD = "#e0b357", "#edcf92", "#f6ead0", "#d9d5ca", "#c22f2f"
FILLED, LITTLE = "filled up", 16
FOUND = re.compile(r"^(\d+) ([0-9a-f]{8}) (V\d+) (.*)$", re.MULTILINE)
VERDICT = re.compile(r"^(accepted|refused) .*$", re.MULTILINE)


@dataclass(frozen=True)
class Piece:
    """A named piece of a region: from an address up to an end."""
    begin: int
    end: int
    name: str

    def told(self) -> str:
        return f"{self.name}: {self.end - self.begin} bytes from {self.begin:08x}"


def pieces(begin: int, end: int, named: list[tuple[int, str]], first: str) -> list[Piece]:
    """A region, cut where named things begin; what is before the first has a name of its own."""
    if begin == end:
        return []
    inside = sorted({at: name for at, name in reversed(named) if begin <= at < end}.items())
    if not inside or inside[0][0] > begin:
        inside.insert(0, (begin, first))
    ends = [at for at, _ in inside[1:]] + [end]
    return [Piece(at, stop, name) for (at, name), stop in zip(inside, ends)]


def fill_of(code: bytes) -> int:
    """How many bytes at the code's end are one halfword again and again; 0 where they are few."""
    halves = [code[k : k + 2] for k in range(0, len(code), 2)]
    other = next((k for k in reversed(range(len(halves))) if halves[k] != halves[-1]), -1)
    length = len(code) - 2 * (other + 1)
    return length if length > LITTLE else 0


@dataclass(frozen=True)
class Strip:
    """A strip of the picture for the addresses from `begin` on."""
    parent: svg.Element
    begin: int
    x: float
    y: float
    scale: float

    def box(self, begin: int, end: int, fill: str, told: str, words: str = "") -> None:
        svg.box(self.parent, self.x + (begin - self.begin) * self.scale, self.y, (end - begin) * self.scale, HIGH, fill, told, words)

    def piece(self, piece: Piece, fill: str) -> None:
        self.box(piece.begin, piece.end, fill, piece.told(), piece.name)


class Map:
    """The picture of a program's image. `report` is what `sfi check --report` says of it."""

    def __init__(self, program: Program, name: str, report: str) -> None:
        self.program, self.parts = program, parts(program.image)
        self.findings = [(int(sandbox), int(at, 16), f"{rule} {said}") for sandbox, at, rule, said in FOUND.findall(report)]
        self.made = svg.picture(WIDTH + 2 * LEFT, 92 + GAP * len(self.parts), f"map of {name}")
        verdict = VERDICT.search(report)
        told = f"{name}: {len(program.image):,} bytes, format {MAGICS[self.parts[0].format].decode()}"
        svg.text(self.made, LEFT, 16.0, told, "title")
        svg.text(self.made, LEFT, 34.0, verdict[0] if verdict else report.strip(), "bad" if self.findings else "soft")
        self.overview()
        for number, part in enumerate(self.parts):
            self.sandbox(number, part, 106 + GAP * number)

    def overview(self) -> None:
        """All on one line of addresses."""
        spans = [span for part in self.parts for span in part.spans(GUARD)]
        low, high = min(begin for begin, _ in spans), max(end for _, end in spans)
        strip = Strip(self.made, low, LEFT, 46.0, WIDTH / (high - low))
        strip.box(low, high, "#ffffff", f"addresses from {low:08x} to {high:08x}")
        for number, part in enumerate(self.parts):
            code, guarded = part.spans(GUARD)
            strip.box(*code, CODE, f"code of sandbox {number}")
            strip.box(*guarded, ZONE, f"guard zones of sandbox {number}")
            strip.box(part.data_base, part.data_base + part.data_size, DATA, f"data of sandbox {number}")

    def sandbox(self, number: int, part: Part, y: float) -> None:
        """Code to the left and data to the right, both enlarged so that each has half of the width."""
        half = (WIDTH - 20) / 2
        svg.text(self.made, LEFT, y - 8, f"sandbox {number}: code {part.code_base:08x}, {part.code_size:,} bytes", "soft")
        svg.text(self.made, LEFT + half + 20, y - 8, f"data {part.data_base:08x}, {part.data_size:,} bytes, {len(part.init):,} first", "soft")
        code = Strip(self.made, part.code_base, LEFT, y, half / part.code_size)
        for k, piece in enumerate(self.functions(part)):
            code.piece(piece, GATE if piece.begin in part.gates else FILL if piece.name == FILLED else (CODE, OTHER_CODE)[k % 2])
        for sandbox, at, said in self.findings:
            if sandbox == number:
                code.box(at, at + 4, BAD, f"{at:08x} {said}")
        svg.text(self.made, LEFT, y + HIGH + 12, f"start {part.start:08x}, {len(part.gates)} gates: " + ", ".join(SERVICES[it] for it in part.gates.values()))
        self.data(part, Strip(self.made, part.data_base - GUARD, LEFT + half + 20, y, half / (part.data_size + 2 * GUARD)))

    def data(self, part: Part, strip: Strip) -> None:
        base, end, zeros = part.data_base, part.data_base + part.data_size, part.data_base + len(part.init)
        objects = [(at, name) for at, name, kind in self.program.labels if kind == "data"]
        strip.box(base - GUARD, base, ZONE, "guard zone: 4096 addresses, where each access traps", "guard")
        for k, piece in enumerate(pieces(base, zeros, objects, "first data")):
            strip.piece(piece, (DATA, OTHER_DATA)[k % 2])
        for piece in pieces(zeros, end, objects, "zeros"):
            strip.piece(piece, ZEROS)
        strip.box(end, end + GUARD, ZONE, "guard zone: 4096 addresses, where each access traps", "guard")

    def functions(self, part: Part) -> list[Piece]:
        """Of the code's region, with its gates, and what fills its end."""
        behind = [(at + 16, "code") for at in part.gates]  # where nothing has a name
        filling = [(part.code_base + len(part.code) - fill_of(part.code), FILLED)]
        gates = [(at, f"gate {SERVICES[service]}") for at, service in part.gates.items()]
        return pieces(part.code_base, part.code_base + part.code_size, [*gates, *self.program.functions, *filling, *behind], "code")


def picture(program: Program, name: str, report: str) -> str:
    return svg.written(Map(program, name, report).made)
