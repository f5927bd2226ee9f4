"""What the independent checkers say of an image: bench/checker.c of code in bundles, word_rules.py of code in words.

With a rule left out they say what a checker without it would say: the comparisons have to see that.
"""
import dataclasses
import functools
import os
import re

from suygapid import TOP
from suygapid.image import layout
from suygapid.trials import fuzzing, measure, word_rules

with open(os.path.join(TOP, "docs", "IMAGE.md"), encoding="utf-8") as file:
    IN_BUNDLES, IN_WORDS = (dict(re.findall(r"^\| (V\d+) \| `(\w+)` \|", text, re.MULTILINE))
                            for text in file.read().split("\n## Code in words\n"))


def without(rules, left):
    return {rule: name for rule, name in rules.items() if rule != left}


NAMES = {1: without(IN_BUNDLES, "V10"), 2: IN_BUNDLES, 3: IN_WORDS, 4: without(IN_WORDS, "V12")}  # by format
RULES = {layout.WORDS: word_rules.WORDS, layout.SINGLE: word_rules.SINGLE}


@dataclasses.dataclass(frozen=True)
class Verdict:
    """findings has sandbox, address and rule of each, as (0, 0x1000000, "V5")."""
    fault: int
    sandboxes: int
    bundles: int
    findings: tuple

    @property
    def status(self):
        return 2 if self.fault else 1 if self.findings else 0

    @property
    def line(self):
        if self.fault:
            return f"layout fault {self.fault} {layout.FAULTS[self.fault]}"
        if not self.findings:
            return f"accepted sandboxes={self.sandboxes} bundles={self.bundles}"
        sandbox, address, rule = self.findings[0]
        return f"refused findings={len(self.findings)} first={rule} sandbox={sandbox} at={address:08x}"


def no_image(fault):
    return Verdict(fault, 0, 0, ())


def findings_in_words(number, part, but):
    gates = [address - part.code_base for address in part.gates]
    return [(number, part.code_base + place, rule) for place, rule in word_rules.findings(part.code, gates, but, RULES[part.format])]


def finding_of_line(line):
    sandbox, address, rule = line.split()
    return int(sandbox), int(address, 16), rule


class Judge:
    """The checker in C is compiled in that folder."""

    def __init__(self, folder, but=()):
        self.checker = measure.compiled("checker.c", os.path.join(folder, "checker"))
        self.path = os.path.join(folder, "judged")
        self.but = frozenset(but)
        self.verdict, self.c_lines = (functools.lru_cache(maxsize=64)(it) for it in (self._verdict, self._c_lines))

    def _verdict(self, data):
        try:
            parts = layout.parts(data)
        except layout.Fault as fault:
            return no_image(fault.number)
        if parts[0].format in RULES:
            found = [it for n, part in enumerate(parts) for it in findings_in_words(n, part, self.but)]
        else:
            found = self.findings_in_bundles(data)
        return Verdict(0, len(parts), sum(part.code_size for part in parts) // 16, tuple(found))

    def findings_in_bundles(self, data):
        lines = self.c_lines(data)[:-1]
        return [it for it in map(finding_of_line, lines) if it[2] not in self.but]

    def _c_lines(self, data):
        """What the checker in C lists."""
        measure.written(self.path, data)
        return fuzzing.output([self.checker, "--list", self.path]).splitlines()

    def c_verdict(self, data):
        """The verdict's line by the checker in C alone, which reads the layout in a way of its own."""
        return self.c_lines(data)[-1]

    def report(self, data):
        """What the lines of `sfi check --report` begin with, of an image that is refused, and what stands there where that is
        no instruction."""
        parts = layout.parts(data)
        return [self.report_line(parts[sandbox], sandbox, *rest) for sandbox, *rest in self.verdict(data).findings]

    def report_line(self, part, sandbox, address, rule):
        place = address - part.code_base
        what = ""
        if rule in ("V1", "V2"):
            what = f".half 0x{int.from_bytes(part.code[place : place + 2], 'little'):04x}"
        elif rule == "V9":
            what = "stub expected"
        return f"{sandbox} {address:08x} {rule} {NAMES[part.format][rule]} {what}"


def is_line(begun, line):
    """Whether a line of the report is the expected one: it ends in an instruction where no other text is expected."""
    return line.startswith(begun) and len(line) > len(begun) if begun.endswith(" ") else line == begun
