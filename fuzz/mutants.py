#!/usr/bin/env python3
"""Whether all commands of `sfi` agree on images that were accepted before bits, words, registers, numbers or lengths in them
changed.

    fuzz/mutants.py [--program PATH] [--rounds N] [--seconds S] [--plant RULE] [SEED ..]

Each case is an image of the examples, or a small one of random code, in one of the four formats, with changes. Every command
gets it: none may crash, and each has to end in the status that README.md has for it. The verdict has to be the one that
bench/checker.c, and tools/suygapid/trials/word_rules.py and image/layout.py give; `check`, `check --raw` and `check --report` have to agree; what
is accepted is run as bench/interpreter.c runs it, and of the first format converted to an image that is accepted, too; what
isn't is refused by `run` and `convert`, and listed where it is an image. `--plant V5` leaves rule V5 out of the expected
verdicts: then it has to fail. It wants gcc.
"""
import os
import sys
import tempfile

TOP = os.path.dirname(os.path.dirname(os.path.abspath(__file__)))
sys.dont_write_bytecode = True
sys.path.insert(0, os.path.join(TOP, "tools"))
from suygapid.image import layout
from suygapid.trials import corpus, fuzzing, measure, verdicts

NAMES = ["statuses", "check", "check --raw", "check --report", "the report", "the layout by checker.c", "dis", "run",
         "run of what is accepted", "run --report", "convert", "what is converted"]
IN_WORDS = (b"SFIW", b"SFIS")
COMMANDS = ["check", "check --report", "dis", "run", "convert"]


class Mutants:
    def __init__(self, program, folder, but, tally):
        self.program, self.builder, self.tally = program, program, tally
        self.judge = verdicts.Judge(folder, but)
        self.interpreter = measure.compiled("interpreter.c", os.path.join(folder, "interpreter"))

    def ended(self, words, given):
        return fuzzing.run([self.program, *words], given)

    def see(self, name, expected, found, data):
        self.tally.see(name, expected, found, data)

    def try_one(self, pick):
        changes = corpus.CODE_CHANGES if pick.random() < 0.6 else corpus.CHANGES
        data = corpus.accepted(pick, self.builder) if pick.random() < 0.9 else corpus.twin(pick)
        if pick.random() < 0.85:
            data = corpus.mutant(pick, data, tuple(changes))
        verdict, text = self.judge.verdict(data), data.hex().encode()
        turns = ["--rounds", str(pick.choice([1, 3])), "--quantum", str(pick.choice([1, 50, 1000]))]
        words = {name: name.split() + (turns if name == "run" else []) for name in COMMANDS}
        all_ended = {name: self.ended(words[name], text) for name in COMMANDS}
        all_ended["check --raw"] = self.ended(["check", "--raw"], data)
        self.see("statuses", {}, {name: it for name, it in all_ended.items() if it.status not in (0, 1, 2)}, data)
        self.see_checks(data, verdict, all_ended)
        self.see_listing(data, verdict, all_ended["dis"])
        self.see_run(data, verdict, turns, all_ended["run"])
        self.see_conversion(data, verdict, all_ended["convert"])

    def see_checks(self, data, verdict, all_ended):
        for name in ("check", "check --raw"):
            self.see(name, (verdict.status, [verdict.line]), tuple(all_ended[name]), data)
        report = all_ended["check --report"]
        self.see("check --report", (verdict.status, verdict.line), (report.status, report.lines[-1:][0]), data)
        if verdict.status == 1:
            expected, found = self.judge.report(data), report.lines[:-1]
            found = [begun if verdicts.is_line(begun, line) else line for begun, line in zip(expected, found)]
            self.see("the report", expected, found, data)
        if data[:4] not in IN_WORDS and not self.judge.but:
            self.see("the layout by checker.c", verdict.line, self.judge.c_verdict(data), data)

    def see_listing(self, data, verdict, ended):
        """An image is listed whether a rule is broken in it or not: a line for each instruction, and a first one. What comes after bytes
        that can't be read isn't listed to the end of its bundle."""
        if verdict.status == 2:
            self.see("dis", (2, [verdict.line]), tuple(ended), data)
            return
        format = layout.parts(data)[0].format
        front = {1: [], 2: ["format SFI2"], 3: ["format SFIW"], 4: ["format SFIS"]}[format]
        unread = sum(rule in ("V1", "V2") for *_, rule in verdict.findings)
        least = sum(part.code_size for part in layout.parts(data)) // 4 - 4 * unread
        self.see("dis", (0, front, True), (ended.status, ended.lines[: len(front)], len(ended.lines) >= least), data)

    def see_run(self, data, verdict, turns, ended):
        if verdict.status:
            self.see("run", (verdict.status, [verdict.line]), tuple(ended), data)
            return
        expected = fuzzing.run([self.interpreter, "each", turns[1], turns[3]], data)
        self.see("run of what is accepted", (0, expected.lines), tuple(ended), data)
        report = self.ended(["run", *turns, "--report"], data.hex().encode())
        self.see("run --report", (0, expected.lines), (report.status, report.lines[: len(expected.lines)]), data)

    def see_conversion(self, data, verdict, ended):
        """An image of the first format that breaks no rule of either is converted; another one has its verdict or a fault."""
        second = b"SFI2" + data[4:]
        if data[:4] == b"SFI2":
            expected = (2, ["convert fault 2 NotOld"])
        elif verdict.status:
            expected = (verdict.status, [verdict.line])
        elif data[:4] in IN_WORDS:
            expected = (2, ["convert fault 5 Words"])
        elif self.judge.verdict(second).status:
            expected = (1, [self.judge.verdict(second).line])
        else:
            expected = (0, [second.hex()])
        self.see("convert", expected, tuple(ended), data)
        if expected[0] == 0:
            again = self.ended(["check"], second.hex().encode())
            self.see("what is converted", (0, [self.judge.verdict(second).line]), tuple(again), data)


def main(words=None):
    parser = fuzzing.options(__doc__, 80)
    parser.add_argument("--plant", action="append", default=[], metavar="RULE", help="leave this rule out of what is expected")
    given = parser.parse_args(words)
    if not fuzzing.has_gcc():
        return fuzzing.all_skipped(len(NAMES), "changed images beside the independent checkers", "gcc isn't there")
    tally = fuzzing.tally_of(parser, given, NAMES)
    program = measure.program_at(given.program)
    with tempfile.TemporaryDirectory() as folder:
        mutants = Mutants(program, folder, given.plant, tally)
        for tally.case, pick in fuzzing.cases(given):
            mutants.try_one(pick)
    return tally.end()


if __name__ == "__main__":
    sys.exit(main())
