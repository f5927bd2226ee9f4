#!/usr/bin/env python3
"""Whether random commands of `sfi` on random input answer what independent rules say.

    fuzz/commands.py [--program PATH] [--rounds N] [--seconds S] [--plant RULE] [SEED ..]

Each case is an image in one of the four formats (of odd code, or an accepted one with changes), given as text of random
spelling, now and then with a wrong digit, or as its bytes, to a command with random options, or to words that are no
command. Compared are the status, the verdict with its first finding, and the report. What is expected comes from
bench/checker.c, and tools/suygapid/trials/word_rules.py and image/layout.py. `--plant V5` leaves rule V5 out of these: then it has to fail.
It wants gcc.
"""
import os
import sys
import tempfile

TOP = os.path.dirname(os.path.dirname(os.path.abspath(__file__)))
sys.dont_write_bytecode = True
sys.path.insert(0, os.path.join(TOP, "tools"))
from suygapid.trials import corpus, fuzzing, measure, verdicts

SPACES = " \t\r\n"
MAGICS = (b"SFI1", b"SFI2", b"SFIW", b"SFIS")
VERDICTS = ("check", "check --report", "check --raw")
REFUSED = ("run", "convert", "dis")
FAULTS, USAGE, BUILD = "input that isn't hexadecimal", "words that are no command", "texts that are no source"
NAMES = [*VERDICTS, *(f"{it} of what isn't accepted" for it in REFUSED), FAULTS, USAGE, BUILD]
WRONG_WORDS = [["chek"], ["check", "--rounds", "3"], ["run", "--rounds", "0"], ["run", "--rounds", "10001"], ["dis", "--raw"],
               ["run", "--quantum", "1000001"], ["run", "--quantum", "-1"], ["check", "x"], ["build", "--at", "1"], [""],
               ["build", "--at", "01000000:"], ["map", "--report"], ["map", "--raw"], ["--nothing"], ["check", "--report=1"]]
WRONG_TEXTS = [b"frob\n", b".sandbox 3\n", b"\xff\n", b".sandbox 256\naddi a0, a0, 5000\n", b".sandbox 256\nj nowhere\n",
               b".format 4\n", b".sandbox 256\n.gate nothing 9\n"]


def spelled(pick, data):
    """Hexadecimal text of these bytes, in either case and with white space between digits."""
    style = pick.randrange(3)
    text = data.hex() if style else data.hex().upper()
    if style == 1:
        text = "".join(pick.choice([it, it.upper()]) for it in text)
    for _ in range(pick.choice([0, 0, 1, 5, 40])):
        at = pick.randrange(len(text) + 1)
        text = text[:at] + pick.choice(SPACES) * pick.choice([1, 2, 100]) + text[at:]
    return text


def given_as(pick, data):
    """What a command reads of the image: now and then its bytes, if these begin as one, else such a text."""
    as_bytes = data[:4] in MAGICS and pick.random() < 0.3
    return data if as_bytes else spelled(pick, data).encode()


def misspelled(pick, data):
    """Such a text with a fault, and the line that tells of it: digits are counted without white space."""
    if pick.random() < 0.4 or not data:
        return spelled(pick, data) + "0", "input fault hex odd"
    digits = data.hex()
    at = pick.randrange(len(digits))
    wrong = pick.choice("gGzZ/:@`-x")
    return digits[:at] + wrong + digits[at + 1 :], f"input fault hex digit {at}"


def options_of(pick, command):
    if command != "run":
        return []
    given = [["--rounds", str(pick.choice([1, 2, 10000]))], ["--quantum", str(pick.choice([1, 7, 1000000]))],
             ["--input", pick.randbytes(pick.randrange(4)).hex()], ["--report"]]
    return [word for words in given if pick.random() < 0.3 for word in words]


class Commands:
    def __init__(self, program, judge, tally):
        self.program, self.judge, self.tally = program, judge, tally

    def run(self, words, given=b""):
        return fuzzing.run([self.program, *words], given)

    def try_image(self, pick, data):
        """One command on the image."""
        verdict = self.judge.verdict(data)
        choice = pick.random()
        if choice < 0.7:
            self.try_check(pick, data, verdict, pick.choice(VERDICTS))
        elif verdict.status:
            self.try_refused(pick, data, verdict, pick.choice(REFUSED))

    def try_check(self, pick, data, verdict, command):
        ended = self.run(command.split(), data if command == "check --raw" else given_as(pick, data))
        expected = [verdict.line]
        if command == "check --report" and verdict.status == 1:
            expected = self.judge.report(data) + expected
            ended = ended._replace(lines=taken_as(expected, ended.lines))
        self.tally.see(command, (verdict.status, expected), tuple(ended), data)

    def try_refused(self, pick, data, verdict, command):
        """What isn't accepted is neither run nor converted, and listed where it is an image."""
        ended = self.run([command, *options_of(pick, command)], given_as(pick, data))
        expected = (verdict.status, [verdict.line])
        if command == "convert" and data[:4] == b"SFI2":
            expected = (2, ["convert fault 2 NotOld"])
        if command == "dis" and verdict.status == 1:
            expected, ended = 0, ended.status
        self.tally.see(f"{command} of what isn't accepted", expected, ended if isinstance(ended, int) else tuple(ended), data)

    def try_fault(self, pick, data):
        text, line = misspelled(pick, data)
        command = pick.choice(["check", "check --report", "dis", "run", "convert"])
        self.tally.see(FAULTS, (2, [line]), tuple(self.run(command.split(), text.encode())), data)

    def try_words(self, pick):
        words = pick.choice(WRONG_WORDS)
        self.tally.see(USAGE, (words, 3), (words, self.run(words, b"").status))

    def try_text(self, pick):
        text = pick.choice(WRONG_TEXTS)
        command = pick.choice(["build", "map"])
        ended = self.run([command], text)
        is_fault = ended.lines and ended.lines[0].split()[1:2] == ["fault"] or text == b"\xff\n"
        self.tally.see(BUILD, (text, 2, True), (text, ended.status, bool(is_fault)))

    def try_one(self, pick):
        choice = pick.random()
        if choice < 0.04:
            self.try_words(pick)
        elif choice < 0.07:
            self.try_text(pick)
        else:
            data = corpus.odd(pick) if pick.random() < 0.5 else corpus.mutant(pick, corpus.accepted(pick, self.program))
            if choice < 0.12:
                self.try_fault(pick, data)
            else:
                self.try_image(pick, data)


def taken_as(expected, lines):
    """The lines found, with those that are as expected put as they were."""
    return [begun if verdicts.is_line(begun, line) else line for begun, line in zip(expected, lines)] + lines[len(expected) :]


def main(words=None):
    parser = fuzzing.options(__doc__, 400)
    parser.add_argument("--plant", action="append", default=[], metavar="RULE", help="leave this rule out of what is expected")
    given = parser.parse_args(words)
    if not fuzzing.has_gcc():
        return fuzzing.all_skipped(len(NAMES), "commands beside the independent rules", "gcc isn't there")
    tally = fuzzing.tally_of(parser, given, NAMES)
    program = measure.program_at(given.program)
    with tempfile.TemporaryDirectory() as folder:
        commands = Commands(program, verdicts.Judge(folder, given.plant), tally)
        for tally.case, pick in fuzzing.cases(given):
            commands.try_one(pick)
    return tally.end()


if __name__ == "__main__":
    sys.exit(main())
