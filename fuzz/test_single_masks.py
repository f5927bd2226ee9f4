"""Tests of code in words with single masks, without the program: of random code the second checker says what word_rules.py says,
and what it accepts keeps to its sandbox on machine.py (both in tools/suygapid/trials), and without one of its rules it doesn't."""
import random
import unittest

import escapes
import second_checker
from suygapid.image import layout
from suygapid.trials import odd_words, word_rules

CODE, SIZE, DATA_SIZE, ENTRIES = 0xC1000000, 256, 256, 40
COMPARED, ROUNDS, PLANTED_ROUNDS = 400, 60, 300
RIGHT, BOTH = 1 << 30, (1 << 30) + 0x1000  # a data base that is a single bit, and one that has another


def findings(code, gates, but):
    sandbox = second_checker.Sandbox(CODE, frozenset(CODE + place for place in gates), code)
    return [it.place for it in second_checker.findings_in_words(second_checker.Single, sandbox) if it.rule not in but]


def mended(code, gates, but):
    """The code in which nops stand in the places of words that break rules but these, and of those before them, or ebreak at the end."""
    code = bytearray(code)
    while found := findings(bytes(code), gates, but):
        for place in found:
            for begin in {max(0, place // 4 * 4 - 4), place // 4 * 4}:
                code[begin : begin + 4] = odd_words.EBREAK if begin + 4 == len(code) else odd_words.NOP
    return bytes(code)


def part_of(pick, but=(), data_base=RIGHT):
    gates = odd_words.gate_places(pick, SIZE)
    code = mended(odd_words.with_calls(odd_words.SinglePieces(pick, SIZE).code(), gates), gates, but)
    return layout.Part(CODE, code, data_base, DATA_SIZE, CODE, {CODE + place: 1 for place in gates}, format=layout.SINGLE)


class Watched(escapes.Hostile):
    """Counts accesses in the zone at zero."""
    count = 0

    def why_unsafe(self, stop):
        if stop.cause in (escapes.machine.LOAD, escapes.machine.STORE) and any(begin <= stop.at < end for begin, end in self.part.zones()):
            type(self).count += 1
        return super().why_unsafe(stop)


def escape(part, pick):
    """Of some runs the first that isn't safe, and why."""
    hostile = Watched(part, pick)
    return next(filter(None, (hostile.escape(entry) for entry in pick.sample(range(CODE, CODE + SIZE, 4), ENTRIES))), None)


class Verdicts(unittest.TestCase):
    def test_both_readers_say_the_same(self):
        seen = set()
        for seed in range(COMPARED):
            pick = random.Random(seed)
            gates, code = odd_words.gate_places(pick, SIZE), odd_words.SinglePieces(pick, SIZE).code()
            sandbox = second_checker.Sandbox(CODE, frozenset(CODE + place for place in gates), code)
            found = [(it.place, it.rule) for it in second_checker.findings_in_words(second_checker.Single, sandbox)]
            self.assertEqual(found, word_rules.findings(code, gates, rules=word_rules.SINGLE), seed)
            seen |= {rule for _, rule in found}
        self.assertEqual(seen, {f"V{number}" for number in (1, 2, 3, 4, 5, 6, 7, 8, 10, 11)})


class Escapes(unittest.TestCase):
    def test_accepted_code_keeps_to_its_sandbox(self):
        Watched.count = 0
        for seed in range(ROUNDS):
            pick = random.Random(seed)
            part = part_of(pick)
            image = layout.spelled(b"SFIS", [part])
            self.assertEqual(second_checker.judged(image), (0, ["accepted sandboxes=1 bundles=16"]))
            self.assertEqual(escape(part, pick), None, f"{seed}: {image.hex()}")
        self.assertGreater(Watched.count, ROUNDS)

    def test_each_rule_is_needed(self):
        for rule in ("V3", "V4", "V5", "V6", "V7", "V10", "V11"):
            self.assertTrue(self.escapes({rule}), rule)

    def test_a_base_of_two_bits_is_wrong(self):
        self.assertTrue(self.escapes((), BOTH))

    def escapes(self, but, data_base=RIGHT):
        picks = map(random.Random, range(PLANTED_ROUNDS))
        return any(escape(part_of(pick, but, data_base), pick) for pick in picks)


if __name__ == "__main__":
    unittest.main()
