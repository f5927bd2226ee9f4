"""One file of a compiler's assembly, rewritten to GNU assembly for a format."""
import os
import pickle
import traceback
from functools import cached_property

from suygapid.passes import landings
from suygapid.passes.assembly import Broken, Refused
from suygapid.passes.checking import Checking
from suygapid.passes.debug_data import Unknown
from suygapid.passes.improving import PASSES, Whole, improved
from suygapid.passes.in_bundles import InBundles
from suygapid.passes.in_words import InWords
from suygapid.passes.instructions import NEAR, RELATIVE, replace
from suygapid.passes.naming import Names
from suygapid.passes.parts import joined, section_mark, sections_of, with_others
from suygapid.passes.shown import AllShown
from suygapid.passes.shares import shares_of
from suygapid.passes.small_data import SmallData, is_near
from suygapid.passes.soft import Order, without_soft_labels
from suygapid.passes.telling import format_lines, frame_lines, frame_table_lines, margin_lines, name_lines
from suygapid.passes.trampolines import check_trampolines
from suygapid.passes.typed import IN_WORDS, WORDS, check_registers, free_addresses, largest_step
from suygapid.passes.unit import Unit
from suygapid.passes.writer import RVC

SLACK = 512  # bytes of a branch's reach: `as` lengthens one that seems far while it still places the code
MANY = 4000  # instructions from which on it pays to have several processes


def by_sections(unit, is_movable):
    """The code by its sections, and the order of the pieces of each."""
    marks = {piece.name for section in unit.sections.values() for piece in section.pieces if piece.is_mark}
    named, landed = landings.labels(unit.landings)
    spoken = unit.spoken | unit.data_names | unit.globals | named
    hard = {name for name in marks if name in spoken or not name.startswith(".")}
    taken = hard & (unit.globals | unit.data_names | landed)  # where control may come from anywhere
    code, orders = {}, {}
    for key, section in unit.sections.items():
        pieces, soft = without_soft_labels(section, hard, taken)
        code[key] = with_ways(pieces, unit.near_small()) if is_movable else pieces
        orders[key] = Order(code[key], soft)
    return code, orders


def with_ways(pieces, small):
    """The pieces, each address of which is relative to a base, so that the program can be moved."""
    return [piece if piece.is_mark or piece.word != "la" else
            replace(piece, address=NEAR if is_near(small, piece.operands[1]) else RELATIVE) for piece in pieces]


class Code:
    """The instructions of a section, as `check_trampolines` asks for them."""

    def __init__(self, pieces):
        self.ops = [piece for piece in pieces if not piece.is_mark]


class Rewriting:
    """A file for a format: its code by sections, in parts, and all else."""

    def __init__(self, name, text, passes, image_format, is_movable=False, is_checking=False):
        self.unit, self.passes, self.format = Unit(name, text), passes, image_format
        self.given, self.orders = by_sections(self.unit, is_movable)
        sections = [Code(pieces) for pieces in self.given.values()]
        ops = [op for section in sections for op in section.ops]
        check_trampolines(sections)
        if image_format in IN_WORDS:
            check_registers(ops)
        self.small = SmallData(self.unit, ops)
        self.told = [*margin_lines(ops, image_format), *(format_lines(image_format) if ops else ()),
                     *frame_lines(list(self.given.values())), *name_lines(self.unit), *frame_table_lines(self.unit)]
        writer = InBundles if image_format not in IN_WORDS else Checking if is_checking else InWords
        self.writer = writer(self.unit, self.small, image_format, is_movable)
        self.size, self.whole = len(ops), Whole(free_addresses(ops, image_format), largest_step(ops))
        self.parts = joined(self.given)
        with_others(self.given, self.parts)

    def improved(self, number):
        """The code of a part by its sections after the passes. In bundles a section's end is fitted to what comes after it."""
        part, last = self.parts[number], next(reversed(self.given), None)
        code = [piece for key in part for piece in [section_mark(key), *self.given[key]]]
        end = [section_mark(part[-1])] * (part[-1] != last)
        found = improved([*code, *end], self.passes, self.format, self.small, Names(f".Lsfi{number}."), SLACK, self.whole)
        return sections_of(found[:len(found) - len(end)])

    @cached_property
    def code(self):
        found = {key: pieces for number in range(len(self.parts)) for key, pieces in self.improved(number).items()}
        return {key: found[key] for key in self.given}

    def written(self, number):
        """The texts of a part's sections, of a file without debug information."""
        return {key: self.writer.text(key, pieces, self.orders[key], {}) for key, pieces in self.improved(number).items()}

    def answer(self, numbers):
        """The texts of some parts' sections, or why there are none."""
        try:
            return {key: text for number in numbers for key, text in self.written(number).items()}
        except Refused as refused:
            return refused
        except Exception:
            return Broken(self.unit.name, traceback.format_exc())

    def text(self, jobs=1):
        try:
            if jobs > 1 and self.size >= MANY and not self.unit.has_debug_data:
                shown, texts = AllShown({}, {}), side_by_side(self, jobs)
                head = self.writer.head(shown, self.told)
            else:
                shown = AllShown(self.code, self.orders)
                head = self.writer.head(shown, self.told)
                texts = {key: self.writer.text(key, pieces, self.orders[key], shown.new[key]) for key, pieces in self.code.items()}
        except Unknown as unknown:
            raise Refused(self.unit.name, f"debug information that isn't known: {unknown}") from unknown
        return "\n".join([*head, *(texts[key] for key in self.given), RVC, ""])  # debuggers disassemble by the last option


def side_by_side(rewriting, jobs):
    """The texts of all sections, by so many processes."""
    sizes = [sum(len(rewriting.given[key]) for key in part) for part in rewriting.parts]
    answers, found = [], {}
    for process, file in [begin(rewriting, share) for share in shares_of(sizes, jobs)]:
        with file:
            answers.append(pickle.load(file))
        os.waitpid(process, 0)
    for answer in answers:
        if isinstance(answer, (Refused, Broken)):
            raise answer
        found.update(answer)
    return found


def begin(rewriting, numbers):
    """A new process that writes these parts, and a file that has the answer."""
    reading, writing = os.pipe()
    process = os.fork()
    if process:
        os.close(writing)
        return process, open(reading, "rb")
    try:
        with open(writing, "wb") as file:
            pickle.dump(rewriting.answer(numbers), file)
    finally:
        os._exit(0)


def rewritten(name, text, passes=PASSES, image_format=WORDS, is_movable=False, jobs=1, is_checking=False):
    """The GNU assembly of a file, whose name and text are given, by so many processes."""
    try:
        return Rewriting(name, text, passes, image_format, is_movable, is_checking).text(jobs)
    except (Refused, Broken):
        raise
    except Exception as error:
        raise Broken(name, traceback.format_exc()) from error
