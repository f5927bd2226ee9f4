"""Images to try: accepted ones, these changed, and ones of random code. What makes these is beside this file."""
import dataclasses
import functools
import glob
import os
import struct

from suygapid import TOP
from suygapid.image import layout
from suygapid.trials import fuzzing, images, measure, odd_images, odd_words

EXAMPLES = os.path.join(TOP, "examples")
FORMAT_LINES = (b".format 1\n", b".format 2\n", b".format words\n", b".format single\n")
MAGICS = list(images.MAGICS.values()) + [b"SFI3", b"sfi1"]
EBREAK, NOP, SHORT_EBREAK, SHORT_NOP = 0x00100073, 0x13, 0x9002, 0x0001


@functools.lru_cache(maxsize=None)
def example_sources():
    """The source texts of the examples, without a line that says their format."""
    found = sorted(glob.glob(os.path.join(EXAMPLES, "**", "*.s"), recursive=True))
    lines = [measure.contents(path).splitlines(keepends=True) for path in found]
    return [b"".join(it for it in each if not it.startswith(b".format")) for each in lines]


@functools.lru_cache(maxsize=None)
def examples(program):
    """The images of the examples, in each format in which they can be built."""
    made = [fuzzing.run([program, "build"], line + text) for text in example_sources() for line in FORMAT_LINES]
    return [bytes.fromhex("".join(it.lines)) for it in made if it.status == 0]


def small_accepted(pick, formats=tuple(images.MAGICS)):
    """A small image of random code that is accepted, in one of these formats."""
    format = pick.choice(formats)
    if format in odd_words.PIECES and pick.random() < 0.7:
        return odd_words.image([odd_words.made_code(pick, 256, format) for _ in range(pick.choice([1, 1, 2]))], format)
    return random_accepted(pick, format)


def random_accepted(pick, format):
    kind, seed = pick.choice(images.KINDS), pick.getrandbits(32)
    return images.image(kind, pick.choice([1, 1, 2, 3]), pick.choice([256, 512]), pick.choice([0, 3]), format, seed)


def twin(pick):
    """An image of the first format that keeps the rules of the second, too."""
    return images.MAGICS[1] + random_accepted(pick, 2)[4:]


def with_room(pick, data):
    """The same, where each sandbox asks for room above the stack of a function that its host calls, if its data have a place for that."""
    def asking(part):
        asked = pick.choice([0, 16, 64, part.data_size - 16, part.data_size - 15, part.data_size, pick.getrandbits(32)])
        init = part.init + struct.pack("<IB5s3I4s", asked, 5, b".room", 0, 0, 10, b"SFIN")
        return dataclasses.replace(part, init=init) if len(init) <= part.data_size else part
    return layout.spelled(data[:4], [asking(part) for part in layout.parts(data)])


def accepted(pick, program):
    found = pick.choice(examples(program)) if pick.random() < 0.5 else small_accepted(pick)
    return with_room(pick, found) if pick.random() < 0.2 else found


def odd(pick):
    """An image of odd code, or what was made of one, in any format."""
    if pick.random() < 0.5:
        return odd_images.small_image(pick.getrandbits(32))
    return odd_words.small_image(pick.getrandbits(32), pick.choice([*odd_words.PIECES]))


# ---- changes


def with_word(pick, data):
    """The same with a word of its own in another place: so instructions come between those of a pair, and gates move."""
    source, target = (2 * pick.randrange(4, len(data) // 2 - 1) for _ in range(2))
    return data[:target] + data[source : source + 4] + data[target + 4 :]


def with_piece(pick, data):
    """The same with an instruction that the rules look at in some place."""
    in_words = odd_words.PIECES.get(layout.FORMATS.get(data[:4]))
    pieces, arguments = (in_words(pick, 256), (0,)) if in_words else (odd_images.Pieces(pick), ())
    piece = pick.choice(pieces.makers)(*arguments)
    at = pick.randrange(36, max(37, len(data) - len(piece))) & ~1
    return data[:at] + piece + data[at + len(piece) :]


def with_magic(pick, data):
    return pick.choice(MAGICS) + data[4:]


def with_registers(pick, data):
    """The same with the registers of one word changed."""
    at = pick.randrange(36, len(data) - 3) & ~1
    (word,) = struct.unpack_from("<I", data, at)
    field = pick.choice([7, 15, 20])
    word = word & ~(31 << field) | pick.choice(odd_words.REGISTERS) << field
    return data[:at] + struct.pack("<I", word & 0xFFFFFFFF) + data[at + 4 :]


def with_length(pick, data):
    return data[: pick.randrange(len(data))] if pick.random() < 0.7 else data + pick.randbytes(pick.choice([1, 2, 28, 292]))


def with_bits(pick, data):
    return odd_images.flipped(pick, data, 3)


def with_bits_in_front(pick, data):
    return odd_images.flipped(pick, data[:60], 2) + data[60:]


CODE_CHANGES = [with_bits, with_bits, with_word, with_word, with_piece, with_piece, with_registers, with_registers]
CHANGES = CODE_CHANGES + [with_magic, with_length, with_bits_in_front, odd_images.with_number, odd_images.with_data_near,
                          odd_images.with_large_data]


def mutant(pick, data, changes=tuple(CHANGES)):
    for _ in range(pick.choice([1, 1, 1, 2, 3])):
        if len(data) > 64:
            data = pick.choice(changes)(pick, data)
    return data


# ---- code that is made to keep the rules


def nops(length):
    return struct.pack("<H", SHORT_NOP) * (length // 2)


def mended(data, parts, findings):
    """The same with no-operations at each finding; at a gate the stub, and ebreak where a region has to end."""
    changed = bytearray(data)
    for sandbox, address, rule in findings:
        part = parts[sandbox]
        place = address - part.code_base
        mend_one(changed, part, place, rule)
    return bytes(changed)


def mend_one(changed, part, place, rule):
    begin, size = part.code_offset, part.code_size
    if rule == "V9":
        changed[begin + place : begin + place + 16] = odd_images.STUB
        return
    length = 4 if part.code[place] & 3 == 3 and rule not in ("V1", "V2") else 2
    if part.format in odd_words.PIECES:
        place, length = place & ~3, 4
        if rule in ("V10", "V11") and place:
            changed[begin + place - 4 : begin + place] = nops(4)
    length = min(length, size - place)
    changed[begin + place : begin + place + length] = nops(length)
    if place + length == size:
        changed[begin + size - 2 : begin + size] = struct.pack("<H", SHORT_EBREAK)


def findings_of(program, data):
    """The status of `sfi check --report`, and its findings."""
    ended = fuzzing.run([program, "check", "--report"], data.hex().encode())
    found = [line.split()[:3] for line in ended.lines[:-1]]
    return ended.status, [(int(sandbox), int(address, 16), rule) for sandbox, address, rule in found]


def repaired(findings, data, but=frozenset()):
    """The image with changes until a checker finds nothing in it but the rules `but`; None where that doesn't end soon, or it
    is none. findings gives the checker's status and findings."""
    for _ in range(12):
        status, found = findings(data)
        wrong = [it for it in found if it[2] not in but]
        if status not in (0, 1):
            return None
        if not wrong:
            return data
        data = mended(data, layout.parts(data), wrong)
    return None
