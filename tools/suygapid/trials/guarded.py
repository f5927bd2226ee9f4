"""Images whose data are whole pages, as native code wants them: random accepted ones, and programs that each access a place near an
end of the data, or of the addresses below their size where masks are single.
"""
import struct
import subprocess

from suygapid.image import layout
from suygapid.isa.decoding import LOADS, STORES
from suygapid.trials import corpus

PAGE = 4096
FORMATS = {1: b".format 1\n", 2: b".format 2\n", 3: b".format words\n", layout.SINGLE: b".format single\n"}
SIZES = [4096, 4096, 8192, 65536]
BOXES, SINGLE_BOXES = 16, 11  # the most sandboxes of an image, and where masks are single
FIELDS = 28  # the bytes of a sandbox's fields, of which the data's size is the fourth
REGISTERS = ["a0", "a2", "s1", "t0", "s2"]  # where a load writes: of the machine's registers, and of the hart's
BASES = ["a0", "a2", "ra", "a7"]
SP_FROM_END = 16  # where sp is at first, from the data's end
PLACES = 16  # near each origin


def with_data(image, size):
    """The image with so many bytes of data in each sandbox, which no rule of its code looks at."""
    changed = bytearray(image)
    for part in layout.parts(image):
        at = part.code_offset - 8 * len(part.gates) - FIELDS
        struct.pack_into("<I", changed, at + 12, size)
    return bytes(changed)


def grown(image):
    """The same with more data in each sandbox, unless it has a page of them or they don't lie where they can be more."""
    larger = with_data(image, PAGE)
    try:
        layout.parts(larger)
    except layout.Fault:
        return image
    return larger if all(it.data_size < PAGE for it in layout.parts(image)) else image


def random_image(pick):
    """A random accepted image."""
    return with_data(corpus.small_accepted(pick, tuple(FORMATS)), pick.choice(SIZES))


def places(size):
    """Where the accesses are, from the data's first byte: at both ends, beyond them, and halfway at an end."""
    return [-2048, -5, -4, -3, -2, -1, 0, 1, size - 5, size - 4, size - 3, size - 2, size - 1, size, size + 1, size + 2046]


def origins(format, number):
    """What numbers lead to the data of that sandbox, as `sfi build` places it: any, where masks have two steps; where they are single
    those from the data's base on, and those from 0 to the addresses below the data's size."""
    return [1 << 31 - number, 0] if format == layout.SINGLE else [0]


def accesses(pick, kind, base, number):
    """The lines of an access, and of what makes no use of its value, or stores at once another."""
    if kind.startswith("s"):
        stored = pick.choice(["a1", "zero", "s1", "a4", base])
        return [f"{kind} {stored}, {number}({base})", f"{kind} a1, {number}({base})"][:pick.choice([1, 2])]
    rd = pick.choice(REGISTERS + ["zero"])
    after = [f"li {rd}, 5"] if rd != "zero" and pick.random() < 0.3 else []
    return [f"{kind} {rd}, {number}({base})"] + after


def placed(pick, size, place, format, origin):
    """The lines that make a base, its name, and the number that is added to it for this place, from an origin on."""
    is_at_zero = format == layout.SINGLE and origin == 0
    if format > 1 and not is_at_zero and pick.random() < 0.3 and size - SP_FROM_END - 2048 <= place < size + 2000:
        return [], "sp", place - size + SP_FROM_END
    if is_at_zero and pick.random() < 0.5 and place < 2048:
        return [], "zero", place
    low, high = max(0, place - 2047), min(size - 1, place + 2048)
    base, at = pick.choice(BASES), pick.choice([low, high, pick.randrange(low, high + 1)])
    return [f"li {base}, {origin + at}"], base, place - at


def sandbox(pick, place_number, format, sandbox_number):
    """The source of a sandbox that writes both ends of its data, and accesses one place."""
    size = pick.choice(SIZES)
    data, *_ = found = origins(format, sandbox_number)
    which, place = divmod(place_number, PLACES)
    before, base, number = placed(pick, size, places(size)[place], format, found[which])
    kind = pick.choice(pick.choice([LOADS, STORES]))
    text = [f".sandbox {size}", ".gate exit 0", ".option rvc" if pick.random() < 0.5 else "", f"li a1, {pick.getrandbits(32)}",
             f"li s1, {pick.getrandbits(32)}", f"li a0, {data + size - 4}", "sw a1, 0(a0)", f"li a3, {data}", f"sw s1, 0({'a3' if data else 'zero'})",
             *before, *accesses(pick, kind, base, number), "xor a0, a2, s1", "xor a0, a0, t0", f"li a3, {data}", f"li a4, {data + size - 4}",
             "lw a5, 0(a3)", "xor a0, a0, a5", "lw a5, 0(a4)", "xor a0, a0, a5", "call exit"]
    return "".join(f"{line}\n" for line in text)


def numbers(pick, format):
    """The numbers of all places of a format, for each image those that it can have."""
    if format != layout.SINGLE:
        return [range(BOXES)]
    found = pick.sample(range(2 * PLACES), 2 * PLACES)
    return [found[begin : begin + SINGLE_BOXES] for begin in range(0, len(found), SINGLE_BOXES)]


def edges(pick, sfi, format, place_numbers=None):
    """An image of that format, with a sandbox for each place."""
    found = place_numbers or pick.choice(numbers(pick, format))
    text = FORMATS[format] + "".join(sandbox(pick, place, format, number) for number, place in enumerate(found)).encode()
    done = subprocess.run([sfi, "build"], input=text, stdout=subprocess.PIPE, check=True)
    return bytes.fromhex("".join(done.stdout.decode().split()))


def images(pick, sfi, count):
    """So many random ones, and in each format those with accesses at each place, twice."""
    return [random_image(pick) for _ in range(count)] + [edges(pick, sfi, format, it) for format in FORMATS for _ in range(2)
                                                         for it in numbers(pick, format)]


def zone(part, address):
    """The guard zone in which an access traps, by its first byte: beside the data, or where masks are single beside those below the data's size."""
    place = address - part.data_base
    if part.format == layout.SINGLE and not -PAGE <= place < part.data_size + PAGE:
        return "at zero" if address < part.data_size + PAGE else "below zero"
    return "below" if place < 0 else "above"


def trapping_zones(printed, image):
    """In which guard zones, by what `sfi run` prints, accesses of an image trap: pairs of the kind and the zone."""
    found = set()
    for line, part in zip(printed.decode().splitlines(), layout.parts(image)):
        words = dict(it.split("=") for it in line.split() if "=" in it)
        if words.get("trap") in ("Load", "Store"):
            found.add((words["trap"], zone(part, int(words["at"], 16))))
    return found
