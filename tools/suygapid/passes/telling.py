"""What a file tells the linker and the tools beside its code: how far beside an object its bases may lie, the frames of its
functions, the format that it is for, and the names that a host knows."""
from suygapid.passes.dependences import runs
from suygapid.passes.frames import deepest
from suygapid.passes.margins import margins
from suygapid.passes.typed import IN_WORDS, SINGLE, WORDS, largest_step

MARGINS = (64, 128, 256, 512, 1024, 2304)  # the rooms beside an object that the linker script knows
FORMAT_NAMES = {1: "1", 2: "2", WORDS: "words", SINGLE: "single"}
FRAMES = ".debug_sfi_frames"  # by this beginning the linker takes it for debug information, which keeps no function


def weak_number(name):
    return [f"\t.weak {name}", f"\t.set {name}, 1"]


def margin_lines(ops, image_format):
    """Weak absolute symbols, of which the linker script takes the largest."""
    room = margins(ops, largest_step(ops) if image_format in IN_WORDS else 0)
    for name, count in (("below", room.below), ("above", room.above)):
        if count:
            yield from weak_number(f"__sfi_{name}_{next(size for size in MARGINS if size >= count)}")


def format_lines(image_format):
    """A symbol by which the linker script sees code of two formats."""
    return weak_number(f"__sfi_format_{FORMAT_NAMES[image_format]}")


def frames(pieces):
    """The functions of a section, and how far each moves the stack pointer in one go."""
    name, found = None, {}
    for run in runs(pieces):
        first = pieces[run[0]]
        if first.is_mark:
            name = name if first.name.startswith(".") else first.name
        elif name is not None and any(pieces[number].written == "sp" for number in run):
            size = deepest([pieces[number] for number in run])
            found[name] = max(found.get(name, 0), size)
    return found


def frame_lines(sections):
    """A section with the address of each function that has a frame, and the frame's size."""
    found = {name: size for pieces in sections for name, size in frames(pieces).items() if size}
    if found:
        yield f'\t.section {FRAMES},"",@progbits'
        yield from (f"\t.4byte {name}, {size}" for name, size in found.items())


def name_lines(unit):
    """A symbol for each name that the source marks as an export or an import, which image/names.py finds in the object."""
    for kind, names in (("export", unit.exports()), ("import", unit.imports())):
        for name in names:
            yield from weak_number(f"__sfi_{kind}_{name}")


def frame_table_lines(unit):
    """Has what says where each frame lies stand where exceptions look for it, and where debuggers do: the linker keeps that."""
    items = (text for section in unit.sections.values() for _, text in section.soft)
    is_asked = any(".cfi_startproc" in text for text in items) and not any(".cfi_sections" in text for text in unit.symbols)
    return ["\t.cfi_sections .eh_frame, .debug_frame"] * is_asked
