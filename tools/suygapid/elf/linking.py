"""Links objects and archives to an ELF file of a sandbox."""
import os
import tempfile
from argparse import Namespace

from suygapid.cc.compilers import Failed, ran, tell
from suygapid.elf import islands, moving
from suygapid.elf import runtime
from suygapid.elf.elf import Elf, Wrong
from suygapid.elf.image import DEFAULT_MEMORY, SMALLEST, code_size, memory_size
from suygapid.elf.tools import archived, assembled, binutil
from suygapid.image.layout import FORMATS, NAMED, Part, is_one_bit
from suygapid.image.names import API, SERVICE, entries, marked, signatures
from suygapid.library import plus_plus, small_library
from suygapid.library.archives import SMALL, Libraries, folders_of
from suygapid.passes.typed import IN_WORDS, SINGLE, USUAL, WORDS
from suygapid.services import GATES

CODE, DATA = 0x01000000, 0x00800000  # a sandbox's place is its number plus 1 times the first, its data lie the second above
BESIDE = 0x00400000  # bytes at most of code, and of data, that lie so, with room for guard zones beside the data
LARGE, APART = 0x20000000, 0x08000000  # where other data begin, above the code of 16 sandboxes, and how far apart at least
HIGH, HIGHEST_BIT = 0xc1000000, 31  # where masks of data are single: the code that lies above all data, whose bases are single bits
OF_LD = ["-m", "elf32lriscv", "--no-relax", "--gc-sections", "-z", "noexecstack", "--no-warn-rwx-segments"]
UNDEFINED = b"undefined"  # what the linker says of a symbol
TOO_MANY_SMALL = b"the small objects and the room below them exceed"  # what the linker script says
SEVERAL_FORMATS = b"objects of several formats"
START = ["-u", "_start"]  # what a C library does before main and after it, where one has it

USUAL_FORMATS = f"{USUAL}, but {WORDS} where --at names data at more than one bit, or code or data in the zone at zero"


def usual_format(at, memory):
    """The format of a program for which no option names one: by its place, and by the size of its data as far as options say it, that of
    single masks, or words where these have no such place."""
    if at is None:
        return USUAL
    code, data = at
    least = Part(code, bytes(SMALLEST), data, memory or SMALLEST, code, format=FORMATS[NAMED[USUAL]])
    return USUAL if is_one_bit(data) and not least.is_in_own_zone() else WORDS


def place_of(sandbox, code, data, image_format=USUAL):
    """Where code and data of so many bytes begin. Sandboxes of other numbers have other places, with a data region's size, or the
    least distance, between their data, so that all 16 have room where none has more than 64 MiB."""
    if image_format == SINGLE:
        return single_place_of(sandbox, code, data)
    base = (sandbox + 1) * CODE
    if max(code, data) <= BESIDE:
        return base, base + DATA
    return base, max(LARGE, data) + sandbox * max(APART, 2 * data)


def single_place_of(sandbox, code, data):
    """The same where masks of data are single: 11 sandboxes have room where none has more than 1 MiB, and 7 where none has more than 16.
    Nothing lies as low as data are large; those of 32 MiB have a zone at zero over the code of small sandboxes, which wants --at then."""
    base = (sandbox + 1) * CODE + DATA if max(code, data) <= BESIDE else HIGH + sandbox * CODE
    return base, 1 << HIGHEST_BIT - sandbox


def default_memory(options):
    """The bytes of data that a program with a heap has at least, where no option says how many: None in bundles, which may have few,
    and at a place of its own, beside which others may lie. Single masks have to have room below the data."""
    if options.format not in IN_WORDS or options.at:
        return None
    _, data = place_of(options.sandbox, 0, DEFAULT_MEMORY, options.format)
    return min(DEFAULT_MEMORY, data // 2)


def numbers_of(options, place, names, libraries):
    """The numbers that the linker script and what makes images of linked files ask for."""
    numbers = dict(zip(("__sfi_code_base", "__sfi_data_base"), place))
    sizes = {"memory": options.memory, "memory_least": default_memory(options), "stack": options.stack, "heap": options.heap,
             "heap_least": libraries.least_heap}
    numbers.update((f"__sfi_{name}", size) for name, size in sizes.items() if size is not None)
    if options.api is not None:
        numbers[API] = options.api
    if names.exports or names.imports or options.gate:
        numbers["__sfi_entered"] = 1  # its host may enter functions, so it claims their room
    return [f"--defsym={name}={value:#x}" for name, value in numbers.items()]


class Names:
    """The names that a host knows, by options and by what the sources mark."""

    def __init__(self, options, objects):
        named = [os.path.join(folder, f"lib{name}.a") for name in options.libraries for folder in options.folders]
        exports, imports = marked([*objects, *named])
        for name in filter(GATES.get, imports):
            raise Wrong(f"SFI_IMPORT: {name!r} is the gate of service {GATES[name]} already")
        self.exports = list(dict.fromkeys([*options.exports, *exports]))
        self.imports = options.imports
        self.marked = [name for name in imports if name not in options.imports]  # those are there if anything calls them
        self.signatures, told = ({}, []) if options.no_signatures else signatures([*objects, *named], [*self.exports, *self.imports, *self.marked])
        for line in told:
            tell(line)
        self.gates = {**dict.fromkeys([*self.imports, *self.marked], SERVICE), **dict(options.gate)}
        self.format = options.format

    def objects(self, folder):
        """What the program has in any case: the gates, and the entries."""
        made = [self.gate(folder, name) for name in self.gates if name not in self.marked]
        if self.exports or self.imports:
            made.append(os.path.join(folder, "names.o"))
            assembled(entries(self.exports, self.imports, self.signatures).encode(), made[-1])
        return made

    def archives(self, folder):
        """The gates that sources mark, each with its entry. The program has those that it calls and doesn't define."""
        if not self.marked:
            return []
        output = os.path.join(folder, "libmarked.a")
        archived(output, [self.gate(folder, name, entries([], [name], self.signatures)) for name in self.marked])
        return [output]

    def gate(self, folder, name, entry=""):
        room = os.path.join(folder, "gates")
        os.makedirs(room, exist_ok=True)
        return runtime.gate_object(room, name, self.gates[name], self.format, entry)


def ran_linker(words, libraries):
    """Runs the linker. Where functions of floating point aren't there, it is told what has them."""
    try:
        tell(ran(words)[1])
    except Failed as failed:
        if libraries.wanted:
            failed.told += f"sfi-cc: for floating point {libraries.wanted}\n".encode()
        raise


def has_room(options, objects, folder):
    """Whether the small objects of a program and of its libraries may have room, by objects whose code has no masks yet: in the end
    the room below them may be larger, too."""
    quiet = Namespace(**{**vars(options), "no_signatures": True})
    try:
        place = place_of(options.sandbox, 0, options.memory or 0, options.format)
        _, first, last = words_of(quiet, place, Libraries(quiet, options.library, objects), objects, folder)
        ran([*first, *last])
    except Failed as failed:
        return TOO_MANY_SMALL not in failed.told
    return True


def linked(options, objects, folder):
    """The program that objects and archives make, with the libraries that are named. Where none is, and a source has headers of
    the small library or an object calls one of its functions, with that."""
    if options.library or not options.takes_small:
        try:
            return linked_with(options, options.library, objects, folder)
        except Failed as failed:
            failed.told += plus_plus.advice(failed.told)
            if options.library or not small_library.is_called(failed.told):
                raise
    try:
        return linked_with(options, folders_of([SMALL], options.cc), objects, folder)
    except Failed as failed:
        failed.told += small_library.advice(failed.told, UNDEFINED in failed.told)
        raise


def linked_with(options, folders, objects, folder):
    """The program that objects, archives and the libraries in some folders make. It is linked again where its code or data turn out to
    have no room at the usual place."""
    libraries = Libraries(options, folders, objects)
    if libraries.have_exceptions and options.target.is_movable:
        raise Wrong("a program for any place has no exceptions: compile C++ with -fno-exceptions")
    place = options.at or place_of(options.sandbox, 0, options.memory or 0, options.format)
    made = linked_at(options, place, libraries, objects, folder)
    roomy = options.at or place_of(options.sandbox, code_size(made), memory_size(made), options.format)
    return made if place == roomy else linked_at(options, roomy, libraries, objects, folder)


def linked_at(options, place, libraries, objects, folder):
    """The same at a place. A program that can be moved is linked a second time: with the list of the addresses in its data, or, if
    there are none, without what sets them right."""
    fresh, first, last = words_of(options, place, libraries, objects, folder)
    name = os.path.basename(options.output) if options.output else "the program"

    def program(*words):
        try:
            ran_linker([*first, *words, *last], libraries)
        except Failed as failed:
            if islands.TOO_FAR not in failed.told:
                raise
            copies = islands.words_with_copies([*words, *last], tempfile.mkdtemp(dir=folder))
            islands.linked(lambda script, *more: ran_linker([*first, *more, *(script if it == runtime.SCRIPT else it for it in copies)], libraries),
                           fresh, runtime.SCRIPT, folder, name)
        return Elf(fresh, name)

    if not options.target.is_movable:
        return program()
    content = moving.made_movable(program(*moving.KEEPING, *settling_of(program(*moving.KEEPING, *moving.SETTLING), folder)))
    with open(fresh, "wb") as file:
        file.write(content)
    return Elf(fresh, name)


def settling_of(program, folder):
    """What a program that was linked is linked with the second time."""
    made = moving.list_of(program)
    if made is None:
        return []
    output = os.path.join(folder, "places.o")
    assembled(made.encode(), output)
    return [*moving.SETTLING, output]


def words_of(options, place, libraries, objects, folder):
    """The path of the program to be, and the linker's words, in two parts: the script, in the second, sees the numbers that
    stand before it."""
    made = runtime.folder_of(options.target)
    named = [*(f"-L{place}" for place in options.folders), *(f"-l{name}" for name in options.libraries)]
    archives = [path for path in objects if path.endswith(".a")]
    names = Names(options, [*objects, *libraries.archives])
    main = ["libplugin.a"] if names.exports else []  # where a host calls functions, there need be no other
    own = [os.path.join(made, name) for name in ("libruntime.a", "libgates.a", "libmovable.a", *main)]
    heap = [os.path.join(made, "heap_checks.o"), "--wrap=exit_with"] if options.target.is_checking and libraries.have_heap else []
    fresh = os.path.join(folder, "program.elf")
    exceptions = runtime.EXCEPTIONS * libraries.have_exceptions  # before the numbers: the linker moves what stands before INSERT
    first = [binutil("ld"), *OF_LD, *exceptions, *numbers_of(options, place, names, libraries), *START]
    return fresh, first, [
        "-T", runtime.SCRIPT, *options.linker, "-o", fresh, os.path.join(made, "crt0.o"),
        *(path for path in objects if path not in archives), *names.objects(folder), *heap,
        "--whole-archive", *libraries.whole, "--no-whole-archive",
        "--start-group", *archives, *named, *names.archives(folder), *libraries.archives, *own, "--end-group"]
