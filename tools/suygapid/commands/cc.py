"""From C, C++ and assembly to a checked image, or to the linked program or objects of it.

    tools/sfi-cc [-O2 ..] FILE.c .. > IMAGE.hex
    tools/sfi-cc [-c] -o NAME.elf|NAME.o [-O2 ..] FILE ..

Runs a compiler on each file, several at a time, tools/asm2elf, `as`, `ld`, what makes an image of an ELF file, and `sfi
check`, and stops at the first that fails. All options but those that --help lists are the compiler's, after the ones that
a sandbox wants; -O2 stands before them. Objects (.o) and archives (.a) are those that this tool made, in the same format.
Nothing is written before all have passed. Where one fails, what it printed is on standard error, and the status is that
program's, or 2 where it can't be run or an option is wrong. docs/C.md says more.
"""
import argparse
import os
import sys
import tempfile
from collections import Counter
from concurrent.futures import ThreadPoolExecutor
from dataclasses import dataclass, replace

from suygapid.cc.compilers import (
    CLANG, GCC, PLUS_PLUS_SOURCES, SOURCES, WITH_VALUE, Failed, compiled, default_compiler, is_clang, is_source, reserved, run, tell)
from suygapid.cc.signatures import lines_of
from suygapid.commands.options import add_memory, add_program, add_version, address, place, room
from suygapid.elf import linking
from suygapid.elf.elf import Wrong
from suygapid.elf.image import as_text, image
from suygapid.elf.small import LIMIT, ROOM, SMALL, options_of, small_bytes, with_limit
from suygapid.elf.tools import Target, assembled, assembled_file, rewritten_each
from suygapid.elf.where import told
from suygapid.image.layout import MOST_SANDBOXES, NAMED as FORMATS
from suygapid.image.names import LONGEST, SERVICE, is_name, too_long_lists
from suygapid.library import plus_plus, small_library
from suygapid.library.archives import NAMED, folders_of, headers
from suygapid.library.archives import SMALL as SMALL_LIBRARY
from suygapid.passes.shares import shares_of
from suygapid.passes.typed import IN_WORDS
from suygapid.services import GATES

LINKED = (".o", ".a")
LIMITS = (SMALL, 8, 0)  # bytes of the largest small objects, tried in this order
LONG = 300_000  # bytes of assembly that take much longer to convert than to link as they are
DEBUG = ["-Og", "-g", "-fstack-protector-strong"]  # what goes before the compiler's options that are given
KEEPING = "known,sharing,stepping"  # passes that leave the stack pointer, variables and the order of instructions as they were

EPILOG = "`sfi-cc hello.c > hello.hex && sfi exec hello.hex` runs a program. Debian's package gcc-riscv64-unknown-elf has what it takes, or " \
         "clang, llvm and binutils-riscv64-unknown-elf together; options that aren't listed go to the compiler."


def gate(text):
    name, mark, service = text.partition("=")
    last = max(GATES.values())
    if not mark or not name.isidentifier() or not service.isdigit() or int(service) > last:
        raise argparse.ArgumentTypeError(f"{text!r} isn't NAME=SERVICE with a service from 0 to {last}")
    if name == "main" or name in GATES:
        what = "the program's first function" if name == "main" else f"the gate of service {GATES[name]}"
        raise argparse.ArgumentTypeError(f"{name!r} is {what} already")
    return name, int(service)


def exported(text):
    names = text.split(",")
    for name in names:
        if not is_name(name):
            raise argparse.ArgumentTypeError(f"{name!r} is no name of at most {LONGEST} letters, digits and _")
    return names


def imported(text):
    return [gate(f"{name}={SERVICE}")[0] for name in exported(text)]


def number(low, high):
    def read(text):
        if not text.isdigit() or not low <= int(text) <= high:
            raise argparse.ArgumentTypeError(f"{text!r} is no number from {low} to {high}")
        return int(text)
    return read


def options_parser():
    parser = argparse.ArgumentParser(prog="sfi-cc", usage="sfi-cc [OPTIONS] [OPTIONS OF THE COMPILER] FILE ..",
                                     description=__doc__.split("\n", maxsplit=1)[0], epilog=EPILOG, allow_abbrev=False)
    parser.add_argument("-o", dest="output", metavar="FILE",
                        help="where to write: the linked program if it ends in .elf, the image's bytes if in .image, else its digits; "
                             "standard output if absent")
    parser.add_argument("-c", dest="compile", action="store_true",
                        help="makes an object of each source, FILE.o if there is no -o, and doesn't link")
    parser.add_argument("-l", dest="libraries", action="append", default=[], metavar="NAME", help="links libNAME.a, after the files")
    parser.add_argument("-L", dest="folders", action="append", default=[], metavar="FOLDER", help="where libraries are")
    parser.add_argument("--keep", metavar="NAME.elf", help="a file to write the linked program into, beside the image")
    parser.add_argument("--format", choices=FORMATS, help=f"the image's format; if absent {linking.USUAL_FORMATS}")
    parser.add_argument("--movable", action="store_true",
                        help="makes code that does the same wherever its image is moved (tools/sfi-move, sfi_c_move)")
    parser.add_argument("--debug", action="store_true",
                        help=f"makes a slower program, by {' '.join(DEBUG)}, that traps where a pointer leads outside the data, the stack "
                             "meets the objects, or memory of malloc is misused")
    parser.add_argument("--stack", type=room, metavar="N", help="room for the stack at least, in bytes; 8192 if absent")
    add_memory(parser, "16M for a program with a heap, in words, without --heap and --at, else the least that has room,")
    parser.add_argument("--sandbox", type=number(0, MOST_SANDBOXES - 1), default=0, metavar="N",
                        help="the place, counted from 0, where it lies: each program of an image has another")
    parser.add_argument("--at", type=place, metavar="CODE:DATA", help="the place where it lies, in hexadecimal, in that of --sandbox")
    parser.add_argument("--passes", metavar="NAMES", help="the converter's passes that run; by -O and -g if absent")
    parser.add_argument("--jobs", type=number(1, 1024), default=os.cpu_count() or 1, metavar="N",
                        help="how many processes convert a program's functions; as many as there are processors if absent")
    parser.add_argument("--no-cache", dest="is_kept", action="store_false",
                        help="converts each file anew; results are kept in the folder that SUYGAPID_CACHE names, or in ~/.cache/suygapid")
    parser.add_argument("--library", action="append", default=[], metavar="NAME|FOLDER",
                        help=f"a C library ({', '.join(NAMED)}), or a folder of assembly, of which the program gets what it calls, "
                             "and of headers in `include`")
    parser.add_argument("--heap", type=room, metavar="N",
                        help="what malloc gives at most, in bytes; all between the objects and the stack's room if absent")
    parser.add_argument("--gate", type=gate, action="append", default=[], metavar="NAME=SERVICE",
                        help="another function that is a gate")
    parser.add_argument("--export", type=exported, dest="exports", action="extend", default=[], metavar="NAME,..",
                        help="functions and objects that a host finds by their names, as by SFI_EXPORT of gates.h; there need be "
                             "no main then")
    parser.add_argument("--import", type=imported, dest="imports", action="extend", default=[], metavar="NAME,..",
                        help="gates that a host knows by their names, as by SFI_IMPORT")
    parser.add_argument("--no-signatures", action="store_true",
                        help="leaves out what the image tells of the parameters and results of named functions")
    parser.add_argument("--api", type=number(0, 2**32 - 1), metavar="N",
                        help="the version of the host's interface, which the image tells; 0 if absent")
    parser.add_argument("--where", type=address, action="append", default=[], metavar="ADDRESS",
                        help="writes what lies at an address of the image, such as a line of C, in place of the image")
    parser.add_argument("--cc", metavar="COMPILER", help=f"the compiler; {GCC} if absent, or {CLANG} where that isn't there")
    add_program(parser)
    add_version(parser)
    return parser


def parsed(words):
    """The options of this tool, the files in their order, and the compiler's options."""
    parser = options_parser()
    options, rest = parser.parse_known_args(words)
    files, given, options.linker = parted(rest)
    if not files:
        parser.error("a FILE of C, C++ or assembly is wanted")
    options.cc = options.cc or default_compiler()
    options.is_told = options.format is not None
    options.format = options.format or linking.usual_format(options.at, options.memory)
    options.target, options.takes_small = Target(options.format, options.movable, options.debug), False
    if options.debug and options.format not in IN_WORDS:
        parser.error(f"--debug is for {' and '.join(IN_WORDS)}")
    if options.debug and options.passes is not None:
        parser.error("--debug has passes of its own")
    given = [*DEBUG * options.debug, *given]
    for option, names in (("gate", [name for name, _ in options.gate]), ("export", options.exports), ("import", options.imports)):
        if len(set(names)) < len(names):
            parser.error(f"argument --{option}: {max(names, key=names.count)!r} is given twice")
    if options.compile and options.output and len([file for file in files if is_source(file)]) > 1:
        parser.error("-c with -o takes one source")
    return options, files, given


def parted(words):
    """The files among these words, the compiler's options, with the values of some of them in words of their own, and
    those that `-Wl,` hands to the linker."""
    files, given, linker = [], [], []
    for before, word in zip(["", *words], words):
        if word.startswith("-Wl,"):
            linker += word.split(",")[1:]
        elif before not in WITH_VALUE and (is_source(word) or word.endswith(LINKED) and not word.startswith("-")):
            files.append(word)
        else:
            given.append(word)
    return files, given, linker


def passes_of(options, given):
    """The passes that run. Where a program is to be looked at in a debugger, they keep variables in their registers."""
    levels = [word for word in given if word.startswith("-O")]
    is_looked_at = any(word.startswith("-g") for word in given) and levels[-1:] in (["-O0"], ["-Og"])
    return options.passes if options.passes is not None or not is_looked_at or options.debug else KEEPING


@dataclass(frozen=True)
class Source:
    """A source that was compiled: the compiler's options, and the path of the assembly."""
    file: str
    words: list
    assembly: str


def sources_of(options, given, files, folder):
    """The sources among these files. Compilers run side by side; what they say is told in order."""
    words = [*options_of(options.cc, given), *given]
    jobs = [(file, os.path.join(folder, str(index))) for index, file in enumerate(files) if is_source(file)]
    found = []
    with ThreadPoolExecutor(os.cpu_count()) as pool:
        for source, said in pool.map(lambda job: compiled_by(options, words, *job), jobs):
            found.append(source)
            tell(said)
    return found


def compiled_by(options, words, file, place):
    """A source, and what the compiler said. One that asks for a header of the small library is compiled again, with it, where
    no library is named."""
    try:
        assembly, said = compiled(options.cc, words, file, place, reserved(options.format))
        return Source(file, words, assembly), said
    except Failed as failed:
        failed.told += plus_plus.advice(failed.told)
        if options.library:
            raise
        if not small_library.is_asked_for(failed.told):
            failed.told += small_library.advice(failed.told)
            raise
    options.takes_small = True
    try:
        hosted = [*headers(folders_of([SMALL_LIBRARY], options.cc)), *words]
        assembly, said = compiled(options.cc, hosted, file, os.path.join(place, SMALL_LIBRARY), reserved(options.format))
        return Source(file, hosted, assembly), said
    except Failed as failed:
        failed.told += plus_plus.advice(failed.told) + small_library.advice(failed.told, small_library.speaks_of_others(failed.told))
        raise


def share_of_objects(options, given, share, jobs):
    """Makes the objects of some sources, whose assembly has names of its own, by so many processes; what `as` said by object."""
    sources = [source for source, _ in share]
    with ThreadPoolExecutor(1) as pool:
        signatures = pool.map(lambda source: signatures_of(options, source), sources)
        texts = rewritten_each([source.assembly for source in sources], options.target, passes_of(options, given), jobs, options.is_kept)
        return {output: assembled(text + lines, output) for (_, output), text, lines in zip(share, texts, signatures)}


def signatures_of(options, source):
    """What a source's object tells of its functions, as GNU assembly."""
    if options.no_signatures:
        return b""
    return lines_of(options.cc, source.words, source.file, source.assembly, (options.exports, options.imports))


def outputs_of(options, files, folder):
    """Where the objects of the sources go."""
    sources = list(filter(is_source, files))
    names = [os.path.splitext(os.path.basename(file))[0] + ".o" for file in sources]
    if options.compile:
        return [options.output or name for name in names]
    return [os.path.join(folder, f"{number}.o") for number in range(len(sources))]


def objects_of(options, given, files, sources, folder):
    """The files with objects in the places of sources."""
    outputs, said = outputs_of(options, files, folder), {}
    with ThreadPoolExecutor(options.jobs) as pool:
        made = [pool.submit(share_of_objects, options, given, share, count)
                for share, count in shares_of_sources(list(zip(sources, outputs)), options.jobs)]
        for share in made:
            said.update(share.result())
    tell(b"".join(said[output] for output in outputs))
    return with_outputs(files, outputs)


def shares_of_sources(made, jobs):
    """Sources, each with its output, in shares that are converted side by side, each by a number of processes: a source that is long
    by several, and others together by one, which begins once for all of them."""
    sizes = [os.path.getsize(source.assembly) for source, _ in made]
    total = sum(sizes) or 1
    counts = [-(-jobs * size // total) or 1 for size in sizes]
    short = [number for number, count in enumerate(counts) if count == 1]
    shares = shares_of([sizes[number] for number in short], -(-jobs * sum(sizes[number] for number in short) // total) or 1)
    return [*(([each], count) for each, count in zip(made, counts) if count > 1),
            *((part, 1) for share in shares for part in without_doubles([made[short[at]] for at in sorted(share)]))]


def without_doubles(share):
    """A share in as many as it takes for no two files of assembly in one to have the same name."""
    seen, parts = Counter(), {}
    for source, output in share:
        name = os.path.basename(source.assembly)
        parts.setdefault(seen[name], []).append((source, output))
        seen[name] += 1
    return list(parts.values())


def with_outputs(files, outputs):
    """The files with these outputs in the places of sources."""
    made = iter(outputs)
    return [next(made) if is_source(file) else file for file in files]


def with_fewer_small(options, sources, limit, folder):
    """The sources with small objects of at most so many bytes; None where the compiler has to make them anew."""
    found = []
    for source in sources:
        if source.file.endswith((*SOURCES, *PLUS_PLUS_SOURCES)):
            with open(source.assembly, encoding="utf-8", errors="surrogateescape") as file:
                text = None if is_clang(options.cc) else with_limit(file.read(), limit)
            if text is None:
                return None
            assembly = os.path.join(tempfile.mkdtemp(dir=folder), os.path.basename(source.assembly))
            with open(assembly, "w", encoding="utf-8", errors="surrogateescape") as file:
                file.write(text)
            source = replace(source, assembly=assembly)
        found.append(source)
    return found


def may_have_room(options, files, sources, folder):
    """Whether small objects may have room. A long program is linked for that before it's converted, where a library is named."""
    assemblies = [source.assembly for source in sources]
    if small_bytes(assemblies) > ROOM:
        return False
    if not options.library or sum(map(os.path.getsize, assemblies)) < LONG:
        return True
    room = tempfile.mkdtemp(dir=folder)
    outputs = outputs_of(options, files, room)
    try:
        with ThreadPoolExecutor(options.jobs) as pool:
            list(pool.map(assembled_file, assemblies, outputs))
    except Failed:
        return True  # what the converter or `as` says of it comes later
    return linking.has_room(options, with_outputs(files, outputs), room)


def program_of(options, given, files, folder):
    """The linked program. Where its small objects have no room, which the linker says at last, fewer are small, unless an
    option says which."""
    limits, sources = LIMITS[:1] if any(word.startswith(LIMIT) for word in given) else LIMITS, []
    for limit in limits:
        room, is_last = os.path.join(folder, str(limit)), limit == limits[-1]
        os.mkdir(room)
        words = given if limit == SMALL else [f"{LIMIT}{limit}", *given]
        sources = with_fewer_small(options, sources, limit, room) or sources_of(options, words, files, room)
        if not is_last and not may_have_room(options, files, sources, room):
            continue
        try:
            return linking.linked(options, objects_of(options, words, files, sources, room), room)
        except Failed as failed:
            if linking.TOO_MANY_SMALL not in failed.told or is_last or not any(map(is_source, files)):
                raise
    return None


def written(options, program):
    """What of a linked program is wanted: the ELF file, what lies at addresses, or the image, which has been checked."""
    made = image([program])
    tell(too_long_lists(made))
    if options.keep is not None:
        write(options.keep, program.content)
    if options.where:
        return told(program, options.where)
    if options.output and options.output.endswith(".elf"):
        return program.content
    run([options.program, "check"], as_text(made))
    return made if options.output and options.output.endswith(".image") else as_text(made)


def write(output, content):
    try:
        with open(output if output is not None else sys.stdout.fileno(), "wb", closefd=output is not None) as file:
            file.write(content)
    except OSError as error:
        raise Failed(2, f"{output or 'standard output'} can't be written: {error.strerror}") from error


def main():
    options, files, given = parsed(sys.argv[1:])
    try:
        options.library = folders_of(options.library, options.cc)
        given = [*headers(options.library), *["-fno-exceptions"] * options.target.is_movable, *given]
        with tempfile.TemporaryDirectory() as folder:
            if options.compile:
                objects_of(options, given, files, sources_of(options, given, files, folder), folder)
            else:
                write(options.output, written(options, program_of(options, given, files, folder)))
    except Failed as failed:
        tell(failed.told)
        if linking.SEVERAL_FORMATS in failed.told and not options.is_told:
            print(f"sfi-cc: without --format this program is of format {options.format}", file=sys.stderr)
        print(f"sfi-cc: {failed}", file=sys.stderr)
        return failed.status
    except Wrong as wrong:
        print(f"sfi-cc: {wrong}", file=sys.stderr)
        return 1
    return 0
