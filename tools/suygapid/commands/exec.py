"""Runs programs that tools/sfi-cc linked by `sfi exec`, and says of a trap which line of C it is.

    tools/sfi-exec [OPTIONS] PROGRAM.elf ..
    tools/sfi-exec --dir HOST[=GUEST][:ro] .. [--env NAME=VALUE] .. [OPTIONS] PROGRAM.elf [-- WORD ..]

Standard input and output are the programs'. After what `sfi exec` says of a trap there is a line for the pc, as by `sfi-cc
--where`, and one for the address of an access. Where the registers tell the line of the caller it comes last, and else, where no line
is known of the pc, that of the return address in x1.

With a folder, a variable or words one program is run, whose host has files, a clock and random bytes: by the library libsfi_run,
bindings/python/sfi_run/files.py. On Linux on x86-64 one program is run by native code (suygapid/native).
"""
import argparse
import os
import re
import subprocess
import sys
import tempfile

from suygapid import native
from suygapid.cc.compilers import Failed, tell
from suygapid.commands.options import add_program, add_version
from suygapid.elf.elf import Elf, Wrong
from suygapid.elf.image import as_text, image
from suygapid.elf.where import Where, lines_of
from suygapid.image import layout, names

TRAP = re.compile(r"^sandbox=(\d+) trap=(\w+) at=([0-9a-f]{8})", re.MULTILINE)
PLACE = re.compile(r"^sandbox=(\d+) pc=([0-9a-f]{8}).*\n((?:x\d+=.*\n){4})", re.MULTILINE)
ACCESSES = ("Load", "Store")
READ_ONLY = ":ro"
FILES, NONE = b"sfi_system", str((1 << 32) - 1)  # the import of the gate for files, and an address that no gate has
FAULT, TRAPPED, USED = 125, 126, 124  # statuses, as of `sfi exec`


def folder(text):
    """The folder that an option names: HOST, GUEST, and whether nothing in it may change."""
    is_read_only = text.endswith(READ_ONLY)
    host, _, guest = (text[:-len(READ_ONLY)] if is_read_only else text).partition("=")
    return host, guest or "/", is_read_only


def variable(text):
    name, found, value = text.partition("=")
    if not name or not found:
        raise argparse.ArgumentTypeError(f"{text!r} isn't NAME=VALUE")
    return name, value


def count(text):
    if not text.isdecimal() or not text.isascii():
        raise argparse.ArgumentTypeError(f"{text!r} is no number of steps")
    return text


def parsed(words):
    parser = argparse.ArgumentParser(prog="sfi-exec", description=__doc__.split("\n", maxsplit=1)[0], allow_abbrev=False)
    parser.add_argument("programs", nargs="+", metavar="PROGRAM.elf", help="a linked program")
    parser.add_argument("--budget", type=count, metavar="N", help="steps that each may do at most, as of `sfi exec`")
    parser.add_argument("--dir", action="append", default=[], type=folder, metavar="HOST[=GUEST][:ro]",
                        help="a folder that the program sees, as GUEST, or else as /; with :ro it changes nothing there")
    parser.add_argument("--env", action="append", default=[], type=variable, metavar="NAME=VALUE", help="a variable that it sees")
    parser.add_argument("--interpret", action="store_true", help="go step by step, not by native code")
    add_program(parser)
    add_version(parser)
    end = words.index("--") if "--" in words else len(words)
    options = parser.parse_args(words[:end])
    options.words = words[end + 1:]
    options.has_host = bool(options.dir or options.env or "--" in words)
    if options.has_host and len(options.programs) > 1:
        parser.error("--dir, --env and words behind -- are for one program")
    return options


def run_natively(options, made):
    """The status of a program with a host that has files, by native code, and what is said of it on standard error; None where that
    can't be."""
    if options.interpret:
        return None
    folders = [word for host, guest, is_read_only in options.dir for word in ("--dir", host, guest, "ro" if is_read_only else "rw")]
    variables = [word for name, value in dict(options.env).items() for word in ("--env", f"{name}={value}")]
    words = [os.path.basename(options.programs[0]), *options.words]
    gate = next((str(number) for _, number, name in names.lists(layout.parts(made)[0].init)[1] if name == FILES), NONE)
    found = native.run(options.program, made, [gate, *folders, *variables, "--", *words], options.budget)
    if found is not None and found[0] < 0:
        raise Failed(FAULT, f"the host of native code ended by signal {-found[0]}")
    return found


def run(options, made):
    """The status of `sfi exec`, and what it says on standard error."""
    with tempfile.NamedTemporaryFile(suffix=".hex") as file:
        file.write(as_text(made))
        file.flush()
        how = ["--interpret"] if options.interpret else []
        budget = [] if options.budget is None else ["--budget", options.budget]
        try:
            words = [*native.program_words(options.program), "exec", *how, file.name, *budget]
            done = subprocess.run(words, stderr=subprocess.PIPE, check=False)
        except OSError as error:
            raise Failed(FAULT, f"{options.program} can't be run: {error.strerror}") from error
    return done.returncode, done.stderr


def registers_of(said):
    """x0 to x31, of which all but the first are told."""
    return [0, *(int(it, 16) for it in re.findall(r"=([0-9a-f]{8})", said))]


def told(programs, said):
    """The lines of what lies at the places of the traps that were told."""
    from sfi_run import frames  # which takes long, and few programs trap
    places = {number: (int(pc, 16), registers_of(told)) for number, pc, told in PLACE.findall(said)}
    for number, cause, at in TRAP.findall(said):
        program = programs[int(number)]
        where, (pc, x) = Where(program), places[number]
        caller = next(frames.Program(program.path).callers(pc, x, lambda at: None), 0)
        line, calling, returning = lines_of(program, [pc, *(max(it, 1) - 1 for it in (caller, x[1]))])
        found = [(pc, line)] + ([(int(at, 16), "")] if cause in ACCESSES else [])
        found += [(caller, calling)] if calling else [] if line else [(x[1], returning)]
        yield from (f"{address:08x}: {where.told(address, text)}\n" for address, text in found)


def state_text(now):
    """The pc and the registers, as `sfi exec` tells them."""
    texts = [f"x{number}={now.x[number]:08x}" for number in range(32)]
    return f"sandbox=0 pc={now.pc:08x}\n" + "".join(" ".join(texts[max(at, 1):at + 8]) + "\n" for at in range(0, 32, 8))


def run_with_files(options, made):
    """The status of a program with a host that has files, and what is said of it on standard error."""
    from sfi_run import Exited, NoImage, Refused, Trapped, World, files
    folders = [files.Folder(*it) for it in options.dir]
    words = [os.path.basename(options.programs[0]), *options.words]
    steps = files.NO_END if options.budget is None else min(int(options.budget), files.NO_END)
    try:
        with World(made) as world, files.Files(folders, words=words, environment=dict(options.env)) as host:
            event = host.run(made, world[0], steps=steps)
            now, done = world[0].registers, world[0].steps
    except (NoImage, Refused, ValueError, MemoryError) as error:
        raise Failed(FAULT, str(error) or "memory ran out") from error
    if isinstance(event, Exited):
        return event.number & 0xFF, b""
    state = f"trap={event.cause.name.capitalize()} at={event.address:08x}" if isinstance(event, Trapped) else "ready"
    return TRAPPED if isinstance(event, Trapped) else USED, f"sandbox=0 {state} steps={done}\n{state_text(now)}".encode()


def main():
    options = parsed(sys.argv[1:])
    try:
        programs = [Elf(path) for path in options.programs]
        made = image(programs)
        status, said = run_natively(options, made) or run_with_files(options, made) if options.has_host else run(options, made)
        if said:
            tell(said)
            tell("".join(told(programs, said.decode("ascii", "replace"))).encode())
    except (Failed, Wrong, OSError) as error:
        reason = f"{error.filename}: {error.strerror}" if isinstance(error, OSError) and error.filename else error
        print(f"sfi-exec: {reason}", file=sys.stderr)
        return error.status if isinstance(error, Failed) else FAULT
    return status
