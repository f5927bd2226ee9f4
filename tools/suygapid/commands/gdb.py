"""Debugs a program that tools/sfi-cc linked, by gdb: as a sandbox with the console's services.

    tools/sfi-gdb [OPTIONS] PROGRAM.elf [OPTIONS OF GDB]

Starts gdb with the program at its first instruction: `break main` and `continue` come next, and `run` begins anew. What the
program puts is shown, and what it gets is that of --input. docs/C.md says more.
"""
import argparse
import os
import shlex
import shutil
import signal
import sys

import sfi_run
from suygapid import TOOLS
from suygapid.commands.options import add_version, digits
from suygapid.elf.elf import Elf, Wrong
from suygapid.gdb.machine import Machine
from suygapid.gdb.packets import over_pipe, over_port
from suygapid.gdb.stub import Stub


def parsed(words):
    parser = argparse.ArgumentParser(prog="sfi-gdb", usage="sfi-gdb [OPTIONS] PROGRAM.elf [OPTIONS OF GDB]",
                                     description=__doc__.split("\n", maxsplit=1)[0], allow_abbrev=False)
    how = parser.add_mutually_exclusive_group()
    how.add_argument("--gdb", default="gdb-multiarch", metavar="GDB", help="the gdb, one that knows RISC-V; %(default)s if absent")
    how.add_argument("--port", type=int, metavar="N",
                     help="starts no gdb, and waits for one at a port of this machine: `target extended-remote :N` there")
    how.add_argument("--pipe", action="store_true", help="starts no gdb, and speaks with the one that started it")
    parser.add_argument("--input", type=digits, default=b"", metavar="HEX", help="what the program reads")
    add_version(parser)
    parser.add_argument("program", metavar="PROGRAM.elf", help="a linked program, compiled with -g")
    of_gdb = parser.add_argument("words", nargs=argparse.REMAINDER, metavar="OPTIONS OF GDB", help="such as -x FILE")
    of_gdb.required = False  # else argparse asks for them where no program is named
    return parser.parse_args(words)


def start_gdb(options):
    """Becomes gdb, which starts this tool once more, at the other end of a pipe."""
    if shutil.which(options.gdb) is None:
        raise Wrong(f"{options.gdb} isn't there: install Debian's package gdb-multiarch, or name another gdb by --gdb")
    served = shlex.join([sys.executable, os.path.join(TOOLS, "sfi-gdb"), "--pipe", f"--input={options.input.hex()}", options.program])
    begin = ["set remotetimeout 60", f"target extended-remote | {served}"]  # gdb would ask again after 2 s
    os.execvp(options.gdb, [options.gdb, "-q", options.program, *(word for it in begin for word in ("-ex", it)), *options.words])


def main():
    options = parsed(sys.argv[1:])
    try:
        machine = Machine(Elf(options.program), options.input)
        if not options.pipe and options.port is None:
            start_gdb(options)
        signal.signal(signal.SIGINT, signal.SIG_IGN if options.pipe else signal.SIG_DFL)  # gdb says when to stop
        Stub(machine, over_pipe() if options.pipe else over_port(options.port)).serve()
    except (EOFError, ConnectionError):
        return 0
    except (Wrong, OSError, sfi_run.Refused, sfi_run.NoImage) as error:
        print(f"sfi-gdb: {error}", file=sys.stderr)
        return 1
    return 0
