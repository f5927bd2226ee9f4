"""Makes a whole C library for sandboxes: compiles newlib's own sources, with floating point by GCC's and what newlib
asks of an operating system by the gates, into a folder that `sfi-cc --library FOLDER` takes.

    tools/sfi-library FOLDER

The folder has the assembly of each file, and the headers in `include`. It must not be there, or be such a folder, which
the new one replaces. The sources are those of Debian's packages newlib-source and gcc-12-source, or what NEWLIB_SOURCE and
GCC_SOURCE in the environment name. docs/C.md says more.
"""
import argparse
import os
import shutil
import sys

from suygapid.cc.compilers import Failed, default_compiler, tell
from suygapid.commands.options import add_version
from suygapid.library import newlib


def parsed(words):
    parser = argparse.ArgumentParser(prog="sfi-library", description=__doc__.split("\n\n", maxsplit=1)[0])
    parser.add_argument("folder", metavar="FOLDER", help="where the library goes")
    parser.add_argument("--cc", metavar="COMPILER", help="the compiler, as that of sfi-cc")
    add_version(parser)
    options = parser.parse_args(words)
    options.cc = options.cc or default_compiler()
    return options


def replaceable(folder):
    """Whether a folder isn't there, or is an empty one, or an older library."""
    return not os.path.exists(folder) or os.path.isdir(folder) and (
        not os.listdir(folder) or os.path.exists(os.path.join(folder, newlib.MARK)))


def made(options):
    if not replaceable(options.folder):
        raise Failed(2, f"{options.folder} is there, and is no library")
    kept = newlib.folder_of(options.cc)
    if os.path.exists(options.folder):
        shutil.rmtree(options.folder)
    shutil.copytree(kept, options.folder)


def main():
    try:
        made(parsed(sys.argv[1:]))
    except Failed as failed:
        tell(failed.told)
        print(f"sfi-library: {failed}", file=sys.stderr)
        return failed.status
    return 0
