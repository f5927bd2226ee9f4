"""Reads object files, and assembles those that are assembly."""
import os
import re
import subprocess
import tempfile

from suygapid.validate.machine_code import LINE
from suygapid.validate.objects import NotAnObject, ObjectFile

BINUTILS = os.environ.get("SFI_BINUTILS", "riscv64-unknown-elf-")
AS = ["-march=rv32imc", "-mabi=ilp32", "-mno-relax", "-mno-arch-attr"]
INSTRUCTION = re.compile(r"\s*(?:[\w.$]+:\s*)*[a-z][\w.]*(\s|$)(?!\s*=)")
DEBUG = re.compile(r"\s*\.(?:loc\s|file\s+\d)")


class Failed(Exception):
    """A file that can't be read or assembled."""


def assembled(text):
    with tempfile.TemporaryDirectory() as folder:
        output = os.path.join(folder, "it.o")
        try:
            done = subprocess.run([BINUTILS + "as", *AS, "-o", output, "-"], input=text, capture_output=True, check=False)
        except OSError as error:
            raise Failed(f"{BINUTILS}as can't be run: {error.strerror}") from error
        if done.returncode:
            raise Failed(done.stderr.decode("utf-8", "replace").strip())
        return content_of(output)


def content_of(path):
    try:
        with open(path, "rb") as file:
            return file.read()
    except OSError as error:
        raise Failed(f"{path}: {error.strerror}") from error


def object_of(path, content):
    try:
        return ObjectFile(content)
    except NotAnObject as wrong:
        raise Failed(f"{path}: {wrong}") from wrong


def with_lines(text):
    """An assembly without lines for debuggers, and with a label before each instruction that tells its line."""
    lines = ["" if DEBUG.match(line) else f"{LINE}{number}: {line}" if INSTRUCTION.match(line) else line
             for number, line in enumerate(text.splitlines(), 1)]
    return "\n".join(lines) + "\n"


def compilers_object(path):
    text = content_of(path).decode("utf-8", "surrogateescape")
    return object_of(path, assembled(with_lines(text).encode("utf-8", "surrogateescape")))


def rewritten_object(path):
    content = content_of(path)
    return object_of(path, content if content.startswith(b"\x7fELF") else assembled(content))
