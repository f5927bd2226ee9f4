"""What each program is linked with: where it begins, the gates that it calls, and the functions that compilers call. These
are made once for a format, and kept."""
import os

from suygapid import TOOLS
from suygapid.cc.compilers import ran, version
from suygapid.elf.gates import stub
from suygapid.elf.tools import CONVERTER, Target, archived, assembled, binutil, rewritten, texts_of
from suygapid.kept import kept
from suygapid.services import GATES

LIB = os.path.join(TOOLS, "suygapid", "runtime")
SCRIPT = os.path.join(LIB, "sandbox.ld")
EXCEPTIONS = ["-T", os.path.join(LIB, "exceptions.ld")]  # what goes before the script for a program that has them
FUNCTIONS = [*(os.path.join(LIB, f"{name}.asm") for name in ("constructors", "runtime", "atomics", "stack_protector", "heap")),
             os.path.join(LIB, "save_restore.s")]
HEAP_CHECKS = os.path.join(LIB, "heap_checks.asm")  # the malloc of programs that stop at mistakes
OF_MOVABLE = [os.path.join(LIB, "movable.s"), os.path.join(LIB, "settle.asm")]  # what a moved program runs before all else
# What a program or a library may have its own of: the last are those of C++, and `new` and `delete`.
OVERRIDDEN = ("memcpy", "memmove", "memset", "memcmp", "strlen", "__cxa_pure_virtual", "_Znwj", "_Znaj", "_ZdlPv", "_ZdaPv", "_ZdlPvj",
              "_ZdaPvj")
MADE_OF = (*CONVERTER, "suygapid/services.py", "suygapid/runtime/*.asm", "suygapid/runtime/*.s", "suygapid/cc/compilers.py",
           "suygapid/elf/*.py", "suygapid/library/archives.py", "../examples/c/gates.h")


def ingredients(target: Target) -> list[str]:
    """What the objects for a target depend on beside their assembly: the converter, and `as`."""
    return [*target.words(), version(binutil("as")), *texts_of(MADE_OF)]


def name_of(path: str) -> str:
    return os.path.splitext(os.path.basename(path))[0]


def object_of(folder: str, assembly: str, target: Target) -> str:
    """The path of an object file that is made of a compiler's assembly."""
    output = os.path.join(folder, name_of(assembly) + ".o")
    assembled(rewritten(assembly, target), output)
    return output


def gate_object(folder: str, name: str, service: int, image_format: str, entry: str = "") -> str:
    output = os.path.join(folder, name + ".o")
    assembled((stub(name, service, image_format) + entry).encode(), output)
    return output


def make(folder: str, target: Target) -> None:
    """Fills a folder with crt0.o, libgates.a, libmovable.a, libplugin.a and libruntime.a, and with heap_checks.o, if it's wanted."""
    object_of(folder, os.path.join(LIB, "crt0.s"), target)
    archived(os.path.join(folder, "libmovable.a"), [object_of(folder, path, target) for path in OF_MOVABLE])
    archived(os.path.join(folder, "libgates.a"),
             [gate_object(folder, name, service, target.format) for name, service in GATES.items()])
    archived(os.path.join(folder, "libplugin.a"), [object_of(folder, os.path.join(LIB, "plugin.s"), target)])
    objects = []
    for path in FUNCTIONS:
        objects.append(object_of(folder, path, target))
        ran([binutil("objcopy"), *(f"--weaken-symbol={name}" for name in OVERRIDDEN), objects[-1]])
    archived(os.path.join(folder, "libruntime.a"), objects)
    if target.is_checking:
        object_of(folder, HEAP_CHECKS, target)


def folder_of(target: Target) -> str:
    return kept("runtime", ingredients(target), lambda folder: make(folder, target))
