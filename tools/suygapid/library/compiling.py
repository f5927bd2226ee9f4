"""Compiles the files of a library, several at a time."""
import os
import shutil
from concurrent.futures import ThreadPoolExecutor
from typing import Iterable, Sequence

from suygapid.cc.compilers import compiled

Job = tuple[str, str, Sequence[str]]  # a file, the name of its assembly without an ending, and the file's own options


def compile_into(folder: str, compiler: str, options: Sequence[str], jobs: Iterable[Job]) -> None:
    """Puts the assembly of each job's file into a folder."""
    room = os.path.join(folder, "room")
    os.makedirs(room)

    def compile_one(job: Job) -> None:
        path, name, own = job
        assembly, _ = compiled(compiler, [*options, *own], path, os.path.join(room, name))
        os.rename(assembly, os.path.join(folder, f"{name}.asm"))

    with ThreadPoolExecutor(os.cpu_count()) as pool:
        list(pool.map(compile_one, jobs))
    shutil.rmtree(room)
