"""The proved checker for RV32, as the tests of firmwares link it."""
import functools
import os
import pathlib
import subprocess
import tempfile
import unittest

from suygapid import TOP

LIBRARY = pathlib.Path(TOP) / "crates" / "sfi_c" / "out" / "wasm64-unknown-unknown" / "libsfi_c.a"
ISNT_THERE = 3  # the status of checker.sh where a tool is missing
ROOM = tempfile.TemporaryDirectory()


@functools.cache
def made():
    """CHECKER of the environment, or one that is made of the proved library; skips the test where that can't be."""
    if "CHECKER" in os.environ:
        return pathlib.Path(os.environ["CHECKER"]).resolve()
    if not LIBRARY.is_file():
        raise unittest.SkipTest(f"{LIBRARY} isn't there: tools/build_library.py makes it")
    ran = subprocess.run([os.path.join(TOP, "device", "checker.sh"), LIBRARY, ROOM.name], stderr=subprocess.PIPE, text=True, check=False)
    if ran.returncode == ISNT_THERE:
        raise unittest.SkipTest(ran.stderr.strip())
    ran.check_returncode()
    return pathlib.Path(ROOM.name, "checker.o")
