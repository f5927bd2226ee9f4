"""Where the shared libraries are that these packages load."""
from __future__ import annotations

import os
import pathlib


def places(crate: str, package: pathlib.Path) -> list[str]:
    """Where the library of a crate is, which a package loads, the first before the others: what its variable names, as SFI_RUN_LIBRARY
    that of sfi_run; in the package, as pip installs it; in the repository or the installation that holds the package; at the usual
    places; where the system looks."""
    named = os.environ.get(f"{crate.upper()}_LIBRARY")
    if named:
        return [named]
    name = f"lib{crate}.so"
    folders = [package, pathlib.Path.home() / ".local" / "lib", pathlib.Path("/usr/local/lib")]
    above = package.parents
    if len(above) > 4:
        folders[1:1] = [above[2] / "crates" / crate / "out" / "linked", above[4] / "lib"]
    return [str(it / name) for it in folders if (it / name).exists()] + [name]
