"""Source trees of GCC and newlib: a folder or an archive that is named, or the archive in Debian's package."""
import glob
import os
from dataclasses import dataclass
from typing import Optional

from suygapid.cc.compilers import Failed, ran
from suygapid.kept import kept


@dataclass(frozen=True)
class Package:
    """A source tree: Debian's package, the archive in it, and the environment's variable that names another path."""
    name: str
    archives: str
    variable: str

    def where(self) -> Optional[str]:
        """The path of the tree, or None."""
        named = os.environ.get(self.variable)
        if named and not os.path.exists(named):
            raise Failed(2, f"{named}, which {self.variable} names, isn't there")
        return named or max(glob.glob(self.archives), default=None)

    def is_named(self) -> bool:
        """Whether the environment names a tree."""
        return bool(os.environ.get(self.variable))

    def path(self) -> str:
        """The same; where there is none, what is wanted is told as a failure."""
        found = self.where()
        if found is None:
            raise Failed(2, self.wanted())
        return found

    def wanted(self) -> str:
        return f"install Debian's package {self.name}, or name a folder or an archive of these sources in {self.variable}"


GCC_SOURCE = Package("gcc-12-source", "/usr/src/gcc-*/gcc-*.tar.xz", "GCC_SOURCE")
NEWLIB_SOURCE = Package("newlib-source", "/usr/src/newlib/newlib-*.tar.xz", "NEWLIB_SOURCE")


def identity(path: str) -> str:
    """What tells one state of a file or of a folder from another."""
    status = os.stat(path)
    return f"{os.path.realpath(path)} {status.st_size} {status.st_mtime_ns}"


def unpacked(package: Package, *parts: str) -> str:
    """The folder of a tree, with these parts of it at least."""
    path = package.path()
    if os.path.isdir(path):
        return path
    members = [f"*/{part}" for part in parts]
    return kept(package.name, [identity(path), *parts], lambda folder: ran(
        ["tar", "-xf", path, "-C", folder, "--strip-components=1", "--no-same-owner", "--wildcards", *members]))
