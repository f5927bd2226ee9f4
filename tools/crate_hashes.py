"""Hashes of the sources of crates, as the log of tools/gate.py begins with them and a page of evidence has them."""
import hashlib
import pathlib
import re

TOP = pathlib.Path(__file__).resolve().parent.parent


def hash_of(data):
    return hashlib.sha256(data).hexdigest()


def hash_of_files(paths):
    """One hash of the names and the bytes of files, in the order of the names."""
    lines = (f"{hash_of(it.read_bytes())}  {it.relative_to(TOP)}\n" for it in sorted(paths))
    return hash_of("".join(lines).encode())


def crate_line(crate):
    """The hashes of a crate's definitions and of all its sources."""
    folder = TOP / "crates" / crate
    specs = list(folder.glob("specs/**/*.antt"))
    sources = [it for part in ("src", "specs", "proofs") for it in (folder / part).glob("**/*") if it.suffix in (".rt", ".antt")]
    return f"crate {crate} definitions={hash_of_files(specs)} sources={hash_of_files(sources)}"


def lines():
    """Those of all crates, lowest first."""
    names = re.findall(r"^\w+", (TOP / "crates.txt").read_text(encoding="utf-8"), re.MULTILINE)
    return [crate_line(it) for it in names]
