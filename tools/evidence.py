#!/usr/bin/env python3
"""Prints the evidence for the theorem as one page, which tools/verify_evidence.py compares with a checkout.

    ./sfi evidence LOG > FILE      # LOG is what `rt ci --anew` printed, which takes long
    ./sfi evidence --safety LOG > FILE
    tools/verify_evidence.py FILE

The page has the kit's line; of each crate the last line of its check, its axioms by name, hashes of its definitions and its
sources, and that the functions below are proved; hashes of the libraries that are built; and the contracts of `check`, of
`check_stream`, of the C library's `sfi_c_check` and of a `World`, each with the definitions of this repository on which it
rests, printed whole, with their files' hashes, and the toolchain's words that these cite. First is the contract of `check`, with
the definitions by which its clauses `accepted` and `safe` say that accepted bytes are an image whose sandboxes run safely: no
rule is among them. With --safety the page has these alone. The last line is the hash of all above. That LOG is what a run over
these sources printed is the word of whoever makes the page.
"""
import pathlib
import shutil
import subprocess
import sys
from dataclasses import dataclass

TOP = pathlib.Path(__file__).resolve().parent.parent
sys.dont_write_bytecode = True
import declarations
import definitions
import installed
import kit_words
import statements
import version
from crate_hashes import crate_line, hash_of

THEOREM = "\n## The theorem\n"
KIT_WORDS = "\n## Words of the toolchain\n"
HASH = "page sha256="
NOT_BUILT = "none"
RELEASED = "evidence/page.txt"  # where a release has its page
NO_LOG = "prove all first, by `rt ci --anew > LOG`, which takes long, and then make the page, by `./sfi evidence LOG > FILE`"
OF_KIT = """
The definitions above cite these, which cite others in turn. The kit's `logic` is a sum of libraries that
logic/antt-project.json mounts, which are below logic/ and antt/: it covers no file of core/ or std/. So the hash of each file
stands here, above the words that are declared in it.

"""


@dataclass
class Kind:
    """A kind of page: the beginning of its first line, and what it states."""
    title: str
    stated: list


WHOLE = Kind("# Evidence for the theorem of Suygapid ", statements.STATEMENTS)
SAFETY = Kind("# Evidence for safety alone of Suygapid ", [statements.SAFETY])


def kind_of(text):
    """The kind of which a page says that it is."""
    return SAFETY if text.startswith(SAFETY.title) else WHOLE


# ---- what was built and proved

def verdicts(log, stated):
    """Of each crate in a log of `rt ci` the lines of the functions whose contracts the page has and those that name its axioms,
    and the last line of its check: more than one where they differ. What rt prints when it compiles a program that it has
    checked repeats that line, with one word more."""
    found, crate, told = {}, None, []
    for line in log.splitlines():
        if line.startswith("== "):
            crate, told = line[3:], []  # of its tests that is `CRATE: its tests`
        elif crate and (line.startswith("axioms ") or line in statements.proved_lines(crate, stated)):
            told.append(f"{crate} {line}")
        elif line.startswith("logic=") and crate:
            lines = found.setdefault(crate, [])
            fresh = [*sorted(told), f"verdict {crate} {line.removesuffix(' crate-checked=trusted')}"]
            lines += [it for it in fresh if it not in lines]
    return found


def library_lines():
    """A line for each library and program that is built of the crates, or has to be."""
    found = [(it.relative_to(TOP), f"sha256={hash_of(it.read_bytes())}" if it.is_file() else NOT_BUILT) for it in installed.built()]
    return [f"built {path} {told}" for path, told in found]


def title(kind=WHOLE):
    return kind.title + version.version()


def kit():
    """What `rt version` says, or None where there is no command rt."""
    if not shutil.which("rt"):
        return None
    return subprocess.run(["rt", "version"], capture_output=True, text=True, check=True).stdout.strip()


# ---- the page

def kit_section(cited):
    """The toolchain's words, or None where there is no toolchain."""
    folder = kit_words.folder()
    return OF_KIT.lstrip("\n") + kit_words.told(folder, cited) if folder else None


def page(log, kit_line, kind=WHOLE):
    found, told = verdicts(log, kind.stated), statements.told(kind.stated)
    lines = [title(kind), "", f"kit {kit_line}"]
    for crate in definitions.crate_names():
        lines += [crate_line(crate), *found.get(crate, [f"verdict {crate} none in the log"])]
    text = "\n".join(lines + library_lines()) + "\n" + THEOREM + "\n" + told.text
    text += KIT_WORDS + "\n" + (kit_section(told.kit_words) or "")
    return f"{text}\n{HASH}{hash_of(text.encode())}\n"


def fail(text):
    released = f"; this release's page is {RELEASED}" if (TOP / RELEASED).is_file() else ""
    sys.exit(text + released)


def main(words):
    if words in (["--help"], ["-h"]):
        print(__doc__.strip())
        return
    kind = SAFETY if words[:1] == ["--safety"] else WHOLE
    words = words[1:] if kind is SAFETY else words
    if len(words) != 1:
        fail(f"usage: ./sfi evidence [--safety] LOG > FILE: {NO_LOG}")
    log, kit_line = pathlib.Path(words[0]), kit()
    if not log.is_file():
        fail(f"evidence: there is no file {log}: {NO_LOG}")
    if kit_line is None:
        fail("evidence: the Rattle toolchain isn't there (no command rt), whose version and words the page has")
    text = log.read_text(encoding="utf-8", errors="replace")
    missing = [it for it in definitions.crate_names() if it not in verdicts(text, kind.stated)]
    if missing:
        fail(f"evidence: {log} isn't the log of a whole `rt ci --anew`: it has no verdict on {', '.join(missing)}: {NO_LOG}")
    try:
        sys.stdout.write(page(text, kit_line, kind))
    except declarations.Unreadable as error:
        fail(f"evidence: {error}")


if __name__ == "__main__":
    main(sys.argv[1:])
