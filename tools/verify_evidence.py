#!/usr/bin/env python3
"""Says whether a page of tools/evidence.py is of this checkout, and whether its verdicts prove each crate.

    tools/verify_evidence.py FILE

It makes the page's contracts and definitions anew from this checkout, and, where the command rt is there, the toolchain's
words, and compares them and all other lines: version, hashes of crates and of what is built, and the kit and its logic, which
have to be those that README.md names. Of each crate it takes one verdict, with words and values that a check from nothing
has. A line `not compared: WHAT` says what isn't there to compare with. The last line is `yes`, or each is `no: WHY`, and the
status 0 or 1. That the verdicts are what a run over these sources printed can't be seen here: it is the word of whoever made
the page, and `rt ci --anew` repeats the run.
"""
import functools
import pathlib
import re
import sys

sys.dont_write_bytecode = True
import declarations
import definitions
import evidence
import statements

NUMBER = r"0|[1-9]\d*"
# What the toolchain's own threads may call, of which docs/THEOREM.md says that ours start none.
OF_THREADS = ("_exit|abort|free|malloc|pthread_attr_(?:destroy|init|setguardsize|setstacksize)|pthread_(?:create|detach|join|self)"
              "|sched_yield|syscall")
# The words of the last line of a check from nothing, and the values that each may have but for `functions`, `axioms` and `sum`.
WORDS = {
    "logic": "proved", "functions": NUMBER, "axioms": r"[1-9]\d*", "target": "x86_64-unknown-linux-gnu", "cpu": "x86-64-v2",
    "sum": "[0-9a-f]{16}", "native": "nat,char,string", "logic-built": "trusted", "libraries-built": "trusted",
    "statements": "trusted", "threads": f"(?:{OF_THREADS})(?:,(?:{OF_THREADS}))*",
}
# Only a program or a static library is built for a target, and reaches C functions; of these a program alone has threads.
OF_LINKED = {"axioms", "target", "cpu", "threads"}
HEAP = {"libc": [f"libc::heap::rattle_{it}" for it in ("alloc", "dealloc", "realloc")]}
# The C functions whose contracts a crate rests on: by their library, their names or how many there are.
AXIOMS = {"sfi_run": HEAP, "sfi_tool_c": HEAP, "x86_trial": HEAP, "sfi": {"libc": 30, "os": 11}}
AXIOMS_LINE = re.compile(r"\w+ axioms (\w+): (?:none reached of the \d+ declared|(.+) \((\d+) of the \d+ declared\))")


def split(text):
    """The lines before the theorem, the theorem, the toolchain's words, and what the last line says of all."""
    body, mark, told = text.rpartition("\n" + evidence.HASH)
    front, _, rest = body.partition(evidence.THEOREM + "\n")
    theorem, _, kit_words = rest.partition(evidence.KIT_WORDS + "\n")
    return body, front.splitlines(), theorem, kit_words, told.removesuffix("\n") if mark else None


# ---- the kit

def kits_of_readme():
    """The kits that README.md names, from the first to the last, and their logic."""
    text = (definitions.TOP / "README.md").read_text(encoding="utf-8")
    found = re.search(r"`rattle-kit-(\d+)([a-z]) logic ([0-9a-f]{16})`,\s+or\s+a\s+kit\s+up\s+to\s+(\d+)([a-z])", text)
    return (int(found[1]), found[2]), (int(found[4]), found[5]), found[3]


def faults_of_kit(line):
    first, last, logic = kits_of_readme()
    found = re.fullmatch(r"kit rattle-kit-(\d+)([a-z]) logic ([0-9a-f]{16})", line)
    faults = [] if found and first <= (int(found[1]), found[2]) <= last else [f"the kit isn't one that README.md names: {line}"]
    if not found or found[3] != logic:
        faults.append(f"the kit's logic isn't README.md's, {logic}: {line}")
    here = evidence.kit()
    if here and here.split()[-1] != logic:
        faults.append(f"the kit here has another logic than README.md's: {here}")
    return faults


# ---- verdicts

@functools.cache
def has_functions(crate):
    """Whether a crate has functions beside its tests."""
    files = [it for it in (evidence.TOP / "crates" / crate / "src").glob("**/*.rt") if not {"tests", "tests.rt"} & set(it.parts)]
    return any(re.search(r"^[^/\n]*\bfn \w", it.read_text(encoding="utf-8"), re.M) for it in files)


def is_program(crate):
    return (evidence.TOP / "crates" / crate / "src" / "main.rt").is_file()


def is_linked(crate):
    """Whether a crate is a program or a static library."""
    kinds = (evidence.TOP / "crates.txt").read_text(encoding="utf-8")
    return bool(re.search(rf"^{crate} staticlib\b", kinds, re.M)) or is_program(crate)


def axioms_of(lines):
    """By each library the names and the number of the C functions that lines name, or None where a line isn't read."""
    read = [AXIOMS_LINE.fullmatch(it) for it in lines]
    if not all(read) or len({it[1] for it in read}) < len(read):
        return None
    return {it[1]: ((it[2] or "").split(", "), int(it[3] or 0)) for it in read}


def faults_of_axioms(crate, lines, count):
    """What is wrong with the C functions that a crate rests on: `count` is what its verdict says."""
    found = axioms_of(lines)
    if found is None or is_linked(crate) != bool(found):
        return [f"{crate} has other lines of axioms than a check prints: {'; '.join(lines) or 'none'}"]
    total = sum(number for _, number in found.values())
    faults = [] if count == total else [f"{crate} rests on {count} axioms and names {total}"]
    for library in sorted(AXIOMS.get(crate, {}).keys() | found.keys()):
        names, number = found.get(library, ([], 0))
        want = AXIOMS.get(crate, {}).get(library, 0)
        is_so = (names, number) == (want, len(want)) if isinstance(want, list) else number == want
        if not is_so:
            faults.append(f"{crate} rests on other axioms of {library} than docs/THEOREM.md says: {number}: {', '.join(names)}")
    return faults


def faults_of_words(crate, words, logic):
    """What is wrong with the words of a verdict, which are given as pairs of a word and its value."""
    wanted = WORDS.keys() - ({"axioms", "threads"} if is_linked(crate) else OF_LINKED)
    allowed = wanted | ({"axioms"} if is_linked(crate) else set()) | ({"threads"} if is_program(crate) else set())
    names = [name for name, _ in words]
    faults = [f"the verdict of {crate} has no {it}" for it in sorted(wanted - set(names))]
    for name, value in words:
        if names.count(name) > 1 or name not in allowed:
            faults.append(f"the verdict of {crate} has {name}={value}")
        elif not re.fullmatch(WORDS[name], value) or name == "sum" and value != logic:
            faults.append(f"the verdict of {crate} has another value: {name}={value}")
    told = dict(words)
    if (told.get("functions", "0") != "0") != has_functions(crate):
        faults.append(f"the verdict of {crate} has another number of functions than its code: {told.get('functions')}")
    return faults


def faults_of_verdict(crate, lines, logic):
    """What is wrong with what a page says of the proof of a crate."""
    found = [it for it in lines if it.startswith(f"verdict {crate} ")]
    if len(found) != 1:
        return [f"{crate} has {len(found)} verdicts: one is wanted"]
    words = [tuple(it.split("=", 1)) for it in found[0].split(" ")[2:] if "=" in it]
    if len(words) != len(found[0].split(" ")) - 2 or words[0] != ("logic", "proved"):
        return [f"{crate} isn't proved: {found[0]}"]
    faults = faults_of_words(crate, words, logic)
    axioms = dict(words).get("axioms", "0")
    named = [it for it in lines if it.startswith(f"{crate} axioms ")]
    return faults + (faults_of_axioms(crate, named, int(axioms)) if axioms.isdecimal() else [])


# ---- all lines

def is_built_here(line):
    return not line.endswith(evidence.NOT_BUILT)


def lines_of_built(lines):
    """The lines of what is built: as it is here, or as the page says where it isn't built here."""
    found = []
    for line in evidence.library_lines():
        start = line.rpartition(" ")[0] + " "
        told = [it for it in lines if it.startswith(start) and re.fullmatch(rf"{re.escape(start)}(none|sha256=[0-9a-f]{{64}})", it)]
        found.append(line if is_built_here(line) or not told else told[0])
    return found


def faults_of_lines(lines, kind):
    """What lines a page has before the theorem that aren't those of this checkout, and what it lacks."""
    wanted = [evidence.title(kind), "", next((it for it in lines if it.startswith("kit ")), "kit")]
    for crate in definitions.crate_names():
        of_crate = [it for it in lines if it.startswith(f"{crate} axioms ")]
        of_crate += sorted(f"{crate} {it}" for it in statements.proved_lines(crate, kind.stated))
        verdict = next((it for it in lines if it.startswith(f"verdict {crate} ")), f"verdict {crate}")
        wanted += [evidence.crate_line(crate), *of_crate, verdict]
    wanted += lines_of_built(lines)
    faults = [f"this line isn't so here: {it}" for it in lines if it not in wanted]
    faults += [f"the page lacks this line: {it}" for it in wanted if it not in lines]
    return faults or ([] if lines == wanted else ["a line stands twice, or at another place"])


def compared_words(kit_words, cited):
    """Faults of the toolchain's words, and what can't be compared."""
    here = evidence.kit_section(cited)
    if here is None:
        return [], ["the toolchain's words: there is no command rt"]
    return ([] if kit_words == here else ["a word of the toolchain is another one in the toolchain here"]), []


def judged(text):
    """What is wrong with a page, and what can't be compared here."""
    body, lines, theorem, kit_words, hash_told = split(text)
    kind = evidence.kind_of(text)
    told = statements.told(kind.stated)
    found = [] if hash_told == evidence.hash_of(body.encode()) else ["the page's hash isn't that of its text"]
    found += [] if theorem == told.text else ["a contract or a definition is another one here"]
    of_words, notes = compared_words(kit_words, told.kit_words)
    found += of_words + faults_of_kit(next((it for it in lines if it.startswith("kit ")), "no kit"))
    logic = kits_of_readme()[2]
    for crate in definitions.crate_names():
        found += faults_of_verdict(crate, lines, logic)
    notes += [f"{it.split()[1]}: it isn't built here" for it in evidence.library_lines() if not is_built_here(it)]
    return found + faults_of_lines(lines, kind), notes


def main(words):
    if words in (["--help"], ["-h"]):
        print(__doc__.strip())
        return 0
    if len(words) != 1:
        sys.exit("usage: tools/verify_evidence.py FILE")
    file = pathlib.Path(words[0])
    if not file.is_file():
        sys.exit(f"verify_evidence.py: there is no file {file}")
    try:
        found, notes = judged(file.read_text(encoding="utf-8", errors="replace"))
    except declarations.Unreadable as error:
        found, notes = [f"this checkout isn't read: {error}"], []
    print(*(f"not compared: {it}" for it in notes), *(f"no: {it}" for it in found), *([] if found else ["yes"]), sep="\n")
    return 1 if found else 0


if __name__ == "__main__":
    sys.exit(main(sys.argv[1:]))
