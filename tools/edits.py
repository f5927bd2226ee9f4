#!/usr/bin/env python3
"""Tries must-fail edits over the crates that `rt ci` has just proved: the prover has to refuse each.

    tools/edits.py             # those that are due, as below
    tools/edits.py NAME ..     # those of these crates, or these alone, as sfi_scan or sfi_scan/clean_lets_v5_pass
    tools/edits.py --list      # prints which are due, and tries none

An edit shows that a contract is sharp. `rt must-fail` checks a whole crate for each, and once more before the first. This has
the prover check the functions in which the edited lines stand, and those that they call (`rattle check --only`): what is
refused so is refused in the whole crate, too. Edits in the bodies of several functions are tried at once: a proof takes of another
function its contract alone, so each of these functions that isn't proved refuses its own edit. What isn't refused at once is tried
alone, and what isn't then, as a definition that others are proved by, as rt does it. Of one crate, by turns, some of these functions
are checked as they are: they have to be proved.

Due are

- of what changed at most 20: edits that differ, or of which a file differs, import lines aside; then those of which a file
  names definitions, of its own crate or a lower one, in a file that differs. It differs from $GATE_BASE, a name of git's;
  without that from where HEAD left origin/main; and where there is none or HEAD is in it, from what stood here three hours
  before the last commit;
- a sixth of all others: the number of commits says which, so that a few merges try all.

All are due where git knows no commits. `./test --all` has `rt ci` try all.
"""
import argparse
import functools
import os
import re
import subprocess
import sys
from concurrent.futures import ThreadPoolExecutor

sys.dont_write_bytecode = True
import toolchain
from build_library import is_marked

PARTS = 6
MOST = 20  # of what changed: some 38 seconds of a processor each, as a mean: 10 where a function is refused by itself
AT_ONCE = 6
HOURS = 3  # longer than it takes to make and to hand in what is merged at once
LANES = max(2, len(os.sched_getaffinity(0)) // 2)  # beside the other scripts of ./test, and after them
IMPORT = re.compile(r"^(?:ghost |pub )*(?:use|pub mod|mod) .*\n", re.MULTILINE)
DEFINITIONS = re.compile(r"\bRattle\.(\w+)\.specs\.((?:\w+\.)*)(?=\{|\w+;)")
FUNCTION = re.compile(r"^([ \t]*)(?:pub(?:\([^)]*\))? )?(?:const |unsafe )*fn (\w+)", re.MULTILINE)
IMPL = re.compile(r"^impl(?:<[^{]*?>)?\s+(?:(?:\w+::)*(\w+)(?:<[^{]*?>)?\s+for\s+)?(\w+)", re.MULTILINE)
BODY = re.compile(r"\{$", re.MULTILINE)  # of a function: at the end of its first line, or alone in a line behind its contract
UNPROVED = re.compile(r"fn (\S+): (?:not proved|no proof)(?!.* which is not proved)")  # by itself, not by what it calls
ASKED = re.compile(r"only=(\d+) proved=(\d+)")


class Edit:
    """A must-fail edit, by its crate and name."""

    def __init__(self, crate, name):
        self.crate, self.name = crate, name
        self.path = f"crates/{crate}/must-fail/{name}.edit"
        with open(self.path, encoding="utf-8") as file:
            self.text = file.read()
        self.files = [f"crates/{crate}/{it.strip()}" for it in re.findall(r"^file: (.*)$", self.text, re.MULTILINE)]

    def __str__(self):
        return f"{self.crate}/{self.name}"

    def definitions(self):
        """The files of definitions that its files name, by their paths."""
        found = (it for file in self.files for it in DEFINITIONS.findall(read(file)))
        return {f"crates/{crate}/specs/{module.rstrip('.').replace('.', '/')}.antt" for crate, module in found}

    def pairs(self):
        """Of each pair the file, from the crate's folder on, the old text and the new one."""
        file = old = ""
        for line in self.text.split("\n"):
            word, _, rest = line.partition(":")
            if word == "file":
                file = rest.strip()
            elif word == "old":
                old = rest.removeprefix(" ")
            elif word == "new":
                yield file, old, rest.removeprefix(" ")

    def functions(self):
        """The functions in which its old texts stand, as the prover takes their names. Where a text stands before all functions of
        its file, as a constant, that one of them is meant whose name the edit's begins with."""
        found = []
        for file, old, _ in self.pairs():
            if file.startswith("src/"):
                text = read(f"crates/{self.crate}/{file}")
                named = [it for it in FUNCTION.finditer(text) if self.name.startswith(f"{it[2]}_")]
                found += [name_of(file, text, it) for it in begun_at(text, old) or named]
        return list(dict.fromkeys(found))

    def is_of_a_body(self):
        """Whether all that it changes stands in the body of one function, which is in no cycle of calls."""
        for file, old, new in self.pairs():
            text = read(f"crates/{self.crate}/{file}")
            begun = begun_at(text, old)
            body = BODY.search(text, begun[0].start()) if begun and not re.search(r"\bfn\b", new) and "#[cycle(" not in text else None
            if not file.startswith("src/") or body is None or text.find(old) < body.end():
                return False
        return len(self.functions()) == 1

    def applied(self, texts):
        """These texts of files with its changes, or None where an old text doesn't stand there once."""
        texts = dict(texts)
        for file, old, new in self.pairs():
            text = texts.get(file, read(f"crates/{self.crate}/{file}"))
            if text.count(old) != 1:
                return None
            texts[file] = text.replace(old, new)
        return texts


@functools.cache
def read(path):
    """The text of a file, or none where it isn't there: rt tells that."""
    if not os.path.isfile(path):
        return ""
    with open(path, encoding="utf-8") as file:
        return file.read()


def begun_at(text, old):
    """The last function that begins before an old text, or with it, in a list; or none."""
    at = text.find(old) + len(old)
    return [it for it in FUNCTION.finditer(text) if it.start() < at][-1:]


def name_of(file, text, function):
    """A function's name from its crate on, or of a method from its type and trait on: `Type::method`, `TypeTrait::method`."""
    types = [it for it in IMPL.finditer(text) if it.start() < function.start()]
    if function[1] and types:
        return f"{types[-1][2]}{types[-1][1] or ''}::{function[2]}"
    path = [it for it in file[len("src/") : -len(".rt")].split("/") if it not in ("lib", "main")]
    return "::".join([*path, function[2]])


def all_edits():
    """All edits, in an order in which those of a crate stand apart, as their costs differ."""
    found = []
    for crate in re.findall(r"^(\w+)[^:#\n]*:", read("crates.txt"), re.MULTILINE):
        folder = f"crates/{crate}/must-fail"
        names = sorted(os.listdir(folder)) if os.path.isdir(folder) else []
        found += [Edit(crate, it.removesuffix(".edit")) for it in names if it.endswith(".edit")]
    return found


def git(*words):
    """What a git command prints, or nothing where it fails."""
    ran = subprocess.run(["git", *words], stdout=subprocess.PIPE, stderr=subprocess.DEVNULL, text=True, check=False)
    return ran.stdout.strip() if ran.returncode == 0 else ""


def base():
    """The commit that what is merged began from."""
    named = os.environ.get("GATE_BASE")
    if named:
        found = git("rev-parse", "--verify", "--quiet", f"{named}^{{commit}}")
        return found or sys.exit(f"edits.py: GATE_BASE is {named}, which is no commit here")
    found = git("merge-base", "origin/main", "HEAD")
    if found and found != git("rev-parse", "HEAD"):
        return found
    before = int(git("log", "-1", "--format=%ct")) - HOURS * 3600
    return git("rev-list", "-1", f"--before={before}", "HEAD") or git("rev-list", "--max-parents=0", "HEAD")


def differing():
    """The files of crates that differ, in commits or in the folder as it stands, import lines aside."""
    begin = base()
    paths = git("diff", "--name-only", begin, "--", "crates").splitlines()
    return {it for it in paths if IMPORT.sub("", read(it)).strip() != IMPORT.sub("", git("show", f"{begin}:{it}") + "\n").strip()}


def due(edits, number):
    """Those edits that are due after `number` commits, and how many others changed."""
    paths = differing()
    itself = [it for it in edits if {it.path, *it.files} & paths]
    named = [it for it in edits if it not in itself and it.definitions() & paths]
    for_own = [it for it in named if any(path.startswith(f"crates/{it.crate}/") for path in it.definitions() & paths)]
    changed = list(dict.fromkeys([*itself, *for_own, *named]))
    turn = [it for at, it in enumerate(edits) if (at + number) % PARTS == 0 and it not in changed[:MOST]]
    return [*changed[:MOST], *turn], len([it for it in changed[MOST:] if it not in turn])


def batches(edits):
    """Lists of those that are tried at once: of bodies of one crate, each of another function; all others alone."""
    found = []
    for edit in edits:
        fitting = [it for it in found if edit.is_of_a_body() and it[0].is_of_a_body() and it[0].crate == edit.crate and len(it) < AT_ONCE
                   and all(other.functions() != edit.functions() for other in it)]
        if fitting:
            fitting[0].append(edit)
        else:
            found.append([edit])
    return found


class Trial:
    """Tries edits by rt's own parts."""

    def __init__(self):
        self.rt = toolchain.module("rt", "rt")
        self.rt.rtlib.guarded()  # what it starts ends with it
        self.known = {}

    def crate(self, name):
        return self.rt.rtlib.Crate(f"{toolchain.TOP}/crates/{name}", toolchain.TOP, self.known)

    def make_ready(self, crates):
        """Whether the libraries below are there: those that `rt ci` has just proved, or else made by what stands."""
        lower = list({it.name: it for crate in crates for it in crate.below()}.values())
        if all(os.path.isdir(it.rlib) for it in lower) and not any(is_marked(it) for it in lower):
            return True
        return not any([it.build_rlib(["--jobs", "1"], anew=False) for it in lower])

    def only(self, crate, texts, functions):
        """A check of these functions with these texts: whether it ended, how many were asked for and proved, and its lines."""
        ran = self.rt.checked(crate, texts, ["--jobs", "1", *(word for it in functions for word in ("--only", it))], None)
        lines = ran.stdout.rstrip("\n").split("\n")
        asked = ASKED.fullmatch(lines[-1])
        return asked and (ran.returncode, int(asked[1]), int(asked[2])), lines

    def attempt_some(self, edits):
        """Of each of these edits of a crate, whether the prover refuses it, and what to say."""
        texts, tried = {}, []
        for it in edits if len(edits) > 1 else []:
            changed = it.applied(texts)
            texts, tried = (texts, tried) if changed is None else (changed, [*tried, it])
        refused = self.refused_at_once(tried, texts) if tried else []
        return [(True, f"must-fail {it}: refused, as it must be, beside others") if it in refused else self.attempt(it) for it in edits]

    def refused_at_once(self, edits, texts):
        """Those of these edits whose functions aren't proved, by their own bodies, in these texts."""
        ended, lines = self.only(self.crate(edits[0].crate), texts, [it.functions()[0] for it in edits])
        if not ended or ended[0] != 1 or any(self.rt.unread(it, texts) for it in lines):
            return []
        unproved = [found[1] for found in map(UNPROVED.match, lines) if found]
        return [it for it in edits if any(f"::{name}".endswith(f"::{it.functions()[0]}") for name in unproved)]

    def attempt(self, edit):
        """Whether the prover refuses an edit, and what to say."""
        crate, functions = self.crate(edit.crate), edit.functions()
        texts, why = self.rt.read_edit(edit.path, crate.folder)
        if functions and not why:
            ended, lines = self.only(crate, texts, functions)
            if ended and ended[0] == 1 and ended[2] < ended[1] and not any(self.rt.unread(it, texts) for it in lines):
                told = next((it for it in lines if re.match(r"(note: )?\S+:\d+:\d+:", it)), lines[0])
                return True, f"must-fail {edit}: refused, as it must be: {told[:160]}"
        return self.rt.must_fail(crate, edit.path, ["--jobs", "1"])

    def is_proved(self, edits):
        """Whether the functions of these edits of a crate are proved as they are."""
        functions = list(dict.fromkeys(name for it in edits for name in it.functions()))
        ended, lines = self.only(self.crate(edits[0].crate), {}, functions)
        is_well = bool(ended) and ended[0] == 0 and ended[1] == ended[2] > 0
        return is_well, f"{edits[0].crate} without edits: " + (f"{len(functions)} functions are proved" if is_well else lines[-1])


def try_edits(edits, number):
    """Tries these, tells what becomes of each, and gives how many weren't as they must be."""
    trial = Trial()
    crates = [trial.crate(it) for it in dict.fromkeys(it.crate for it in edits)]
    if not trial.make_ready(crates):
        return len(edits) + 1
    some = [it for it in edits if it.functions() and it.crate == edits[number % len(edits)].crate][:AT_ONCE]
    failed = 0
    with ThreadPoolExecutor(LANES) as pool:
        tasks = [pool.submit(lambda: [trial.is_proved(some)])] if some else []
        tasks += [pool.submit(trial.attempt_some, it) for it in batches(edits)]
        for is_well, text in (row for task in tasks for row in task.result()):
            print(text if is_well else f"FAILED {text}", flush=True)
            failed += not is_well
    print(f"{len(edits) + bool(some) - failed} passed, {failed} failed")
    return failed


def main():
    parser = argparse.ArgumentParser(description=__doc__, formatter_class=argparse.RawDescriptionHelpFormatter)
    parser.add_argument("--list", action="store_true", help="tries none, and prints which are due")
    parser.add_argument("names", nargs="*", metavar="NAME", help="a crate, or an edit as CRATE/EDIT")
    options = parser.parse_args()
    os.chdir(toolchain.TOP)
    edits, count = all_edits(), int(git("rev-list", "--count", "HEAD") or 0)
    if options.names:
        chosen, more = [it for it in edits if it.crate in options.names or str(it) in options.names], 0
    else:
        chosen, more = due(edits, count) if count else (edits, 0)
    if options.list:
        print("\n".join(map(str, chosen)))
        return 0
    print(f"edits.py: {len(chosen)} of {len(edits)} must-fail edits are tried, since {count} commits stand here; `rt must-fail` tries all")
    if more:
        print(f"edits.py: more changed: {more} edits wait for their turn")
    if not chosen:
        sys.exit("edits.py: no edits have these names")
    return 1 if try_edits(chosen, count) else 0


if __name__ == "__main__":
    sys.exit(main())
