#!/usr/bin/env python3
"""Makes a release: a tar file with all files of the commit that is checked out, and what is built of them, where it lies in
the repository; and the packages of tools/packages.py.

    tools/release.py [--log LOG] [--without PART].. [FOLDER]     # LOG is out/ci.log, and FOLDER out/release, if absent

FOLDER gets suygapid-VERSION-x86_64-linux.tar.gz, the packages and, with .sha256 at its end, the checksum of each. In the tar file
SHA256SUMS has that of every other file. The same commit, the same built files and the same LOG make the same bytes: owners,
times and the order of the files don't depend on where and when it is made. Nothing is made where a file isn't committed,
where what is built is missing, empty or older than a source, where a part can't be made and isn't left out, or where what is packed
doesn't do what tools/release_trial.py and tools/package_trial.py try. `./test` makes all that a release wants, LOG too if nothing that
earlier runs on this machine kept was taken. built.json in it has the commit and the logic.

The parts that `--without` leaves out:
    libraries   those that sfi-cc would else compile and convert at their first use (tools/converted.py)
    checkers    the checker for RV32, as static libraries (tools/device_checkers.py)
    evidence    the folder `evidence` with LOG, which is what `rt ci --anew > LOG` printed over this commit, and the page that
                tools/evidence.py makes of it
    packages    those of tools/packages.py
"""
import argparse
import gzip
import hashlib
import io
import os
import pathlib
import re
import subprocess
import sys
import tarfile
import tempfile

TOP = pathlib.Path(__file__).resolve().parent.parent
sys.dont_write_bytecode = True
import checker_file
import converted
import crate_hashes
import definitions
import device_checkers
import evidence
import installed
import libraries
import package_trial
import packages
import release_trial
import runtime_file
import toolchain
import verify_evidence
import version
from sfi_check import _built  # which installed.py finds
from suygapid import native

MACHINE = "x86_64-linux"
# What tools/build_page.py and tools/build_node.py make.
MADE = [TOP / it for it in ("page/made.js", "page/sfi.wasm", "page/sfi.wasm.js", "bindings/node/sfi_run.wasm")]
MADE_CRATES = ["sfi_tool_c", "sfi_run"]


class Lacking(Exception):
    """Why a part of a release can't be made."""


def fail(text):
    sys.exit(f"release.py: {text}")


def git(*words):
    return subprocess.run(["git", "-C", TOP, *words], check=True, capture_output=True, text=True).stdout


def stale():
    """What is built but older than a source, by the files' times."""
    sfi = toolchain.sfi()
    made_of = {path: [path.parent.parent.name] for path in installed.built()} | {path: MADE_CRATES for path in MADE}
    return [path for path, crates in made_of.items() for time in [path.stat().st_mtime]
            if any(sfi.is_changed(it, time) for crate in crates for it in sfi.needed_crates(crate))]


def native_libraries():
    """The paths of the libraries for native code."""
    found = libraries.native_there()
    if not found:
        fail("the libraries for native code can't be made: tools/build_library.py sfi_tool_c builds what they are made of")
    return found


def built_files():
    """The paths of what is built, from the top on: as rt built it, and as programs are linked with it."""
    found = [str(path.relative_to(TOP)) for path in [*installed.built(), *MADE]]
    for crate in libraries.HEADERS:
        found += [os.path.relpath(path, TOP) for path in libraries.make(crate)]
    found += [os.path.relpath(path, TOP) for path in native_libraries()]
    for name, maker in (("suygapid_check.c", checker_file), ("suygapid_run.c", runtime_file)):
        lacking = [it.removeprefix(f"{TOP}/") for it in maker.missing()]
        if lacking:
            fail(f"{name}, which docs/EMBEDDING.md says is in a release, can't be made: {' and '.join(lacking)} isn't there")
        found.append(os.path.relpath(maker.make(), TOP))
    host = native.make(anew=True)  # what is there may be of another compiler, by other words
    if host is None:
        fail("the host of native code can't be built here")
    found.append(os.path.relpath(host, TOP))
    empty = [path for path in found if not (TOP / path).stat().st_size]
    if empty:
        fail(f"{empty[0]} has 0 bytes")
    return found


def check_sources(log, text):
    """Raises Lacking where the log isn't of these sources: by the hashes with which one of tools/gate.py begins, or else by its time."""
    told = [it for it in text.splitlines() if it.startswith("crate ")]
    other = sorted({*told} ^ {*crate_hashes.lines()}) if told else []
    if other:
        raise Lacking(f"{log} is of other sources, as of {other[0].split()[1]}")
    sfi, time = toolchain.sfi(), log.stat().st_mtime
    if not told and any(sfi.is_changed(it, time) for it in definitions.crate_names()):
        raise Lacking(f"{log} is older than a source")


def evidence_files(log):
    """The page of evidence and the log of which it is made."""
    if not log.is_file():
        raise Lacking(f"there is no {log}, which ./test makes on a new machine, and `rt ci --anew > {log}` on any; both take long")
    text = log.read_text(encoding="utf-8", errors="replace")
    check_sources(log, text)
    last = (text.splitlines() or [""])[-1]
    if not re.fullmatch(r"\d+ passed, 0 failed", last):
        raise Lacking(f"{log} ends in {last!r}, and not in `N passed, 0 failed`")
    page = evidence.page(text, evidence.kit())
    faults, _ = verify_evidence.judged(page)
    if faults:
        raise Lacking(f"{log} isn't the log of a whole `rt ci --anew` over this commit: {faults[0]}")
    return {evidence.RELEASED: (page.encode(), False), "evidence/ci.log": (log.read_bytes(), False)}


def device_files():
    """The checkers for RV32."""
    return {path: ((TOP / path).read_bytes(), False) for path in device_checkers.make()}


# What makes the files of each part that a release may lack, of the log.
PARTS = {"libraries": lambda _log: converted.files(), "checkers": lambda _log: device_files(), "evidence": evidence_files}
PACKAGES = "packages"


def part_files(name, log):
    """The files of a part. Ends where it can't be made."""
    try:
        return PARTS[name](log)
    except (Lacking, converted.Failed, device_checkers.Failed) as lacking:
        return fail(f"{name}: {lacking}; by --without {name} a release is made that lacks this part")


def contents(log, without):
    """The bytes of each file of the release and whether it can be run, by its path."""
    paths = [it for it in git("ls-files", "-z").split("\0") if it] + built_files()
    files = {path: ((TOP / path).read_bytes(), os.access(TOP / path, os.X_OK)) for path in paths}
    files[_built.FILE] = _built.noted().encode(), False
    for name in (it for it in PARTS if it not in without):
        files |= part_files(name, log)
    return files


def checksums(files):
    lines = (f"{hashlib.sha256(data).hexdigest()}  {path}\n" for path, (data, _) in sorted(files.items()))
    return "".join(lines).encode()


def packed(name, files, time):
    """The bytes of a tar file with these files below the folder `name`."""
    out = io.BytesIO()
    with tarfile.open(fileobj=out, mode="w", format=tarfile.PAX_FORMAT) as tar:
        for path, (data, can_run) in sorted(files.items()):
            entry = tarfile.TarInfo(f"{name}/{path}")
            entry.size, entry.mtime, entry.mode = len(data), time, 0o755 if can_run else 0o644
            tar.addfile(entry, io.BytesIO(data))
    return out.getvalue()


def try_out(name, packed_bytes):
    """Ends where what is packed isn't as it has to be."""
    with tempfile.TemporaryDirectory() as room:
        with tarfile.open(fileobj=io.BytesIO(packed_bytes)) as tar:
            tar.extractall(room, filter="data")
        faults = release_trial.faults(pathlib.Path(room) / name)
    if faults:
        fail(f"nothing is released: {faults[0]}")


def tried_packages(room, files):
    """The packages, made in the folder `room` beside a release of these files. Ends where one can't be made, or isn't as it has to be."""
    compiled = {path: data for path, (data, _) in files.items() if path.startswith(packages.HANDED_ON)}
    try:
        made = packages.make(room, compiled)
    except packages.Failed as failed:
        fail(f"nothing is released: {failed}")
    faults = [fault for path in made for fault in package_trial.faults(path)]
    if faults:
        fail(f"nothing is released: {faults[0]}")
    return {it.name: it.read_bytes() for it in made}


def release(folder, log, without):
    missing = [str(it.relative_to(TOP)) for it in [*installed.built(), *MADE] if not it.is_file()]
    if missing:
        fail(f"{' and '.join(missing)} isn't built")
    if git("status", "--porcelain"):
        fail("not all is committed: git status")
    late = stale()
    if late:
        fail(f"{late[0].relative_to(TOP)} is older than a source of it")
    files = contents(log, without)
    files[release_trial.SUMS] = checksums(files), False
    name = f"suygapid-{version.version()}-{MACHINE}"
    whole = packed(name, files, int(git("log", "-1", "--format=%ct")))
    try_out(name, whole)
    made = {f"{name}.tar.gz": gzip.compress(whole, compresslevel=9, mtime=0)}
    if PACKAGES not in without:
        with tempfile.TemporaryDirectory() as room:
            made |= tried_packages(pathlib.Path(room), files)
    folder.mkdir(parents=True, exist_ok=True)
    for name, data in made.items():
        (folder / name).write_bytes(data)
        (folder / f"{name}.sha256").write_text(f"{hashlib.sha256(data).hexdigest()}  {name}\n", encoding="utf-8")
        print(folder / name)
    if without:
        print(f"release.py: left out: {', '.join(sorted(without))}", file=sys.stderr)


def main():
    parser = argparse.ArgumentParser(description=__doc__, formatter_class=argparse.RawDescriptionHelpFormatter)
    parser.add_argument("--log", type=pathlib.Path, default=TOP / "out" / "ci.log")
    parser.add_argument("--without", metavar="PART", action="append", choices=[*PARTS, PACKAGES], default=[])
    parser.add_argument("folder", nargs="?", type=pathlib.Path, default=TOP / "out" / "release")
    options = parser.parse_args()
    os.environ[_built.STATED] = git("rev-parse", "--short=12", "HEAD").strip()
    release(options.folder, options.log, {*options.without})


if __name__ == "__main__":
    main()
