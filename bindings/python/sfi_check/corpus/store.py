"""Keeps verdicts, by the SHA-256 of the bytes and by what the checker was built of, which file had which bytes, and how commands ended
by their seeds: an SQLite database. What is in it stays when a run is interrupted."""
from __future__ import annotations

import contextlib
import os
import sqlite3
import time
import urllib.parse
from collections.abc import Iterable, Iterator
from typing import Any, Optional, Union

from .. import FAULTS, NO_IMAGE, Finding, Judged, Verdict
from .seeds import Ended

LAYOUT = 1
PRAGMAS = "pragma journal_mode = wal; pragma synchronous = normal; pragma cache_size = -131072;"
TABLES = """
create table if not exists checkers (id integer primary key, words text unique);
create table if not exists verdicts (sha256 blob, checker integer, status integer, sandboxes integer, bundles integer, findings integer,
    rule integer, sandbox integer, address integer, fault integer, primary key (sha256, checker)) without rowid;
create table if not exists files (file primary key, sha256 blob, status integer, failure text) without rowid;
create table if not exists seeds (command text, seed integer, checker integer, status integer, seconds real, output text,
    primary key (command, seed, checker)) without rowid;
"""
OF_VERDICT = "status, sandboxes, bundles, findings, rule, sandbox, address, fault"
MOST_ASKED = 500  # values in one question, fewer than any SQLite takes
KEPT_AFTER = 1.0  # seconds: what comes meanwhile is written at once
WAITED = 60.0  # seconds, for others who write


class Wrong(Exception):
    """A database that can't be used, and why."""


def _name(file: str) -> Union[str, bytes]:
    """A file's name, or a command, as SQLite can hold it: as bytes where it isn't text."""
    try:
        file.encode()
        return file
    except UnicodeEncodeError:
        return os.fsencode(file)


def _need_verdict(*columns: int) -> None:
    """Wrong where status, rule and fault are those of no verdict, as in a database that was damaged."""
    status, rule, fault = columns
    if not all(isinstance(it, int) for it in columns) or not 0 <= status <= NO_IMAGE or not 0 <= fault < len(FAULTS):
        raise Wrong(f"the database is damaged: no verdict has status {status}, rule {rule} and fault {fault}")


def _columns(verdict: Verdict) -> tuple[int, ...]:
    first = verdict.first or Finding(0, 0, 0)
    return verdict.status, verdict.sandboxes, verdict.bundles, verdict.findings, first.rule, first.sandbox, first.address, verdict.fault


def _verdict(columns: Iterable[int]) -> Verdict:
    status, sandboxes, bundles, findings, rule, sandbox, address, fault = columns
    _need_verdict(status, rule, fault)
    return Verdict(status, sandboxes, bundles, findings, Finding(sandbox, address, rule) if rule else None, fault)


def _address(path: str, mode: str) -> str:
    """What SQLite opens for a path, in that mode."""
    return f"file://{urllib.parse.quote(os.fsencode(os.path.abspath(path)))}?mode={mode}"


def _to_read(path: str) -> str:
    """The same for a database that is only read. Where nothing may be written, SQLite has to be told that nobody else writes, either,
    unless somebody who does has left a file beside it."""
    if all(os.access(it, os.W_OK) for it in (path, os.path.dirname(os.path.abspath(path)))):
        return _address(path, "rw")
    return _address(path, "ro" if os.path.exists(path + "-wal") else "ro&immutable=1")


class Store:
    """A database, which is made where there is none, unless it is only read. Checkers are named by the words of what they were built
    of."""

    def __init__(self, path: str, reads: bool = False) -> None:
        if reads and not os.path.exists(path):
            raise Wrong(f"{path} isn't there")
        try:
            self.base = sqlite3.connect(_to_read(path) if reads else _address(path, "rwc"), WAITED, isolation_level=None, uri=True)
            layout, = self.base.execute("pragma user_version").fetchone()
            is_new = not layout and not reads and not self.base.execute("select 1 from sqlite_master").fetchone()
            if layout != LAYOUT and not is_new:
                raise Wrong(f"{path} is no database of this sfi-corpus")
            self.base.executescript("pragma query_only = 1;" if reads else f"{PRAGMAS} {TABLES} pragma user_version = {LAYOUT};")
        except sqlite3.Error as error:
            raise Wrong(f"{path}: {error}") from error
        self.path, self.written = path, 0.0
        self.numbers: dict[str, int] = {}  # of checkers
        self.verdicts: list[tuple[Any, ...]] = []  # rows that are to be written
        self.files: list[tuple[Any, ...]] = []

    def __enter__(self) -> Store:
        return self

    def __exit__(self, *_: object) -> None:
        try:
            self._write()
        finally:
            self.base.close()

    @contextlib.contextmanager
    def _at_once(self) -> Iterator[None]:
        """Writes all that is written in it, or nothing. Meanwhile no other writes, so that nothing is waited for in it."""
        self.base.execute("begin immediate")
        try:
            yield
        except BaseException:
            self.base.execute("rollback")
            raise
        self.base.execute("commit")

    def _write(self) -> None:
        """Writes what was gathered."""
        if self.files:
            with self._at_once():
                self.base.executemany(f"insert or ignore into verdicts (sha256, checker, {OF_VERDICT}) values (?,?,?,?,?,?,?,?,?,?)",
                                      sorted(self.verdicts))
                self.base.executemany("insert or replace into files values (?,?,?,?)", self.files)
        self.verdicts, self.files, self.written = [], [], time.monotonic()

    def _checker(self, built: str) -> int:
        """A checker's number here."""
        if built not in self.numbers:
            self.base.execute("insert or ignore into checkers (words) values (?)", (built,))
            self.numbers[built], = self.base.execute("select id from checkers where words = ?", (built,)).fetchone()
        return self.numbers[built]

    # ---- verdicts

    def known(self, files: list[str], built: str) -> dict[str, int]:
        """The statuses of the bytes that these files had last, by their SHA-256, where there is a verdict of this checker."""
        found: dict[str, int] = {}
        for k in range(0, len(files), MOST_ASKED):
            some = [_name(it) for it in files[k : k + MOST_ASKED]]
            marks = ",".join("?" * len(some))
            asked = f"select sha256, verdicts.status from files join verdicts using (sha256) where checker = ?" \
                    f" and verdicts.status between 0 and {NO_IMAGE} and file in ({marks})"
            found.update((sha256.hex(), status) for sha256, status in self.base.execute(asked, [self._checker(built), *some]))
        return found

    def add(self, judged: Iterable[Judged], built: str) -> None:
        """Keeps what became of a batch."""
        some, checker = [(it, bytes.fromhex(it.sha256)) for it in judged], self._checker(built)
        self.verdicts += [(sha256, checker, *_columns(it.verdict)) for it, sha256 in some if it.verdict]
        self.files += [(_name(it.file), sha256, it.status if it.failure else None, it.failure or None) for it, sha256 in some]
        if time.monotonic() - self.written >= KEPT_AFTER:
            self._write()

    def judged(self) -> Iterator[tuple[Judged, Optional[str]]]:
        """Each file with each verdict on its bytes, and the checker; those that weren't judged without."""
        asked = f"select file, files.sha256, words, failure, files.status, {', '.join(f'verdicts.{it}' for it in OF_VERDICT.split(', '))}" \
                " from files left join verdicts using (sha256) left join checkers on checker = id order by file, checker"
        for file, sha256, built, failure, status, *columns in self.base.execute(asked):
            name = os.fsdecode(file)
            if built is None:
                yield Judged(name, sha256.hex(), None, failure or "no verdict", status or 0), None
            else:
                verdict = _verdict(columns)
                yield Judged(name, sha256.hex(), verdict, status=verdict.status), built

    def counts(self) -> Iterator[tuple[str, int, int, int, int]]:
        """How many images have a verdict: by the checker, the status, the first broken rule and the fault."""
        asked = "select words, status, rule, fault, count(*) from verdicts join checkers on checker = id" \
                " group by checker, status, rule, fault order by checker, status, rule, fault"
        for built, status, rule, fault, count in self.base.execute(asked):
            _need_verdict(status, rule, fault)
            yield built, status, rule, fault, count

    def changed(self) -> list[tuple[Any, ...]]:
        """The images on which checkers differ: the SHA-256, and an earlier checker and another one, each with its status."""
        asked = "select hex(one.sha256), was.words, one.status, now.words, other.status from verdicts one" \
                " join verdicts other on one.sha256 = other.sha256 and one.checker < other.checker and one.status != other.status" \
                " join checkers was on one.checker = was.id join checkers now on other.checker = now.id"
        return [(sha256.lower(), *others) for sha256, *others in self.base.execute(asked)]

    # ---- seeds

    def done(self, command: str, built: str) -> set[int]:
        """The seeds with which a command has ended."""
        asked = "select seed from seeds where command = ? and checker = ?"
        return {seed for seed, in self.base.execute(asked, (_name(command), self._checker(built)))}

    def add_seed(self, command: str, ended: Ended) -> None:
        self.base.execute("insert or replace into seeds values (?,?,?,?,?,?)",
                          (_name(command), ended.seed, self._checker(ended.built), ended.status, ended.seconds, ended.output))

    def seeds(self) -> Iterator[tuple[str, int, str, int, float, str]]:
        """How each case ended: command, seed, checker, status, seconds, and the output, or its last line."""
        asked = "select command, seed, words, status, seconds, output from seeds join checkers on checker = id" \
                " order by command, checker, seed"
        for command, seed, built, status, seconds, output in self.base.execute(asked):
            yield os.fsdecode(command), seed, built, status, seconds, output

    # ---- two databases

    def merge(self, path: str) -> None:
        """Takes what another database has and this one hasn't. Wrong where they have different verdicts of one checker on the same
        bytes: nothing changes then."""
        with Store(path, reads=True):
            pass
        self.base.execute("attach ? as other", (_to_read(path),))
        try:
            self._merge(path)
        finally:
            self.base.execute("detach other")

    def _merge(self, path: str) -> None:
        self.base.execute("insert or ignore into checkers (words) select words from other.checkers")
        self.base.execute("create temp table renamed as select theirs.id as was, ours.id as checker"
                          " from other.checkers theirs join main.checkers ours using (words)")
        theirs = f"select sha256, renamed.checker as checker, {OF_VERDICT} from other.verdicts two join renamed on two.checker = was"
        differs = " or ".join(f"one.{it} != two.{it}" for it in OF_VERDICT.split(", "))
        found = self.base.execute(f"select hex(sha256) from main.verdicts one join ({theirs}) two using (sha256, checker) where {differs}").fetchone()
        if not found:
            with self._at_once():
                self.base.execute(f"insert or ignore into main.verdicts {theirs}")
                self.base.execute("insert or ignore into main.files select * from other.files")
                self.base.execute("insert or ignore into main.seeds select command, seed, renamed.checker, status, seconds, output"
                                  " from other.seeds two join renamed on two.checker = was")
        self.base.execute("drop table renamed")
        if found:
            raise Wrong(f"{self.path} and {path} have different verdicts of one checker on the image {found[0].lower()}: nothing is merged")
