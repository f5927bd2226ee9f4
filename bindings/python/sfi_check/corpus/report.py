"""What a database holds, as JSON lines, as Parquet, and as a page."""
from __future__ import annotations

import importlib.util
import json
from collections import Counter
from collections.abc import Iterable, Iterator
from html import escape
from typing import Any

from .. import FAULTS
from .engine import Failed
from .store import Store

WORDS = ("accepted", "refused", "no image")
MOST_LISTED = 200  # rows of a list on the page
PAGE = """<!DOCTYPE html>
<html xmlns="http://www.w3.org/1999/xhtml" lang="en">
<head>
<meta charset="utf-8"/>
<title>Verdicts</title>
<style>
body {{ font: 14px/1.45 system-ui, sans-serif; max-width: 60rem; margin: 2rem auto; padding: 0 1rem; color: #1e2430; }}
table {{ border-collapse: collapse; width: 100%; margin: .5rem 0 1.5rem; }}
th, td {{ text-align: left; padding: .2rem .6rem .2rem 0; border-bottom: 1px solid #e3e0d8; vertical-align: top; overflow-wrap: anywhere; }}
.number {{ text-align: right; white-space: nowrap; font-variant-numeric: tabular-nums; }}
td.bar {{ width: 45%; }}
td.bar div {{ background: #2f5fc4; height: .9rem; min-width: 1px; }}
pre {{ white-space: pre-wrap; }}
</style>
</head>
<body>
<h1>Verdicts</h1>
{}
</body>
</html>
"""


# ---- lines and tables


def records(store: Store) -> Iterator[dict[str, Any]]:
    """Each file with each verdict on its bytes."""
    for judged, built in store.judged():
        told = {"sha256": judged.sha256, **judged.verdict.fields()} if judged.verdict else {"failure": judged.failure}
        of = dict(word.partition("=")[::2] for word in built.split()) if built else {}
        yield {"file": judged.file, "status": judged.status, **told, **of}


def write_json(store: Store, path: str) -> None:
    with open(path, "w", encoding="utf-8") as file:
        file.writelines(json.dumps(it) + "\n" for it in records(store))


def write_parquet(store: Store, path: str) -> None:
    """By pyarrow. Each column is of all records, and empty where one has none."""
    if not importlib.util.find_spec("pyarrow"):
        raise Failed("Parquet wants pyarrow, which isn't there")
    import pyarrow
    import pyarrow.parquet

    text, number = pyarrow.string(), pyarrow.int64()
    columns = {"file": text, "status": number, "sha256": text, "verdict": text, "sandboxes": number, "bundles": number, "findings": number, "rule": text,
               "sandbox": number, "at": text, "fault": text, "failure": text, "version": text, "commit": text, "logic": text}
    rows = [{**it, "file": it["file"].encode(errors="surrogateescape").decode(errors="backslashreplace")} for it in records(store)]
    pyarrow.parquet.write_table(pyarrow.Table.from_pylist(rows, pyarrow.schema(list(columns.items()))), path)


# ---- the page


def _table(heads: Iterable[str], rows: Iterable[Iterable[Any]]) -> str:
    lines = ["<table><tr>" + "".join(f"<th>{escape(it)}</th>" for it in heads) + "</tr>"]
    for row in rows:
        lines.append("<tr>" + "".join(f'<td class="number">{it:,}</td>' if isinstance(it, int) else f"<td>{_shown(it)}</td>" for it in row) + "</tr>")
    return "\n".join([*lines, "</table>"])


def _shown(text: object) -> str:
    """A text in XML, which has no place for most control characters and for bytes that aren't text."""
    return escape("".join(it if it.isprintable() or it in "\n\t" else repr(it)[1:-1] for it in str(text)))


def _bars(heads: tuple[str, str], counts: Counter[str]) -> str:
    """A table of counts, each with a bar."""
    most = max(counts.values(), default=1)
    rows = (f'<tr><td>{_shown(name)}</td><td class="number">{count:,}</td><td class="bar">'
            f'<div style="width:{100 * count / most:.1f}%"></div></td></tr>' for name, count in counts.items())
    return f'<table><tr><th>{heads[0]}</th><th class="number">{heads[1]}</th><th></th></tr>\n' + "\n".join(rows) + "\n</table>"


def _of_checkers(store: Store) -> Iterator[str]:
    """For each checker its counts: by status, and by what is wrong first."""
    counts: dict[str, list[Counter[str]]] = {}
    for built, status, rule, fault, count in store.counts():
        by_status, by_rule = counts.setdefault(built, [Counter(), Counter()])
        by_status[WORDS[status]] += count
        if status:
            by_rule[f"V{rule}" if rule else f"layout fault {FAULTS[fault]}"] += count
    for built, (by_status, by_rule) in counts.items():
        yield f"<h2>{_shown(built)}</h2>"
        yield _bars(("verdict", "images"), by_status)
        if by_rule:
            yield "<h3>By the first broken rule, or the fault</h3>" + _bars(("first", "images"), by_rule)


def _listed(title: str, heads: Iterable[str], rows: list[tuple[Any, ...]]) -> Iterator[str]:
    if rows:
        left = len(rows) - MOST_LISTED
        yield f"<h2>{title}: {len(rows):,}</h2>" + _table(heads, rows[:MOST_LISTED]) + (f"<p>and {left:,} more</p>" if left > 0 else "")


def _of_files(store: Store) -> Iterator[str]:
    refused: list[tuple[Any, ...]] = []
    failed: list[tuple[Any, ...]] = []
    for judged, _ in store.judged():
        if judged.verdict is None:
            failed.append((judged.file, judged.failure))
        elif not judged.verdict.accepted:
            refused.append((judged.file, str(judged.verdict)))
    yield from _listed("Files that aren't accepted", ("file", "verdict"), refused)
    yield from _listed("Files that weren't judged", ("file", "why"), failed)
    changed: list[tuple[Any, ...]] = [(sha256, f"{one}: {WORDS[was]}", f"{other}: {WORDS[now]}") for sha256, one, was, other, now in store.changed()]
    yield from _listed("Images on which checkers differ", ("SHA-256", "one", "another"), changed)


def _of_seeds(store: Store) -> Iterator[str]:
    counts: Counter[str] = Counter()
    differ: list[tuple[Any, ...]] = []
    for command, seed, built, status, _, output in store.seeds():
        counts[command] += 1
        if status:
            differ.append((f"{command}, seed {seed}", f"status {status}\n{output[-4000:]}"))
    if counts:
        yield "<h2>Commands by seeds</h2>" + _bars(("command", "seeds"), counts)
        yield f"<h3>Seeds that differ: {len(differ):,}</h3>"
        yield from (f"<h4>{_shown(what)}</h4><pre>{_shown(said)}</pre>" for what, said in differ[:MOST_LISTED])


def page(store: Store) -> str:
    return PAGE.format("\n".join([*_of_checkers(store), *_of_files(store), *_of_seeds(store)]))


def write_page(store: Store, path: str) -> None:
    with open(path, "w", encoding="utf-8") as file:
        file.write(page(store))
