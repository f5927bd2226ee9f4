"""The numbers in a program's variables at its lines, with the passes and without: gdb may not know one, but never tell another.

In gdb, after `set $source = FILE` and `set $hits = N`: stops at each line of a file, and prints the variables, N times in all.
Otherwise: python3 variables.py WITHOUT WITH compares what two such sessions printed, and prints what differs, and counts."""
import re
import sys
from collections import defaultdict

SHOWN = re.compile(r"^= (\S+) (\d+) (\w+) (.*)$", re.MULTILINE)
MOST_LINES = 400
UNKNOWN = "<optimized out>"


def variables(gdb, frame):
    """The names and values of the numbers in a frame's scopes, the innermost first."""
    found, block = {}, frame.block()
    while block is not None:
        for symbol in block:
            if (symbol.is_variable or symbol.is_argument) and symbol.type.strip_typedefs().code == gdb.TYPE_CODE_INT:
                found.setdefault(symbol.name, str(symbol.value(frame)))
        block = None if block.function else block.superblock
    return found


def show(gdb):
    source, hits = gdb.parse_and_eval("$source").string(), int(gdb.parse_and_eval("$hits"))
    for line in range(1, MOST_LINES):
        if "starts at address" in gdb.execute(f"info line {source}:{line}", to_string=True):
            gdb.execute(f"break {source}:{line}", to_string=True)
    for _ in range(hits):
        gdb.execute("continue", to_string=True)
        frame = gdb.selected_frame()
        for name, value in variables(gdb, frame).items():
            print(f"= {frame.name()} {frame.find_sal().line} {name} {value}")


def values_of(path):
    """By function, line and name, the values at each hit."""
    found = defaultdict(list)
    with open(path, encoding="utf-8") as file:
        for function, line, name, value in SHOWN.findall(file.read()):
            found[function, line, name].append(value)
    return found


def compare(without, passed):
    known = 0
    for place, values in without.items():
        for wanted, value in zip(values, passed.get(place, [])):
            if UNKNOWN not in (wanted, value):
                known += 1
                if wanted != value:
                    print(*place, "wanted", wanted, "shown", value)
    print("many are known" if known > 100 else f"{known} are known")


try:
    import gdb as debugger
except ImportError:
    compare(*map(values_of, sys.argv[1:]))
else:
    show(debugger)
