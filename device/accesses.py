#!/usr/bin/env python3
"""Changes the C that wasm2c made of a module so that reach.h says where it may access memory, and does it.

    device/accesses.py FILE.c [EXPORT CALLER.c]

Each access names its base and its offset apart. In the functions that EXPORT alone reaches, of the exported ones that
CALLER.c names, accesses stand where they are made, which takes few instructions and much code; elsewhere they are
calls. wasm2c's own functions for accesses must be what they were.
"""
import pathlib
import re
import sys

CHANGES = [  # a pattern, what takes its place, and how often at least
    (r"\(offset \+ \(uint64_t\)len > mem->size\)", "(!module_reaches(offset, len))", 1),
    (r"^DEFINE_(LOAD|STORE)\((i\w+, .*)\)$", r"MODULE_\1(\2)", 17),
    (r"(&instance->w2c_memory), \(u64\)\((w2c_i\d+)\) \+ (\d+u)", r"\1, \2, \3", 0),
    (r"(&instance->w2c_memory), \(u64\)\((w2c_i\d+)\)", r"\1, \2, 0u", 1),
]
HEAD = re.compile(r"^(?:static )?\w+ (\w+)\(Z_\w+_instance_t\* instance[^;{]*\{$", re.MULTILINE)


def changed(text):
    for pattern, new, least in CHANGES:
        text, count = re.subn(pattern, new, text, flags=re.MULTILINE)
        if count < least or "f32_load(&instance" in text:
            sys.exit(f"accesses.py: the C has no such accesses as it had: {pattern}")
    return text


def functions(text):
    """What stands before the first function, and each function by its name, in their order."""
    heads = list(HEAD.finditer(text))
    ends = [it.start() for it in heads[1:]] + [len(text)]
    return text[:heads[0].start()], {it[1]: text[it.start():end] for it, end in zip(heads, ends)}


def reached(bodies, roots):
    found, left = set(roots), list(roots)
    while left:
        called = set(re.findall(r"\b(\w+)\(instance", bodies[left.pop()])) & bodies.keys()
        left += called - found
        found |= called
    return found


def reached_alone(bodies, export, caller):
    """The functions that only that one reaches, of the exported ones which the caller names."""
    names = set(re.findall(r"\bZ_\w+", pathlib.Path(caller).read_text(encoding="utf-8"))) & bodies.keys()
    ways = {it for it in names if f"w2c_{export}(instance" in bodies[it]}
    found = reached(bodies, ways) - reached(bodies, names - ways)
    if not ways or len(found) < 2 * len(ways) + 1:
        sys.exit(f"accesses.py: no function of the C is reached by {export} alone")
    return found


def main():
    file = pathlib.Path(sys.argv[1])
    before, bodies = functions(changed(file.read_text(encoding="utf-8")))
    alone = reached_alone(bodies, *sys.argv[2:]) if len(sys.argv) > 2 else set()
    text = "".join(re.sub(r"\b(i\d\d_(?:load|store)\w*\()", r"here_\1", it) if name in alone else it for name, it in bodies.items())
    file.write_text(before + text, encoding="utf-8")


if __name__ == "__main__":
    main()
