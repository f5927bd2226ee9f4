#!/usr/bin/env python3
"""Makes the files of the folder `page` that the page needs and the repository doesn't hold.

    tools/build_page.py [--texts]    # with --texts all but the module

- sfi.wasm, all commands and a runtime, by tools/wasm_module.py, which wants the toolchain;
- sfi.wasm.js, the same as text, for a page that is opened as a file;
- made.js, the examples, the sentences of the rules, which docs/IMAGE.md has, those of faults, which the program has, and the
  names of services.
"""
import base64
import json
import os
import re
import sys

TOP = os.path.dirname(os.path.dirname(os.path.abspath(__file__)))
PAGE = os.path.join(TOP, "page")
sys.dont_write_bytecode = True
import wasm_module
from suygapid import services

# The path below examples, the title, and the input.
SOURCES = [
    ("hi", "Two letters", ""),
    ("echo", "Capital letters, of its input", "make these letters capital"),
    ("fibonacci", "Fibonacci numbers", ""),
    ("hanoi", "Towers of Hanoi", ""),
    ("sort", "A sort of its input", "pack my box with five dozen jugs"),
    ("checksum", "A checksum of its input", "Wikipedia"),
    ("primes", "Two sandboxes that send words", ""),
    ("counter", "Yields its turn after each line", ""),
]
C_PROGRAMS = [
    ("c/sort", "qsort, from C", "31 4 15 9 26 5 35 8 97 93 2"),
    ("c/crc32", "CRC-32, from C", "123456789"),
    ("c/stack", "A stack machine, from C", "6 7 * 2 + ."),
]
# A text, and where its image is typed over so that a rule is broken.
ATTACKS = [
    ("no-mask", "A load without its mask", "hi", [[116, "13000000"]]),
    ("jump", "A jump into the host", "hi", [[136, "67000000"]]),
    ("reserved", "The data's base overwritten", "hi", [[116, "130d0000"]]),
    ("ecall", "A call of the system", "hi", [[116, "73000000"]]),
]


def read(*parts):
    with open(os.path.join(TOP, *parts), encoding="utf-8") as file:
        return file.read()


def examples():
    """What the page offers: a group, a name, a title, a text, an input, and what is typed over its image."""
    found = [{"group": group, "name": name.replace("/", "-"), "title": title, "text": read("examples", f"{name}.s"), "input": given}
             for group, rows in (("Source texts", SOURCES), ("Compiled C", C_PROGRAMS)) for name, title, given in rows]
    found += [{"group": "Refused", "name": name, "title": title, "text": read("examples", f"{of}.s"), "typed": typed}
              for name, title, of, typed in ATTACKS]
    found.append({"group": "Images", "name": "smallest", "title": "The smallest image", "text": read("examples", "smallest.hex")})
    return found


def sentences(heading):
    """The rules of the table below a heading: by its number, the sentence in its last column."""
    text = read("docs", "IMAGE.md").partition(f"## {heading}\n")[2].partition("\n## ")[0]
    rows = re.findall(r"^\| (V\d+) \| `\w+` \| (.*) \|$", text, re.MULTILINE)
    return {name: re.sub(r"\[([^]]*)\]\([^)]*\)", r"\1", said).replace("`", "") for name, said in rows}


def fault_sentences():
    """What the program says of each fault, by its kind and name."""
    rows = re.findall(r'kind: "(.*)",\s*name: "(.*)",\s*says: "(.*)",', read("crates", "sfi", "src", "sentences.rt"))
    return {f"{kind} {name}": says for kind, name, says in rows}


def made_script():
    rules = sentences("Code in bundles")
    parts = {"EXAMPLES": examples(), "RULES": rules, "WORD_RULES": rules | sentences("Code in words"), "SERVICES": services.SERVICES,
             "SENTENCES": fault_sentences()}
    return '"use strict";\n' + "".join(f"const {name} = {json.dumps(value, indent=0)};\n" for name, value in parts.items())


def write(name, text):
    with open(os.path.join(PAGE, name), "w", encoding="utf-8") as file:
        file.write(text)


def main(words):
    if words not in ([], ["--texts"]):
        sys.exit("usage: tools/build_page.py [--texts]")
    write("made.js", made_script())
    if not words:
        module = os.path.join(PAGE, "sfi.wasm")
        wasm_module.make(module)
        with open(module, "rb") as file:
            write("sfi.wasm.js", f'const SFI_WASM = "{base64.b64encode(file.read()).decode()}";\n')
    for name in ["made.js"] if words else ["made.js", "sfi.wasm", "sfi.wasm.js"]:
        print(f"page/{name}: {os.path.getsize(os.path.join(PAGE, name))} bytes")


if __name__ == "__main__":
    main(sys.argv[1:])
