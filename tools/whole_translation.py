#!/usr/bin/env python3
"""Makes what `sfi translate --whole` prints before the lines of a translation, of the console examples/translate/sfi_console.c
and the headers that it includes. The file includes itself where sfi_native.h reads the lines.

    tools/whole_translation.py [--write]    compares it with what stands in the crate sfi_answers, or writes it there
"""
import os
import re
import sys

TOP = os.path.dirname(os.path.dirname(os.path.abspath(__file__)))
HEADERS = os.path.join(TOP, "crates/sfi_translate/include")
INCLUDED = ("sfi_native.h", "sfi_services.h")
CONSOLE = os.path.join(TOP, "examples/translate/sfi_console.c")
MADE = os.path.join(TOP, "crates/sfi_answers/src/whole_program.rt")
BEGINNING = """\
#ifndef SFI_NATIVE_H
/* What a translated image's lines mean, and the console of `sfi run`: headers of crates/sfi_translate/include, and
   examples/translate/sfi_console.c, which have the comments. The lines begin after the last #else. */
"""
OWN_NAME = """\
#ifndef SFI_TEXT
#ifdef __FILE_NAME__
#define SFI_TEXT __FILE_NAME__
#else
#define SFI_TEXT __FILE__
#endif
#endif
"""


def read(path):
    with open(path, encoding="ascii") as file:
        return file.read()


def without_comments(text):
    """C without its comments, and without the spaces and empty lines that are left."""
    lines = re.sub(r"/\*.*?\*/", "", text, flags=re.DOTALL).splitlines()
    return "".join(line.rstrip() + "\n" for line in lines if line.strip())


def front():
    """The headers and the console, in a file that reads itself again for its lines."""
    whole = read(CONSOLE)
    for header in INCLUDED:
        include = f'#include "{header}"\n'
        before, found, after = whole.partition(include)
        assert found
        whole = before + read(os.path.join(HEADERS, header)) + after.replace(include, "")
    return BEGINNING + without_comments(OWN_NAME + whole + "#else\n")


def source():
    """The Rattle file that has it."""
    text = front()
    assert '"#' not in text
    return ("//! What stands before the lines of a whole program. `tools/whole_translation.py` makes this file.\n\n"
            f'pub(crate) const WHOLE_FRONT: &str = r#"{text}"#;\n')


def is_made():
    """Whether what stands there is of these files."""
    return read(MADE) == source()


def main():
    if "--write" in sys.argv[1:]:
        with open(MADE, "w", encoding="ascii") as file:
            file.write(source())
    elif not is_made():
        sys.exit(f"{os.path.relpath(MADE, TOP)} isn't what tools/whole_translation.py makes")


if __name__ == "__main__":
    main()
