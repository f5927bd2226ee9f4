"""What documents, headers and tools say of limits is what the definitions in specs/ say: each number has one home, and
the list below has the other places where it stands, which have to follow where it is changed."""
import re
import unittest

import definitions
import testing

# The definitions, by crate and file.
HOMES = [("sfi_formats", "Limits"), ("sfi_formats", "Formats"), ("sfi_host", "Consoles"), ("sfi_text", "Texts"),
         ("sfi_io", "Hexadecimal")]
NUMBER = r"(-?\d+)"

# A file, a passage of it in which each {} is a number, and the names of these limits in order. A name with `+ 1` is
# that of the first number beyond; a blank stands for any white space, also a comment's next line.
STATED = [
    ("README.md", "the bytes of 1 to {} sandboxes", "sandboxes_most"),
    ("README.md", "guard zones of {} addresses", "guard"),
    ("docs/ARCHITECTURE.md", "at most {} bytes (`slack`)", "slack"),
    ("docs/EMBEDDING.md", "the guard zone of {} addresses", "guard"),
    ("docs/EMBEDDING.md", "at most {} gates a sandbox;", "gates_most"),
    ("docs/GATES.md", "where a1 is above {},", "most_handed"),
    ("docs/GATES.md", "the output would pass {} bytes", "most_output"),
    ("docs/GATES.md", "a mailbox of at most {},", "most_messages"),
    ("docs/IMAGE.md", "An image holds 1 to {} sandboxes", "sandboxes_most"),
    ("docs/IMAGE.md", "there are, 1 to {} |", "sandboxes_most"),
    ("docs/IMAGE.md", "largest code region | {} bytes | {} bytes | {} bytes | {} bytes |",
     "code_most Sfi1, code_most Sfi2, code_most Sfiw, code_most Sfis"),
    ("docs/IMAGE.md", "largest data region | {} bytes | {} bytes | {} bytes | {} bytes |",
     "data_most Sfi1, data_most Sfi2, data_most Sfiw, data_most Sfis"),
    ("docs/IMAGE.md", "bundles of {} bytes | bundles of {} bytes | words of {} bytes | words of {} bytes",
     "unit Sfi1, unit Sfi2, unit Sfiw, unit Sfis"),
    ("docs/IMAGE.md", "or at most {} bytes beside either", "slack"),
    ("docs/IMAGE.md", "below the data size + {} and the last {}, is", "guard, guard"),
    ("docs/IMAGE.md", "in the data region or at most {} bytes beside it", "slack"),
    ("docs/IMAGE.md", "with an offset from {} to {} |", "-slack, slack"),
    ("docs/IMAGE.md", "more than {} bytes beside the data", "slack"),
    ("docs/IMAGE.md", "the count isn't 1 to {}.", "sandboxes_most"),
    ("docs/IMAGE.md", "the code size is no power of two from {} to", "region_least"),
    ("docs/IMAGE.md", "the data base is below {}, or the data's end plus {} above", "guard, guard"),
    ("docs/IMAGE.md", "there are more than {} gates", "gates_most"),
    ("docs/IMAGE.md", "with {} bytes on each side", "guard"),
    ("docs/IMAGE.md", "are more than {} |", "limit"),
    ("docs/PROOFS.md", "more than {} sandboxes (`link`", "sandboxes_most"),
    ("docs/PROOFS.md", "a text above {} bytes", "most_bytes"),
    ("docs/PROOFS.md", "the sign that they are above {}", "limit"),
    ("docs/SOURCE.md", "UTF-8, at most {} bytes", "most_bytes"),
    ("docs/SOURCE.md", "bytes of data, a power of two from {} to {}:", "region_least, source_data_most"),
    ("docs/SOURCE.md", "N bytes 0, up to {}.", "source_data_most"),
    ("docs/SOURCE.md", "at an offset from {} to {} |", "-slack, slack"),
    ("docs/SOURCE.md", "a power of two from {} to {}, or to {} in the second",
     "region_least, built_code_most Sfi1, built_code_most Sfi2"),
    ("docs/SOURCE.md", "a name above {} bytes, a {}th gate or a {}th instruction",
     "name_most, gates_most + 1, items_most + 1"),
    ("docs/SOURCE.md", "or a text above {} bytes", "most_bytes"),
    ("docs/THEOREM.md", "and {} bytes of the host's memory by", "most_output"),
    ("docs/sfi.1", "At most {} bytes are read", "limit"),
    ("docs/sfi.1", "(above {} bytes)", "limit"),
    ("crates/sfi_c/include/sfi.h", "in the data region or at most {} bytes", "slack"),
    ("crates/sfi_c/include/sfi.h", "on each side is a guard zone of {},", "guard"),
    ("crates/sfi_c/include/sfi.h", "each below data_size + {}, and in the last {} addresses", "guard, guard"),
    ("crates/sfi_run/include/sfi_run.h", "a sandbox has put, at most {};", "most_output"),
    ("crates/sfi_translate/include/sfi_services.h",
     "SFI_HANDED_MOST = {}, SFI_OUTPUT_MOST = {}, SFI_MAILBOX_MOST = {} }",
     "most_handed, most_output, most_messages"),
    ("crates/sfi_native/include/sfi_native_world.c", " SLACK = {} }", "slack"),
    ("examples/c/gates.h", "where length is above {}, a byte", "most_handed"),
    ("examples/c/gates.h", "the output would pass {} bytes", "most_output"),
    ("examples/device/host.h", "IMAGE_SANDBOXES_MOST = {},", "sandboxes_most"),
    ("device/sfi_device.h", "GATES_MOST = {},", "gates_most"),
    ("device/sfi_device.h", "GUARD_ZONE = {},", "guard"),
    ("examples/device/host.h", "PUT_MOST = {},", "most_handed"),
    ("tools/suygapid/passes/typed.py", "REACH = {} ", "slack"),
    ("tools/second_checker.py", "MOST_CODE = {1: {}, 2: {}, 3: {}, 4: {}}", "code_most Sfi1, code_most Sfi2, code_most Sfiw, code_most Sfis"),
    ("tools/second_checker.py", "MOST_DATA = {1: {}, 2: {}, 3: {}, 4: {}}", "data_most Sfi1, data_most Sfi2, data_most Sfiw, data_most Sfis"),
    ("tools/suygapid/image/layout.py", "MOST_CODE = {1: {}, 2: {}, 3: {}, 4: {}}", "code_most Sfi1, code_most Sfi2, code_most Sfiw, code_most Sfis"),
    ("tools/suygapid/image/layout.py", "MOST_DATA = {1: {}, 2: {}, 3: {}, 4: {}}", "data_most Sfi1, data_most Sfi2, data_most Sfiw, data_most Sfis"),
    ("tools/suygapid/image/layout.py", "GUARD, MOST_GATES, MOST_SANDBOXES = {}, {}, {}", "guard, gates_most, sandboxes_most"),
    ("tools/second_checker.py", "and {} <= it.number <= {}", "-slack, slack"),
    ("bench/checker_layout.h", "c->format == 1 ? {} : {})", "code_most Sfi1, code_most Sfi2"),
    ("bench/checker_layout.h", "is_region(n->data_base, n->data_size, {})", "data_most Sfi1"),
    ("bench/checker_layout.h", "is_region(n->data_base, n->data_size, {})", "data_most Sfi2"),
]


def limits():
    """Each definition that is a number, by its name and, where it has any, its argument."""
    found = {}
    for home in HOMES:
        text = definitions.path_of(*home).read_text(encoding="utf-8")
        equations = re.findall(r"^(\w+(?: \w+)?) = (\d\w*)$", text, re.M)
        found |= {name: int(number, 0) for name, number in equations}
    return found


def value_of(name, known):
    """The number of a limit by its name, which may have a `-` before it or `+ 1` behind it."""
    if name.startswith("-"):
        return -known[name[1:]]
    return known[name.removesuffix(" + 1")] + name.endswith(" + 1")


def stated(text, passage):
    """The numbers that a text has in a passage, at each place where it stands."""
    pattern = re.sub(r"(?:\\? )+", r"(?:\\s|[*/]{1,2} )+", re.escape(passage)).replace(r"\{\}", NUMBER)
    return re.findall(pattern, text)


class Limits(unittest.TestCase):
    def test_each_number_is_the_definition_s(self):
        known = limits()
        for file, passage, names in STATED:
            with self.subTest(file=file, passage=passage):
                found = stated((testing.TOP / file).read_text(encoding="utf-8"), passage)
                self.assertTrue(found, "the passage isn't there")
                wanted = tuple(str(value_of(it, known)) for it in names.split(", "))
                for numbers in found:
                    self.assertEqual((numbers,) if isinstance(numbers, str) else numbers, wanted)

    def test_a_passage_is_found_across_lines(self):
        self.assertEqual(stated("at most\n * 16 bytes, at most 17 bytes", "at most {} bytes"), ["16", "17"])
        self.assertEqual(stated("a 65th or\n-2 to 3", "a {}th or {} to {}"), [("65", "-2", "3")])


if __name__ == "__main__":
    unittest.main()
