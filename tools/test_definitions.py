"""Tests of tools/definitions.py: `tools/unit_tests.py tools`."""
import unittest

import definitions

ITEMS = """Brackets (`before`) of no crate.

## sfi_names: names in images

- A first fact (`first_name_entry`: `found`, `[only_]none`); a second
  one (`Names::push`), with what is no contract (as `here`, or 1).
- A third (`one`; `two`).

## no_crate: others

- Nothing (`three`).
"""


class Contracts(unittest.TestCase):
    def test_all_brackets_of_an_item(self):
        wanted = ["first_name_entry", "found", "none", "only_none", "Names", "push", "one", "two"]
        self.assertEqual(definitions.contracts(ITEMS), [("sfi_names", name) for name in wanted])

    def test_one_that_is_not_there(self):
        count, faults = definitions.compared_contracts(ITEMS.replace("first_name_entry", "first_entry"))
        self.assertEqual((count, faults[0]), (4, "docs/PROOFS.md: first_entry is nothing of sfi_names"))


if __name__ == "__main__":
    unittest.main()
