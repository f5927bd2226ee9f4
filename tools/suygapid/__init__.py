"""The tools around the program sfi that aren't proved, by subjects: README.md lists them."""
import os
import sys

TOOLS = os.path.dirname(os.path.dirname(os.path.realpath(__file__)))
TOP = os.path.dirname(TOOLS)
sys.path.insert(0, os.path.join(TOP, "bindings", "python"))  # for sfi_run
