#!/usr/bin/env python3
"""Calls both ways: order.py IMAGE, of examples/run/order_plugin.c. The plug-in's qsort sorts by a function of the host, which
calls a function of the plug-in while that call waits; and the host's `sorted` sorts by the same function of the plug-in."""
import struct
import sys

from sfi_run.names import Plugin

NUMBERS = [17, 42, 93, 28, 5, 61]


def compare(a, b):
    return plugin.digit(a) - plugin.digit(b)


with open(sys.argv[1], "rb") as file, Plugin(file.read(), compare=compare) as plugin:
    at = plugin.address("numbers")
    plugin.sandbox.write(at, struct.pack("<6I", *NUMBERS))
    plugin.sort(len(NUMBERS))
    print(*struct.unpack("<6I", plugin.sandbox.read(at, 24)))
    print(*sorted(NUMBERS, key=plugin.digit))
