#!/usr/bin/env python3
"""Values go into the functions of a plug-in and out of them: values.py IMAGE, of examples/run/values_plugin.c. Its image says what
they take and give, and the host says what it means to call."""
import sys

from sfi_run import WrongArguments
from sfi_run.names import Plugin

MEANT = {"rest": "(s)s", "reverse": "(w)v", "product": "(il)l", "half": "(d)f", "opposite": "(c)y", "picked": "(b)i",
         "note": "(s)v", "pick": "(b)i"}


def note(text):
    print("noted", text)


def pick(data):
    return data.index(max(data))


with open(sys.argv[1], "rb") as file, Plugin(file.read(), signatures=MEANT, note=note, pick=pick) as plugin:
    print(plugin.rest("häuser"), plugin.rest(""))
    buffer = bytearray(b"stressed")
    plugin.reverse(buffer)
    print(buffer.decode(), plugin.picked(bytes([3, 200, 7])), plugin.product(-3, 10_000_000_000), plugin.half(0.5), plugin.opposite(200))
    for name, given in ("product", (2, "3")), ("opposite", (256,)):
        try:
            plugin.call(name, *given)
        except WrongArguments as wrong:
            print("refused", wrong.name, wrong.signature)
