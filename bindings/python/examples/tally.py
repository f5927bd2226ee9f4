#!/usr/bin/env python3
"""Hands a plug-in numbers, of which it keeps a sum; at the word "new" it begins anew, as for another client.

    tally.py IMAGE NUMBER|new ..    # IMAGE is that of examples/run/tally.s
"""
import pathlib
import sys

import sfi_run


def main(image, *words):
    with sfi_run.World(pathlib.Path(image).read_bytes()) as world:
        plugin = world[0]
        start = plugin.pc
        plugin.stop()
        for word in words:
            if word == "new":
                plugin.reset()
                plugin.stop()
            else:
                print(plugin.call(start, int(word), steps=1000))


if __name__ == "__main__":
    main(*sys.argv[1:])
