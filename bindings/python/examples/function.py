#!/usr/bin/env python3
"""Calls a plug-in as a function: examples/run/turn.s turns a text round, and has the host put it into upper case.

    function.py IMAGE TEXT ..
"""
import pathlib
import sys

import sfi_run

STEPS = 10_000  # of a call


class Turner:
    """The plug-in, which exits at its start. Its function begins in the bundle after that."""

    def __init__(self, world):
        self.sandbox = world[0]
        self.function = self.sandbox.registers.pc + 16
        for event in self.sandbox.events(STEPS):
            if isinstance(event, sfi_run.Call):
                event.exit(event.a0)

    def serve(self, call):
        try:
            text = self.sandbox.read(call.a0, call.a1)
            self.sandbox.write(call.a0, text.upper())
            call.reply(len(text))
        except sfi_run.OutsideData:
            call.reply(0xFFFFFFFF)

    def __call__(self, text):
        """The text that the plug-in makes of a text, and the number that it answers."""
        at = self.sandbox.data.base
        self.sandbox.write(at, text)
        number = self.sandbox.call(self.function, at, len(text), steps=STEPS, serve=self.serve)
        return self.sandbox.read(at, len(text)), number


def main(image, *texts):
    with sfi_run.World(pathlib.Path(image).read_bytes()) as world:
        turner = Turner(world)
        for text in texts:
            turned, number = turner(text.encode())
            print(turned.decode("ascii", "replace"), number)


if __name__ == "__main__":
    main(*sys.argv[1:])
