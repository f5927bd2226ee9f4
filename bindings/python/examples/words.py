#!/usr/bin/env python3
"""Calls functions of a plug-in in C: examples/run/words_plugin.c begins each word of a text with a capital letter, and asks
the host for its price. Then one is entered that never ends, and is cut off.

    words.py IMAGE TEXT ..
"""
import pathlib
import struct
import sys

import sfi_run

EXIT, PRICE = 0, 2
STEPS = 10_000  # of a call


class Words:
    """The plug-in, whose main exits with the address of its table. That may say anything: wrong addresses raise an error."""

    def __init__(self, world):
        self.sandbox = world[0]
        table = self.returned()
        self.capitalize_at, self.ask_forever_at, self.text, self.room = struct.unpack("<4I", self.sandbox.read(table, 16))

    def run(self):
        """Serves it until it has stopped or its steps are used."""
        for event in self.sandbox.events(STEPS):
            if isinstance(event, sfi_run.Call):
                self.serve(event)
        return event

    @staticmethod
    def serve(call):
        if call.service == EXIT:
            call.exit(call.a0)
        elif call.service == PRICE:
            call.reply(10 * call.a0 + call.a1 & 0xFFFFFFFF)  # it chose both: only 32 bits can be replied
        else:
            call.reply(0xFFFFFFFF)

    def returned(self):
        event = self.run()
        if not isinstance(event, sfi_run.Exited):
            raise RuntimeError(f"the plug-in didn't return: {event}")
        return event.number

    def capitalize(self, text):
        """The text that the plug-in makes of a text, and its price."""
        if len(text) > self.room:
            raise ValueError("the text is too long")
        self.sandbox.write(self.text, text)
        number = self.sandbox.call(self.capitalize_at, self.text, len(text), steps=STEPS, serve=self.serve)
        return self.sandbox.read(self.text, len(text)), number

    def ask_forever(self):
        self.sandbox.enter(self.ask_forever_at)
        return self.run()


def main(image, *texts):
    with sfi_run.World(pathlib.Path(image).read_bytes()) as world:
        words = Words(world)
        for text in texts:
            capitalized, number = words.capitalize(text.encode())
            print(capitalized.decode("ascii", "replace"), number)
        ended = isinstance(words.ask_forever(), sfi_run.Exited)
        print("exited" if ended else "cut off", "after", world[0].steps, "steps")


if __name__ == "__main__":
    main(*sys.argv[1:])
