#!/usr/bin/env python3
"""Two plug-ins exchange words through the host, and one of them doesn't end: examples/run/squares.s.

    messages.py IMAGE [ROUNDS [QUANTUM]]

Each round has a turn of each. When the first has exited, or the rounds are used, what still runs is cut off.
"""
import pathlib
import sys
from collections import deque

import sfi_run

EXIT, YIELD, POST, TAKE = 0, 3, 4, 5
ROOM = 16  # words that wait for one plug-in


def serve(call, mail):
    """Replies to a call. Whether the turn goes on."""
    me = call.sandbox.number
    if call.service == EXIT:
        call.exit(call.a0)
    elif call.service == POST and call.a0 < len(mail) and len(mail[call.a0]) < ROOM:
        print(f"{me} -> {call.a0}: {call.a1}")
        mail[call.a0].append((call.a1, me + 1))
        call.reply(0)
    elif call.service == TAKE:
        call.reply(*(mail[me].popleft() if mail[me] else (0, 0)))
    elif call.service == YIELD:
        call.reply(call.a0)
    else:
        call.reply(0xFFFFFFFF)
    return call.service not in (EXIT, YIELD)


def turn(sandbox, steps, mail):
    for event in sandbox.events(steps):
        if isinstance(event, sfi_run.Call) and not serve(event, mail):
            return


def main(image, rounds="20", quantum="100"):
    with sfi_run.World(pathlib.Path(image).read_bytes()) as world:
        mail = [deque() for _ in world]
        for _ in range(int(rounds)):
            for sandbox in world:
                turn(sandbox, int(quantum), mail)
            if isinstance(world[0].event, sfi_run.Exited):
                break
        for sandbox in world:
            event = sandbox.event
            if isinstance(event, sfi_run.Exited):
                print(f"{sandbox.number} exited with {event.number}")
            else:
                print(f"{sandbox.number} is cut off after {sandbox.steps} steps")


if __name__ == "__main__":
    main(*sys.argv[1:])
