#!/usr/bin/env python3
"""Whether random calls of libsfi_run answer what a model of sfi_run.h answers, and leave what it leaves.

    fuzz/calls.py [--library PATH] [--program PATH] [--rounds N] [--seconds S] [--plant FAULT] [SEED ..]

Each case is the life of a world: images are loaded, accepted and other ones, its sandboxes get turns, replies, exits, stops, resets,
reads, writes and entries, in any order, with right and wrong numbers; its struct is moved, and freed. After each call its answer, and of
each sandbox the event, steps, registers and data, are compared with those of a model (tools/suygapid/trials/worlds.py, on machine.py there).
--library is a libsfi_run.a that rt built, or a shared library; `--library model` takes a second model in its place, to try the
script itself. `--plant FAULT` gives the model a fault (worlds.py lists them): then it has to fail. It wants gcc.
"""
import faulthandler
import os
import sys
import tempfile

TOP = os.path.dirname(os.path.dirname(os.path.abspath(__file__)))
sys.dont_write_bytecode = True
sys.path.insert(0, os.path.join(TOP, "tools"))
from suygapid.trials import fuzzing, lives, measure, verdicts, worlds


def main(words=None):
    parser = fuzzing.options(__doc__, 40)
    parser.add_argument("--library", default=worlds.LIBRARY)
    parser.add_argument("--plant", choices=sorted(worlds.PLANTS), help="give the model this fault")
    given = parser.parse_args(words)
    if not fuzzing.has_gcc():
        return fuzzing.all_skipped(len(lives.NAMES), "calls of libsfi_run", "gcc isn't there")
    if given.library != "model" and not os.path.exists(given.library):
        sys.exit(f"fuzz: no library {given.library}: (cd crates/sfi_run && rt lib) builds it")
    program = measure.program_at(given.program)
    with tempfile.TemporaryDirectory() as folder:
        judge = verdicts.Judge(folder)
        new_library, version, why = lives.open_library(given.library, folder, lambda: worlds.Model(judge))
        if why:
            return fuzzing.all_skipped(len(lives.NAMES), "calls of libsfi_run", why)
        tally = fuzzing.tally_of(parser, given, lives.NAMES)
        tally.see("version", worlds.header_version(), version)
        faulthandler.enable()
        model, images = worlds.PLANTS.get(given.plant, worlds.Model), lives.image_maker(program, judge)
        for tally.case, pick in fuzzing.cases(given):
            faulthandler.dump_traceback_later(fuzzing.MOST_SECONDS, exit=True)
            lives.World(pick, images, new_library(), model(judge), tally).live()
        faulthandler.cancel_dump_traceback_later()
    return tally.end()


if __name__ == "__main__":
    sys.exit(main())
