"""Runs a command once for each seed: the work of `sfi-corpus seeds`, for scripts that make random cases and compare."""
from __future__ import annotations

import subprocess
import time
from dataclasses import dataclass

from .._built import words as built_words

PLACE = "{}"  # the word of a command that stands for the seed, which is else its last word
NEVER_ENDED = 124  # the status of a command that was stopped, as timeout(1) has it
NOT_RUN = 127


@dataclass(frozen=True)
class Case:
    """A command with a seed, and the most seconds that it may take."""
    words: tuple[str, ...]
    seed: int
    seconds: float

    def spelled(self) -> list[str]:
        seed = str(self.seed)
        return [it.replace(PLACE, seed) for it in self.words] if any(PLACE in it for it in self.words) else [*self.words, seed]


@dataclass(frozen=True)
class Ended:
    """How a case ended: 0 is a case in which nothing differed, whose last line is kept. Of another all output is."""
    seed: int
    status: int
    seconds: float
    output: str
    built: str


def run(case: Case) -> Ended:
    """What a worker does."""
    begun = time.monotonic()
    try:
        done = subprocess.run(case.spelled(), stdin=subprocess.DEVNULL, stdout=subprocess.PIPE, stderr=subprocess.STDOUT, check=False,
                              timeout=case.seconds)
        status, output = done.returncode, done.stdout
    except subprocess.TimeoutExpired as late:
        status, output = NEVER_ENDED, (late.stdout or b"") + f"no end after {case.seconds} seconds\n".encode()
    except OSError as error:
        status, output = NOT_RUN, f"{case.words[0]}: {error.strerror}\n".encode(errors="surrogateescape")
    told = output.decode(errors="replace")
    return Ended(case.seed, status, time.monotonic() - begun, told if status else told.rstrip().rpartition("\n")[2], built_words())
