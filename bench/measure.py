"""Runs of the program: how long each takes, how much memory, and how it ends."""

from __future__ import annotations

import os
import signal
import subprocess
import tempfile
from dataclasses import dataclass
from pathlib import Path
from select import select
from time import monotonic, perf_counter

SHORTEST_RUN = 0.5
MOST_TURNS, SECONDS_OF_TURNS = 12, 3
YES, NO = 0, 1
KIB = 1024


@dataclass(frozen=True)
class Run:
    """A run of these words that ended, or was stopped at its limit; `told` is the first line of standard error."""

    words: tuple[str | Path, ...]
    seconds: float
    limit: float
    peak_bytes: int
    status: int
    is_stopped: bool
    told: str

    @property
    def is_answer(self) -> bool:
        """Whether it came to an end with an answer, and not with a refusal."""
        return not self.is_stopped and self.status in (YES, NO)

    @property
    def turns(self) -> int:
        """How often it is made, since what is short differs from run to run: as often as some seconds allow."""
        return max(1, min(MOST_TURNS, int(SECONDS_OF_TURNS / self.seconds))) if self.is_answer else 1


class Stopwatch:
    """The time that is there for all that is measured. Each run has a part of it, and at most so much."""

    def __init__(self, longest_run: float) -> None:
        self.longest_run = longest_run
        self.end = monotonic()

    def add(self, seconds: float) -> None:
        """Gives more time; what was left stays."""
        self.end += seconds

    def run(self, *words: str | Path) -> Run | None:
        """A run of these words, with its output thrown away; None where no time is left for it."""
        limit = min(self.longest_run, self.end - monotonic())
        return run(words, limit) if limit >= SHORTEST_RUN else None

    def least(self, *firsts: Run | None) -> list[Run | None]:
        """The shortest of all turns of each of these runs. They take turns, so that what else the machine does meets all of them."""
        runs = list(firsts)
        for turn in range(1, MOST_TURNS):
            for place, first in enumerate(firsts):
                if first and turn < first.turns:
                    runs[place] = shorter(runs[place], self.run(*first.words))
        return runs


def shorter(run: Run, other: Run | None) -> Run:
    """The one that took less time, of those that came to an end."""
    return other if other and other.is_answer and other.seconds < run.seconds else run


def run(words: tuple[str | Path, ...], limit: float) -> Run:
    """Runs these words for so many seconds at most."""
    with tempfile.TemporaryFile() as told:
        began = perf_counter()
        process = subprocess.Popen(words, stdin=subprocess.DEVNULL, stdout=subprocess.DEVNULL, stderr=told)
        is_stopped, usage = wait_for(process, limit)
        seconds = perf_counter() - began
        told.seek(0)
        lines = told.read().decode(errors="replace").splitlines()
    return Run(words, seconds, limit, usage.ru_maxrss * KIB, process.returncode, is_stopped, lines[0] if lines else "")


def wait_for(process: subprocess.Popen, limit: float) -> tuple[bool, os.struct_rusage]:
    """Waits for the end of the process, and stops it after so many seconds: whether it was, and what it used."""
    handle = os.pidfd_open(process.pid)
    is_stopped = True
    try:
        is_stopped = not select([handle], [], [], limit)[0]
    finally:
        # (it is stopped, too, where this program is interrupted)
        if is_stopped:
            signal.pidfd_send_signal(handle, signal.SIGKILL)
        os.close(handle)
        _, ended, usage = os.wait4(process.pid, 0)
    process.returncode = os.waitstatus_to_exitcode(ended)
    return is_stopped, usage
