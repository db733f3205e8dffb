"""What was measured, where and when."""

from __future__ import annotations

import os
import subprocess
from datetime import date
from pathlib import Path
from typing import NamedTuple

ROOT = Path(__file__).resolve().parent.parent
UNKNOWN = "unknown"
GIBIBYTE_IN_KIB = 1024 * 1024


class Processors(NamedTuple):
    """How much time all processors have passed since the machine began, and how much of it its host gave to other machines."""

    passed: int
    taken: int

    @classmethod
    def now(cls) -> Processors:
        # user, nice, system, idle, iowait, irq, softirq, steal
        times = [int(word) for word in Path("/proc/stat").read_text().split("\n", 1)[0].split()[1:9]]
        return cls(sum(times), times[-1])

    def taken_since(self, before: Processors) -> float:
        """The part that was taken meanwhile, in percent."""
        return 100 * (self.taken - before.taken) / max(1, self.passed - before.passed)


def value_of(file: str, key: str) -> str:
    """What the first line with this key says in a file of /proc."""
    for line in Path(file).read_text().splitlines():
        name, _, value = line.partition(":")
        if name.strip() == key:
            return value.strip()
    return UNKNOWN


def told_by(*words: str) -> str:
    """What a command of the repository's folder writes, or that it can't be known."""
    try:
        return subprocess.run(words, cwd=ROOT, capture_output=True, text=True, check=True).stdout.strip()
    except (OSError, subprocess.CalledProcessError):
        return UNKNOWN


def commit() -> str:
    """The commit that stands in the folder, and whether its sources were changed since."""
    changed = told_by("git", "status", "--porcelain", "--untracked-files=no", "--", "crates", "crates.txt")
    return told_by("git", "rev-parse", "--short", "HEAD") + (", with changes" if changed not in ("", UNKNOWN) else "")


def facts() -> list[tuple[str, str]]:
    """The lines of the table that heads the figures."""
    kib = value_of("/proc/meminfo", "MemTotal").split()[0]
    memory = f"{int(kib) / GIBIBYTE_IN_KIB:.0f} GiB" if kib.isdigit() else UNKNOWN
    toolchain, _, _ = told_by("rt", "version").partition("\n")
    return [
        ("Machine", f"{len(os.sched_getaffinity(0))} cores, {value_of('/proc/cpuinfo', 'model name')}, {memory} of memory"),
        ("Date", date.today().isoformat()),
        ("Toolchain", f"`{toolchain}`"),
        ("Commit", commit()),
    ]
