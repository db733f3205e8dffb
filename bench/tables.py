"""Tables in Markdown, and how runs stand in their cells."""

from __future__ import annotations

from pathlib import Path
from typing import Iterable, Sequence

from measure import YES, Run

MEGABYTE = 1_000_000
NOT_RUN = "–"
CONTRADICTION = "**both**"
REFUSAL = "mucheck: "
PRECISE_BELOW = 0.1


def table(head: Sequence[str], rows: Iterable[Sequence[str]], figures: str = "--:") -> str:
    """A table with its first column to the left, and the others to the right or as `figures` says."""
    rule = ["---", *(figures for _ in head[1:])]
    return "\n".join(f"| {' | '.join(cells)} |" for cells in (head, rule, *rows)) + "\n"


def megabytes(count: int) -> str:
    """A number of bytes."""
    return f"{count / MEGABYTE:,.0f}" if count >= MEGABYTE else f"{count / MEGABYTE:.2f}"


def size_of(file: Path) -> str:
    """The size of a file in megabytes."""
    return megabytes(file.stat().st_size)


def seconds(run: Run | None) -> str:
    """How long a run took, that it was stopped, or with what code it refused."""
    if run is None:
        return NOT_RUN
    if run.is_stopped:
        return f"> {int(run.limit)}"
    if not run.is_answer:
        return run.told.removeprefix(REFUSAL) if run.told.startswith(REFUSAL) else f"status {run.status}"
    return f"{run.seconds:.3f}" if run.seconds < PRECISE_BELOW else f"{run.seconds:.2f}"


def memory(run: Run | None) -> str:
    """The greatest memory that a run had at once."""
    return megabytes(run.peak_bytes) if run and run.is_answer else NOT_RUN


def ratio(run: Run | None, base: Run | None) -> str:
    """How many times as long as the other a run took."""
    return f"{run.seconds / base.seconds:.1f}" if run and base and run.is_answer and base.is_answer else NOT_RUN


def ratio_past(run: Run | None, base: Run | None, common: Run | None) -> str:
    """The same less the seconds of what is common to both."""
    if not (run and base and common and run.is_answer and base.is_answer and base.seconds > common.seconds):
        return NOT_RUN
    return f"{(run.seconds - common.seconds) / (base.seconds - common.seconds):.1f}"


def memory_ratio(run: Run | None, base: Run | None) -> str:
    """How many times as much memory as the other a run had."""
    return f"{run.peak_bytes / base.peak_bytes:.1f}" if run and base and run.is_answer and base.is_answer else NOT_RUN


def answer(runs: Iterable[Run | None]) -> str:
    """What the runs that ended with an answer say of the initial state. They have to agree."""
    found = {run.status for run in runs if run and run.is_answer}
    if len(found) > 1:
        return CONTRADICTION
    return NOT_RUN if not found else "yes" if YES in found else "no"
