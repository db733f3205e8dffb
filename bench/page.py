"""docs/SPEED.md: the figures of `bench/run`, and below them those of `tests/limits`. Who makes one part leaves the other as it is."""

from __future__ import annotations

from pathlib import Path

PAGE = Path(__file__).resolve().parent.parent / "docs" / "SPEED.md"
LIMITS = "\n## At the limits\n\n"


def put(figures: str | None = None, limits: str | None = None) -> None:
    """Puts these parts in the place of those that stand there, all at once."""
    old_figures, _, old_limits = PAGE.read_text().partition(LIMITS) if PAGE.exists() else ("", "", "")
    limits = old_limits if limits is None else limits
    new = PAGE.with_suffix(".new")
    new.write_text((old_figures if figures is None else figures) + (LIMITS + limits if limits else ""))
    new.replace(PAGE)
