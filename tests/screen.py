#!/usr/bin/env python3
"""Prints what stands on the screen of a terminal that was shown the bytes of standard input: `screen.py COLUMNS`. The screen has any number of rows. It
knows what the program writes, and fails at any other control sequence."""

from __future__ import annotations

import re
import sys

SIGNS = re.compile(r"\x1b\[\?7[lh]|\x1b\[A|\x1b\[K|[\r\n\x20-\x7e]")


def screen(shown: str, columns: int) -> list[str]:
    """The rows, each without blanks at its end."""
    rows, row, column, wraps, at = [""], 0, 0, True, 0
    while at < len(shown):
        found = SIGNS.match(shown, at)
        if not found:
            sys.exit(f"screen: {shown[at:at + 8]!r} isn't known")
        sign, at = found.group(), found.end()
        if sign == "\r":
            column = 0
        elif sign == "\x1b[A":
            row = max(row - 1, 0)
        elif sign == "\x1b[K":
            rows[row] = rows[row][:column]
        elif sign in ("\x1b[?7l", "\x1b[?7h"):
            wraps = sign.endswith("h")
        elif sign == "\n":
            row += 1
        else:
            # (a row that is full goes on in the next one, or its last sign is written over)
            if column == columns:
                row, column = (row + 1, 0) if wraps else (row, column - 1)
            rows += [""] * (row + 1 - len(rows))
            rows[row] = rows[row][:column].ljust(column) + sign + rows[row][column + 1 :]
            column += 1
        rows += [""] * (row + 1 - len(rows))
    return [text.rstrip() for text in rows]


if __name__ == "__main__":
    print("\n".join(screen(sys.stdin.buffer.read().decode("ascii"), int(sys.argv[1]))).rstrip("\n"))
