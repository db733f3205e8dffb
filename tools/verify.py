#!/usr/bin/env python3
"""Checks evidence that a player wins vertices of a parity game, by the definition of good evidence alone (crates/evidence/specs/Evidence.antt, and
docs/FORMATS.md for the texts). It says what `mucheck verify` says, with the same status, and shares nothing with it. It needs Python 3.11 alone.

    tools/verify.py GAME EVIDENCE [OTHER]

A game is a dict by the vertices' numbers. The player of evidence is 0 for Even and 1 for Odd; `counted` has the opponent's priorities, the greatest
first, and `claims` the vertices of the set, each with its move or None, and its rank: a count for each of those priorities."""

import re
import sys
from collections import namedtuple
from pathlib import Path

MAX_VERTICES, MAX_PRIORITY, MAX_COUNT = 16_777_216, 31, 16_777_216
PLAYERS = ["even", "odd"]
NUMBER = rb"(0|[1-9][0-9]*)"
HEADER = re.compile(rb"[ \t]*parity[ \t]*%b[ \t]*;[ \t]*" % NUMBER)
VERTEX = re.compile(rb"[ \t]*%b[ \t]+%b[ \t]+([01])(?:[ \t]+(%b(?:[ \t]*,[ \t]*%b)*))?[ \t]*(?:\"[ !#-~]{0,4096}\")?[ \t]*;[ \t]*" % (4 * (NUMBER,)))
CLAIM = re.compile(rb"%b (-|%b) \((%b(?:,%b)*)?\)" % (4 * (NUMBER,)))

Vertex = namedtuple("Vertex", "priority owner successors")
Evidence = namedtuple("Evidence", "player counted claims")
sys.set_int_max_str_digits(0)


class Refusal(Exception):
    """A code with its place, as `G2 at line 3`."""


def want(condition, refusal):
    """What isn't so is refused."""
    if not condition:
        raise Refusal(refusal)


def lines(text, end=b""):
    """The text cut at each LF, without this end of a line. What follows the last LF is a line only if there is some of it."""
    found = text.split(b"\n")
    return [line.removesuffix(end) for line in (found if found[-1] else found[:-1])]


def read_game(text):
    rows = lines(text, b"\r")
    shape = HEADER.fullmatch(rows[0]) if rows else None
    want(shape, "G1 at line 1")
    greatest, game = int(shape[1]), {}
    want(greatest < MAX_VERTICES, "G6 at line 1")
    for at, row in enumerate(rows[1:], 2):
        shape = VERTEX.fullmatch(row)
        want(shape, f"G2 at line {at}")
        vertex, successors = int(shape[1]), set(map(int, shape[4].split(b","))) if shape[4] else set()
        want(vertex <= greatest and vertex not in game, f"G3 at line {at}")
        want(successors and max(successors) <= greatest, f"G4 at line {at}")
        want(int(shape[2]) <= MAX_PRIORITY, f"G5 at line {at}")
        game[vertex] = Vertex(int(shape[2]), int(shape[3]), successors)
    want(len(game) > greatest, f"G3 at line {len(rows) + 1}")
    return game


def read_evidence(text, game):
    rows = lines(text)
    want(rows and rows[0] in (b"evidence even", b"evidence odd"), "E1 at line 1")
    player, claims = PLAYERS.index(rows[0].decode().split()[1]), {}
    counted = [priority for priority in range(max(vertex.priority for vertex in game.values()), -1, -1) if priority % 2 != player]
    for at, row in enumerate(rows[1:], 2):
        shape = CLAIM.fullmatch(row)
        rank = list(map(int, shape[4].split(b","))) if shape and shape[4] else []
        want(shape and len(rank) == len(counted) and all(count <= MAX_COUNT for count in rank), f"E2 at line {at}")
        vertex, move = int(shape[1]), None if shape[2] == b"-" else int(shape[2])
        want(vertex in game and vertex not in claims and (move is None or move in game), f"E3 at line {at}")
        claims[vertex] = (move, rank)
    return Evidence(player, counted, claims)


def fault_at(game, evidence, vertex):
    """The first fault of a vertex of the set, or None."""
    here, (move, rank) = game[vertex], evidence.claims[vertex]
    is_own = here.owner == evidence.player
    if move not in here.successors if is_own else move is not None:
        return "C1"
    targets = {move} if is_own else here.successors
    if not targets <= evidence.claims.keys():
        return "C2"
    # Along an edge the counts at or above the vertex's priority, read as lists, don't rise, and fall where that priority is the opponent's.
    seen = sum(priority >= here.priority for priority in evidence.counted)
    after, before = max(evidence.claims[target][1][:seen] for target in targets), rank[:seen]
    return None if after < before or after == before and here.priority % 2 == evidence.player else "C3"


def verdict(game, parts):
    """What is said of one piece of evidence, or of two."""
    for name, evidence in zip(["first ", "second "] if len(parts) == 2 else [""], parts):
        for vertex in sorted(evidence.claims):
            if fault := fault_at(game, evidence, vertex):
                return f"refused {name}{fault} at {vertex}"
    sizes = {evidence.player: len(evidence.claims) for evidence in parts}
    if len(parts) == 1:
        return f"verified {PLAYERS[parts[0].player]} {len(parts[0].claims)} of {len(game)}"
    if len(sizes) == 1:
        return "refused C4"
    missing = game.keys() - parts[0].claims.keys() - parts[1].claims.keys()
    return f"refused C5 at {min(missing)}" if missing else f"verified both even {sizes[0]} odd {sizes[1]} of {len(game)}"


def main(names):
    try:
        want(2 <= len(names) <= 3, "U1")
        texts = [Path(name).read_bytes() for name in names]
        game = read_game(texts[0])
        told = verdict(game, [read_evidence(text, game) for text in texts[1:]])
    except (Refusal, OSError) as fault:
        print(f"mucheck: {fault}", file=sys.stderr)
        return 2 if isinstance(fault, Refusal) else 3
    print(told)
    return 0 if told.startswith("verified") else 1


if __name__ == "__main__":
    sys.exit(main(sys.argv[1:]))
