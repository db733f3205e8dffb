#!/usr/bin/env python3
"""A second mucheck, small and slow, written from docs/FORMATS.md and docs/DEFINITIONS.md alone: sets of states, relations as sets of
pairs, fixpoints by turns, games by attractors. It has no normal form, no measures and no limits but those of the texts, which it reads by
tools/texts.py and tools/verify.py. tests/fuzz compares mucheck with it, and tests/hostile has its codes from it or from a table made by hand.

    tests/reference.py check SYSTEM FORMULA
    tests/reference.py solve GAME
    tests/reference.py verify GAME EVIDENCE [OTHER]

It writes what mucheck writes, refusals on standard error included, and ends with mucheck's status."""
import re
import sys
from pathlib import Path

sys.path.insert(0, str(Path(__file__).resolve().parent.parent / "tools"))
from texts import holds, read_formula, read_system
from verify import NUMBER, Refusal, lines, read_evidence, read_game, verdict, want

# ---- the canonical text of a formula

SIGNS = {"and": "&&", "or": "||", "implies": "=>", "sequence": ".", "choice": "+"}


def canonical(tree):
    kind = tree[0]
    if kind in SIGNS:
        return f"({canonical(tree[1])} {SIGNS[kind]} {canonical(tree[2])})"
    if kind == "not":
        return "!" + canonical(tree[1])
    if kind in ("mu", "nu"):
        return f"({kind} {tree[1].decode()}. {canonical(tree[2])})"
    if kind in ("star", "plus"):
        return canonical(tree[1]) + ("*" if kind == "star" else "+")
    if kind in ("diamond", "box"):
        opening, closing = "<>" if kind == "diamond" else "[]"
        return opening + canonical(tree[1]) + closing + canonical(tree[2])
    if kind == "quoted":
        return f'"{tree[1].decode()}"'
    return {"var": lambda: tree[1].decode(), "names": lambda: b"|".join(tree[1]).decode()}.get(kind, lambda: kind)()


# ---- what a formula means

def composed(one, other):
    following = {}
    for source, target in other:
        following.setdefault(source, set()).add(target)
    return {(source, target) for source, middle in one for target in following.get(middle, ())}


def relation(tree, system):
    """The pairs of states that a regular formula relates."""
    kind = tree[0]
    if kind == "sequence":
        return composed(relation(tree[1], system), relation(tree[2], system))
    if kind == "choice":
        return relation(tree[1], system) | relation(tree[2], system)
    if kind in ("star", "plus"):
        steps = relation(tree[1], system)
        paths = {(state, state) for state in range(system.states)} if kind == "star" else set(steps)
        while not (longer := composed(paths, steps)) <= paths:
            paths |= longer
        return paths
    return {(source, target) for source, label, target in system.arrows if holds(tree, label)}


def mean(tree, system, sets):
    """The set of states at which a formula holds; `sets` has those of the variables."""
    kind, every = tree[0], set(range(system.states))
    if kind in ("true", "false"):
        return every if kind == "true" else set()
    if kind == "var":
        return sets[tree[1]]
    if kind == "not":
        return every - mean(tree[1], system, sets)
    if kind in ("and", "or", "implies"):
        left, right = mean(tree[1], system, sets), mean(tree[2], system, sets)
        return {"and": left & right, "or": left | right, "implies": (every - left) | right}[kind]
    if kind in ("mu", "nu"):
        return fixpoint(tree, system, sets, every if kind == "nu" else set())
    pairs, inside = relation(tree[1], system), mean(tree[2], system, sets)
    if kind == "diamond":
        return {source for source, target in pairs if target in inside}
    return every - {source for source, target in pairs if target not in inside}


def fixpoint(tree, system, sets, turn):
    while (following := mean(tree[2], system, {**sets, tree[1]: turn})) != turn:
        turn = following
    return turn


def check(system_text, formula_text):
    system = read_system(system_text())
    tree = read_formula(formula_text())
    found = mean(tree, system, {})
    answer = ["no", "yes"]
    yield f"system {system.states} states {len(system.arrows)} transitions initial {system.initial}"
    yield f"formula {canonical(tree)}"
    yield f"yes {len(found)} of {system.states}"
    yield f"initial {answer[system.initial in found]}"
    yield from (f"{state} {answer[state in found]}" for state in range(system.states))
    return 0 if system.initial in found else 1


# ---- games

def attracted(game, arena, player, aim):
    """The vertices of the arena from which this player can force the game to the aim."""
    found = set(aim)
    while True:
        more = set()
        for vertex in arena - found:
            moves = game[vertex].successors & arena
            if moves & found if game[vertex].owner == player else moves <= found:
                more.add(vertex)
        if not more:
            return found
        found |= more


def even_wins(game, arena):
    """The vertices of the arena that Even wins."""
    if not arena:
        return set()
    greatest = max(game[vertex].priority for vertex in arena)
    player = greatest % 2
    top = attracted(game, arena, player, {vertex for vertex in arena if game[vertex].priority == greatest})
    lost = opponents(game, arena - top, player)
    if not lost:
        return arena if player == 0 else set()
    away = attracted(game, arena, 1 - player, lost)
    return even_wins(game, arena - away) | (away if player == 1 else set())


def opponents(game, arena, player):
    even = even_wins(game, arena)
    return arena - even if player == 0 else even


def solve(game_text):
    game = read_game(game_text())
    even = even_wins(game, set(game))
    yield f"vertices {len(game)}"
    yield f"even {len(even)}"
    yield from (f"{vertex} {'even' if vertex in even else 'odd'}" for vertex in range(len(game)))
    return 0


# ---- evidence

def verify(game_text, *evidence_texts):
    game = read_game(game_text())
    told = verdict(game, [read_evidence(text(), game) for text in evidence_texts])
    yield told
    return 0 if told.startswith("verified") else 1


# ---- schedules

EVENT = re.compile(rb"(take|read|push) " + NUMBER + rb" " + NUMBER + rb"|raise " + NUMBER)


def read_schedule(text, workers, vertices):
    """The lines of a schedule for so many workers and vertices."""
    rows = lines(text)
    for at, row in enumerate(rows, 1):
        shape = EVENT.fullmatch(row)
        want(shape, f"S1 at line {at}")
        want(int(shape[2] or shape[4]) < workers, f"S2 at line {at}")
        want(not shape[3] or int(shape[3]) < vertices, f"S3 at line {at}")
    return rows


# ---- the command line

def opener(name):
    """The files are read when they are wanted, in their order."""
    with open(name, "rb") as file:
        text = file.read()
    return lambda: text


def written(report):
    """The lines of a report and its status."""
    rows = []
    while True:
        try:
            rows.append(next(report))
        except StopIteration as end:
            return rows, end.value


def answer(command, texts):
    """Standard output, standard error and status for a command and functions that give its texts."""
    try:
        rows, status = written({"check": check, "solve": solve, "verify": verify}[command](*texts))
    except Refusal as refusal:
        return b"", f"mucheck: {refusal}\n".encode(), 2
    return "".join(row + "\n" for row in rows).encode(), b"", status


def main():
    sys.setrecursionlimit(100_000)
    out, told, status = answer(sys.argv[1], [opener(name) for name in sys.argv[2:]])
    sys.stdout.buffer.write(out)
    sys.stderr.buffer.write(told)
    return status


if __name__ == "__main__":
    sys.exit(main())
