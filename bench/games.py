"""Parity games of known shapes, in PGSolver's format; the greatest priority that comes again and again decides.

    python3 bench/games.py clique 5 > game.pg

The numbers after the name are those of the function that makes the game.
"""

from __future__ import annotations

from typing import Iterable, Iterator, NamedTuple

from texts import Dice, write_named

EVEN, ODD = 0, 1
PRIORITIES = 32
MOST_SUCCESSORS = 3


class Vertex(NamedTuple):
    """A vertex, of which the place in a list is the number."""

    priority: int
    owner: int
    successors: Iterable[int]


def text(count: int, vertices: Iterable[Vertex]) -> Iterator[str]:
    """The text of a game with so many vertices."""
    yield f"parity {count - 1};\n"
    for number, vertex in enumerate(vertices):
        yield f"{number} {vertex.priority} {vertex.owner} {','.join(map(str, vertex.successors))};\n"


def ladder(rungs: int) -> Iterator[str]:
    """Two rails round a ring: vertices take turns in owner and priority, each leads one and two vertices on."""
    count = 2 * rungs
    rails = (EVEN, ODD)
    return text(count, (Vertex(v % 2, rails[v % 2], ((v + 1) % count, (v + 2) % count)) for v in range(count)))


def clique(count: int) -> Iterator[str]:
    """Each vertex leads to all others; owners take turns, and priorities rise with the number."""
    scale = max(count, PRIORITIES)
    others = (Vertex(v * PRIORITIES // scale, v % 2, (t for t in range(count) if t != v)) for v in range(count))
    return text(count, others)


def climb(rows: int, width: int, winner: int) -> Iterator[str]:
    """A way through rows of vertices of one odd priority each, the greatest last, to a loop that decides for the winner.

    Even begins in a round of priority 1 and has to leave it; a measure climbs through the counts of all rows."""

    def vertices() -> Iterator[Vertex]:
        yield Vertex(2 * rows + winner, ODD, (0,))
        for step in range(rows * width):
            row = rows - 1 - step // width
            yield Vertex(2 * row + 1, step % 2, (step,))
        last = rows * width
        yield Vertex(0, EVEN, (last, last + 2))
        yield Vertex(1, ODD, (last + 1,))

    return text(rows * width + 3, vertices())


def slow_lifting(levels: int, blocks: int) -> Iterator[str]:
    """After Jurdzinski's games for slow lifting (2000): rounds of odd priority, each block of which has a way out to a vertex of the even
    priority above, which leads into the rounds of both sides. Odd owns the last level's ways."""
    round_length, level_length = 2 * blocks, 3 * blocks

    def in_round(level: int, place: int) -> int:
        return level * level_length + place % round_length

    def way_out(level: int, block: int) -> int:
        return level * level_length + round_length + block

    def vertices() -> Iterator[Vertex]:
        for level in range(levels):
            is_last = level + 1 == levels
            for place in range(round_length):
                beside = way_out(level, place // 2) if place % 2 else in_round(level, place)
                yield Vertex(2 * level + 1, place % 2, (in_round(level, place + 1), beside))
            for block in range(blocks):
                above = way_out(0, block) if is_last else in_round(level + 1, 2 * block)
                yield Vertex(2 * level + 2, ODD if is_last else EVEN, (in_round(level, 2 * block), above))

    return text(levels * level_length, vertices())


def recursive_ladder(levels: int, copies: int) -> Iterator[str]:
    """Levels of five vertices that hang together up and down, so that solving one by recursion asks for others again and again.

    So many copies stand side by side."""
    length = 5
    # for each vertex of a level: whether the owner and the priority change with the level, and the edges (levels up, vertex)
    top, left, right, low, back = range(length)
    edges = {
        top: ((0, left), (0, low)),
        left: ((0, right), (1, left), (0, top)),
        right: ((0, left), (1, top)),
        low: ((0, back), (-1, left), (1, low)),
        back: ((0, low), (-1, top), (0, right)),
    }

    def vertex(first: int, level: int, kind: int) -> Vertex:
        side = level % 2
        priority = {top: level + 2, left: side, right: 1 - side, low: 1 - side, back: side}[kind]
        owner = 1 - side if kind in (left, back) else side
        reached = ((level + up, other) for up, other in edges[kind])
        return Vertex(priority, owner, [first + length * at + other for at, other in reached if 0 <= at < levels])

    firsts = range(0, copies * levels * length, levels * length)
    vertices = (vertex(first, level, kind) for first in firsts for level in range(levels) for kind in range(length))
    return text(copies * levels * length, vertices)


def random(count: int, priorities: int) -> Iterator[str]:
    """Owners, priorities and one to three successors of each vertex at random."""
    dice = Dice()
    degrees = [1 + extra for extra in dice.numbers(count, MOST_SUCCESSORS)]
    chosen, owners = dice.numbers(count, priorities), dice.numbers(count, 2)
    ends = iter(dice.numbers(sum(degrees), count))
    rows = zip(chosen, owners, degrees)
    return text(count, (Vertex(priority, owner, [next(ends) for _ in range(degree)]) for priority, owner, degree in rows))


def near(count: int, priorities: int, reach: int) -> Iterator[str]:
    """Owners and priorities at random, and one to three successors of each vertex at random nearby, as in products of systems."""
    dice = Dice()
    degrees = [1 + extra for extra in dice.numbers(count, MOST_SUCCESSORS)]
    chosen, owners = dice.numbers(count, priorities), dice.numbers(count, 2)
    steps = iter(dice.numbers(sum(degrees), 2 * reach + 1))
    rows = zip(chosen, owners, degrees)
    named = ((v, priority, owner, [(v + next(steps) - reach) % count for _ in range(degree)]) for v, (priority, owner, degree) in enumerate(rows))
    return text(count, (Vertex(priority, owner, successors) for _, priority, owner, successors in named))


def buchi(layers: int) -> Iterator[str]:
    """Layers of two vertices, which fall to one player one by one: what is won of the last is known when all before it are."""

    def vertices() -> Iterator[Vertex]:
        for layer in range(layers):
            first = 2 * layer
            yield Vertex(1, ODD, (first + 1, first - 1) if layer else (first, first + 1))
            yield Vertex(2, EVEN, (first, min(first + 3, 2 * layers - 1)))

    return text(2 * layers, vertices())


def stairs(steps: int, width: int) -> Iterator[str]:
    """Steps of so many vertices of priority 1 that lead up and down, each of which is decided by the one before it."""
    length = width + 3

    def vertices() -> Iterator[Vertex]:
        for step in range(steps):
            first = length * step
            for place in range(width):
                yield Vertex(1, place % 2, (first + place + 1, first + width))
            yield Vertex(2, ODD, (first + width, first + width + 1, first))
            yield Vertex(3, EVEN, (first + width + 2,))
            above = min(first + length, length * (steps - 1))
            yield Vertex(0, EVEN, (first - length if step > 1 else 0, above) if step else (width + 2,))

    return text(steps * length, vertices())


def product(states: int, steps: int, depth: int) -> Iterator[str]:
    """A system at random with two labels and up to so many steps of a state, and a formula of so many alternating fixpoints: a vertex for
    each binder, one for the body, and one for each modality."""
    dice = Dice()
    degrees = [1 + extra for extra in dice.numbers(states, steps)]
    labels, targets = iter(dice.numbers(sum(degrees), 2)), iter(dice.numbers(sum(degrees), states))
    rows = [[(next(labels), next(targets)) for _ in range(degree)] for degree in degrees]
    width = 2 * depth + 1

    def name(state: int, node: int) -> int:
        return 2 + state * width + node

    def modality(state: int, node: int) -> Vertex:
        reached = [name(target, node) for label, target in rows[state] if label == node % 2]
        if node + 1 < depth:
            reached.append(name(state, depth + 2 + node))
        is_box = node % 4 >= 2
        return Vertex(0, ODD if is_box else EVEN, reached or [0 if is_box else 1])

    def vertices() -> Iterator[Vertex]:
        yield Vertex(0, EVEN, (0,))
        yield Vertex(1, ODD, (1,))
        for state in range(states):
            for node in range(depth):
                yield Vertex(depth - 1 - node, EVEN, (name(state, node + 1),))
            yield Vertex(0, EVEN, [name(state, depth + 1 + node) for node in range(0, depth, 2)])
            yield from (modality(state, node) for node in range(depth))

    return text(2 + states * width, vertices())


GAMES = {
    "ladder": ladder,
    "clique": clique,
    "climb": climb,
    "slow-lifting": slow_lifting,
    "recursive-ladder": recursive_ladder,
    "random": random,
    "near": near,
    "buchi": buchi,
    "stairs": stairs,
    "product": product,
}

if __name__ == "__main__":
    write_named(GAMES)
