"""The families that are measured: which texts are made, what is asked of them, and how many seconds a family may take. What a family
leaves of them is there for those that follow."""

from __future__ import annotations

from dataclasses import dataclass

import questions as ask
from questions import Actions


@dataclass(frozen=True)
class Systems:
    """A system, by its generator in `systems.py` and its numbers, full and quick, with its questions and those for which evidence
    is measured, too."""

    generator: str
    sizes: tuple[int, ...]
    quick: tuple[int, ...]
    actions: Actions
    questions: tuple[str, ...]
    with_evidence: tuple[str, ...]
    seconds: int


@dataclass(frozen=True)
class Game:
    """A game, by its generator in `games.py` and its numbers, full and quick."""

    title: str
    generator: str
    sizes: tuple[int, ...]
    quick: tuple[int, ...]


@dataclass(frozen=True)
class Games:
    """Games that stand in one table."""

    games: tuple[Game, ...]
    seconds: int


@dataclass(frozen=True)
class Arenas:
    """The games of questions on a system, by its generator in `systems.py` and its numbers, full and quick."""

    generator: str
    sizes: tuple[int, ...]
    quick: tuple[int, ...]
    actions: Actions
    questions: tuple[str, ...]
    seconds: int


@dataclass(frozen=True)
class Shared:
    """Work for several workers: games, and questions on a system, by its generator in `systems.py`."""

    games: tuple[Game, ...]
    generator: str
    sizes: tuple[int, ...]
    quick: tuple[int, ...]
    actions: Actions
    questions: tuple[str, ...]
    seconds: int


LETTERS = Actions(event="d", request="a", answer="b", excuse="c")
DEEP = (ask.THREE, ask.FOUR, ask.SIX)
ALL = tuple(question for question in ask.FORMULAS if question != ask.FOUR)
LARGE = (ask.DEADLOCK, ask.EVENT, ask.NOTHING, ask.RESPONSE, ask.ENDLESS, ask.THREE)
REACHING = (ask.DEADLOCK, ask.EVENT, ask.NOTHING)
WITH_EVIDENCE = (ask.DEADLOCK, ask.RESPONSE)


def large(generator: str, questions: tuple[str, ...], actions: Actions, seconds: int) -> Systems:
    """A system of 1,000,000 states."""
    return Systems(generator, (1_000_000,), (2_000,), actions, questions, WITH_EVIDENCE, seconds)


def protocol(generator: str, sizes: tuple[int, ...], quick: tuple[int, ...], actions: Actions) -> Systems:
    """A model of which all is asked."""
    return Systems(generator, sizes, quick, actions, ALL, ALL, seconds=60)


def random_game(count: int, priorities: int) -> Game:
    """A game at random."""
    return Game(f"random, {priorities} priorities", "random", (count, priorities), (count // 1_000, priorities))


def near_game(priorities: int) -> Game:
    """A game of 1,000,000 vertices at random, with edges nearby."""
    return Game(f"near, {priorities} priorities", "near", (1_000_000, priorities, 1_000), (2_000, priorities, 20))


def product_game(states: int, depth: int) -> Game:
    """The game of a formula of so many alternating fixpoints over a system at random."""
    return Game(f"product, {depth} priorities", "product", (states, 3, depth), (states // 1_000, 3, depth))


FAMILIES: dict[str, Systems | Games | Arenas | Shared] = {
    "philosophers": protocol("philosophers", (13,), (6,), Actions('"eat(0)"', '"take(0)"', '"eat(0)"', '"leave(1)"')),
    "counter": protocol("counter", (17,), (8,), Actions("carry", "reset", "carry", "(idle || reset)")),
    "buffer": protocol("buffer", (11, 3), (6, 2), Actions('"get(0)"', '"put(0)"', '"get(0)"', '"get(1)"')),
    "election": protocol("election", (10,), (5,), Actions("leader", '"pass(3)"', "leader", '"drop(2)"')),
    "token-ring": protocol("token-ring", (12,), (5,), Actions('"enter(0)"', '"want(0)"', '"enter(0)"', "pass")),
    "elevator": protocol("elevator", (12,), (4,), Actions('"open(0)"', '"call(0)"', '"open(0)"', "close")),
    "window": protocol("window", (4, 3), (2, 2), Actions('"deliver(0)"', '"accept(0)"', '"deliver(0)"', "lose")),
    "random": large("random", LARGE, LETTERS, seconds=90),
    "live": large("live", LARGE, LETTERS, seconds=60),
    "ring": large("ring", (*REACHING, ask.ENDLESS), Actions("home", "turn", "home", "home"), seconds=65),
    "path": large("path", REACHING, Actions("arrive", "go", "arrive", "go"), seconds=20),
    "chain": large("chain", REACHING, Actions("top", "up", "top", "down"), seconds=30),
    "alternation": Systems("live", (20_000,), (200,), LETTERS, DEEP, DEEP, seconds=20),
    "ladders": Games(
        (
            Game("ladder", "ladder", (500_000,), (500,)),
            Game("recursive ladder, 9 levels", "recursive-ladder", (9, 1), (9, 1)),
            Game("recursive ladder, 15 levels", "recursive-ladder", (15, 1), (15, 1)),
            Game("recursive ladders, 15 levels", "recursive-ladder", (15, 1_334), (15, 13)),
        ),
        seconds=20,
    ),
    "cliques": Games((Game("clique", "clique", (500,), (20,)), Game("clique", "clique", (2_000,), (50,))), seconds=15),
    "climbs": Games(
        (
            Game("climb, 4 rows, Even wins", "climb", (4, 100, 0), (2, 10, 0)),
            Game("climb, 4 rows, Odd wins", "climb", (4, 100, 1), (2, 10, 1)),
            Game("climb, 15 rows, Even wins", "climb", (15, 20_000, 0), (15, 20, 0)),
            Game("climb, 15 rows, Odd wins", "climb", (15, 20_000, 1), (15, 20, 1)),
            Game("slow lifting, 3 levels", "slow-lifting", (3, 1_000), (3, 4)),
            Game("slow lifting, 10 levels", "slow-lifting", (10, 100), (10, 2)),
        ),
        seconds=20,
    ),
    "random-games": Games(
        (
            random_game(1_000_000, 2),
            random_game(1_000_000, 4),
            random_game(10_000, 10),
            random_game(100_000, 10),
            random_game(1_000_000, 10),
            random_game(10_000, 30),
            random_game(100_000, 30),
        ),
        seconds=60,
    ),
    "layers": Games(
        (
            Game("layers", "buchi", (500_000,), (500,)),
            Game("stairs of 4", "stairs", (60_000, 4), (60, 4)),
            Game("stairs of 10", "stairs", (30_000, 10), (30, 10)),
        ),
        seconds=20,
    ),
    "products": Games(
        (
            near_game(4),
            near_game(10),
            near_game(30),
            product_game(500_000, 2),
            product_game(250_000, 4),
            product_game(170_000, 6),
            product_game(125_000, 8),
        ),
        seconds=60,
    ),
    "arenas": Arenas("live", (1_000_000,), (2_000,), LETTERS, (ask.NOTHING, ask.RESPONSE, ask.ENDLESS), seconds=60),
    "workers": Shared(
        (random_game(1_000_000, 4), random_game(1_000_000, 10), near_game(10), product_game(250_000, 4), product_game(170_000, 6)),
        "random",
        (1_000_000,),
        (2_000,),
        LETTERS,
        LARGE,
        seconds=240,
    ),
}
