"""Measures a family and tells it as a section of Markdown."""

from __future__ import annotations

import subprocess
import sys
from dataclasses import dataclass
from pathlib import Path
from typing import Iterator

import games
import systems
import tables
from families import Arenas, Game, Games, Shared, Systems
from measure import Run, Stopwatch
from questions import READING, formula

HERE = Path(__file__).resolve().parent
WORKERS, MANY_WORKERS, MOST_SHARDS = "4", "64", "256"
QUICK_SECONDS = 3


@dataclass(frozen=True)
class Bench:
    """The program that is measured, the time that is left, the folder for what is made, and whether all sizes are small."""

    program: Path
    stopwatch: Stopwatch
    folder: Path
    is_quick: bool

    def made(self, maker: str, generator: str, sizes: tuple[int, ...], name: str = "text") -> Path:
        """The file of this name with the text that this generator makes."""
        file = self.folder / name
        with file.open("wb") as out:
            subprocess.run([sys.executable, "-B", HERE / maker, generator, *map(str, sizes)], stdout=out, check=True)
        return file

    def written(self, name: str, text: str) -> Path:
        """The file with this text."""
        file = self.folder / name
        file.write_text(text + "\n")
        return file

    def evidence(self) -> Path:
        """A path for evidence, of which nothing is kept, so that no disk is measured."""
        for player in ("even", "odd"):
            link = self.folder / f"evidence.{player}"
            if not link.is_symlink():
                link.symlink_to("/dev/null")
        return self.folder / "evidence"


def section(name: str, family: Systems | Games | Arenas | Shared, bench: Bench) -> str:
    """The title of a family, and its table. What time other families left is there for this one, too."""
    bench.stopwatch.add(QUICK_SECONDS if bench.is_quick else family.seconds)
    if isinstance(family, Systems):
        told = systems_told(family, bench)
    elif isinstance(family, Games):
        told = games_told(family, bench)
    elif isinstance(family, Arenas):
        told = arenas_told(family, bench)
    else:
        told = shared_told(family, bench)
    return f"## {name}\n\n{told}"


def first_line(file: Path) -> str:
    """The header of a text."""
    with file.open() as lines:
        return lines.readline()


def sentence(text: str) -> str:
    """The first paragraph of what is said of a generator, on one line."""
    return " ".join(text.split("\n\n")[0].split())


QUESTION_HEAD = ["Question", "Initial state", "Game, s", "MB", "4 workers, s", "MB", "Sets, s", "MB", "Evidence, s", "MB", "Why, s", "MB"]
QUESTION_RATIOS = ["Game / reading", "Sets / reading", "Game / sets", "4 workers / 1"]


def systems_told(family: Systems, bench: Bench) -> str:
    """A system: what it takes to read it, and a row for each question."""
    stopwatch = bench.stopwatch
    file = bench.made("systems.py", family.generator, family.quick if bench.is_quick else family.sizes)
    _, transitions, states = first_line(file).strip("des ()\n").split(",")
    cat, reading = stopwatch.least(stopwatch.run("cat", file), system_reading(bench, file))
    rows = list(question_rows(family, bench, file, reading))
    return (
        f"{sentence(systems.SYSTEMS[family.generator].__doc__)} {int(states):,} states, {int(transitions):,} transitions, "
        f"{tables.size_of(file)} MB of text.\n`cat` took {tables.seconds(cat)} s, reading alone {tables.seconds(reading)} s "
        f"and {tables.memory(reading)} MB, {tables.ratio(reading, cat)} times as long as `cat`.\n"
        f"Here the event is `{family.actions.event}`, the request `{family.actions.request}`, the answer `{family.actions.answer}` "
        f"and the excuse `{family.actions.excuse}`.\n\n{tables.table(QUESTION_HEAD + QUESTION_RATIOS, rows)}"
    )


def system_reading(bench: Bench, file: Path) -> Run | None:
    """Reading a system alone: a formula whose answer costs nothing."""
    return bench.stopwatch.run(bench.program, "check", file, bench.written("formula", READING), "--plain")


def question_rows(family: Systems, bench: Bench, file: Path, reading: Run | None) -> Iterator[list[str]]:
    """The row of each question."""
    stopwatch = bench.stopwatch
    for question in family.questions:
        texts = (file, bench.written("formula", formula(question, family.actions)))
        words = (bench.program, "check", *texts)
        game = stopwatch.run(*words)
        is_done = game is not None and game.is_answer
        by_four = stopwatch.run(*words, "--workers", WORKERS) if is_done else None
        sets = stopwatch.run(*words, "--plain")
        game, by_four, sets = stopwatch.least(game, by_four, sets)
        wanted = is_done and question in family.with_evidence
        evidence = stopwatch.run(*words, "--evidence", bench.evidence()) if wanted else None
        why = stopwatch.run(bench.program, "why", *texts) if wanted else None
        runs = (game, by_four, sets, evidence, why)
        cells = [cell for run in runs for cell in (tables.seconds(run), tables.memory(run))]
        ratios = [tables.ratio(*pair) for pair in ((game, reading), (sets, reading), (game, sets), (by_four, game))]
        yield [question, tables.answer(runs), *cells, *ratios]


GAME_HEAD = ["Vertices", "Text, MB", "`cat`, s", "Reading, s", "MB", "1 worker, s", "MB", "4 workers, s", "MB", "Evidence, s", "MB"]
GAME_RATIOS = ["Reading / `cat`", "1 worker / reading", "4 workers / 1", "Evidence / 1 worker"]


def games_told(family: Games, bench: Bench) -> str:
    """Games: a row for each, and what they are."""
    rows = [game_row(game, bench) for game in family.games]
    generators = dict.fromkeys(game.generator for game in family.games)
    kinds = "\n".join(f"- {generator}: {sentence(games.GAMES[generator].__doc__)}" for generator in generators)
    return f"{kinds}\n\n{tables.table(['Game', *GAME_HEAD, *GAME_RATIOS], rows)}"


def game_reading(bench: Bench, file: Path) -> Run | None:
    """Reading a game alone: a look at evidence with no vertex."""
    return bench.stopwatch.run(bench.program, "verify", file, bench.written("nothing", "evidence even"))


def game_row(game: Game, bench: Bench) -> list[str]:
    """The row of a game."""
    file = bench.made("games.py", game.generator, game.quick if bench.is_quick else game.sizes)
    return [game.title, *game_cells(bench, file)]


def game_cells(bench: Bench, file: Path) -> list[str]:
    """What it takes to read a game, to solve it by one worker and by four, and to solve it with the evidence of both players."""
    stopwatch = bench.stopwatch
    vertices = int(first_line(file).strip("parity ;\n")) + 1
    cat, reading, one = stopwatch.run("cat", file), game_reading(bench, file), stopwatch.run(bench.program, "solve", file)
    is_done = one is not None and one.is_answer
    by_four = stopwatch.run(bench.program, "solve", file, "--workers", WORKERS) if is_done else None
    evidence = stopwatch.run(bench.program, "solve", file, "--evidence", bench.evidence()) if is_done else None
    cat, reading, one, by_four, evidence = stopwatch.least(cat, reading, one, by_four, evidence)
    cells = [cell for run in (reading, one, by_four, evidence) for cell in (tables.seconds(run), tables.memory(run))]
    ratios = [tables.ratio(*pair) for pair in ((reading, cat), (one, reading), (by_four, one), (evidence, one))]
    return [f"{vertices:,}", tables.size_of(file), tables.seconds(cat), *cells, *ratios]


def arenas_told(family: Arenas, bench: Bench) -> str:
    """The games of questions on a system, each written as a text and solved as such."""
    system = bench.made("systems.py", family.generator, family.quick if bench.is_quick else family.sizes, "system")
    rows = [[question, *game_cells(bench, arena(question, system, family, bench))] for question in family.questions]
    return (
        f"The games of questions on the system `{family.generator}` of {(family.quick if bench.is_quick else family.sizes)[0]:,} states, "
        f"written by `check --game` and solved as texts, of which nothing but the text is known.\n\n"
        f"{tables.table(['Question', *GAME_HEAD, *GAME_RATIOS], rows)}"
    )


def arena(question: str, system: Path, family: Arenas, bench: Bench) -> Path:
    """The file with the game of this question."""
    file = bench.folder / "text"
    words = (bench.program, "check", system, bench.written("formula", formula(question, family.actions)), "--quiet", "--game", file)
    subprocess.run(words, stdout=subprocess.DEVNULL, stderr=subprocess.DEVNULL)
    return file


SHARED_HEAD = ["Work", "Reading, s", "1 worker, s", "MB", "4 workers, s", "MB", "64 workers, s", "4 workers, locked, s"]
SHARED_RATIOS = ["1 worker / 4", "But for reading", "64 workers / 4", "Locked / 4", "MB, 4 / 1"]


def shared_told(family: Shared, bench: Bench) -> str:
    """Work for several workers: a row for each game and each question."""
    rows = [*shared_games(family, bench), *shared_questions(family, bench)]
    return (
        f"What several workers gain, and cost: games by `solve`, and questions by `check` on the system `{family.generator}` of "
        f"{(family.quick if bench.is_quick else family.sizes)[0]:,} states.\n"
        f"'But for reading' is the ratio of one worker's seconds to those of four, less those of reading (and, of a question, its report);\n"
        f"'locked' is the locked board with {MOST_SHARDS} shards.\n\n"
        f"{tables.table(SHARED_HEAD + SHARED_RATIOS, rows)}"
    )


def shared_games(family: Shared, bench: Bench) -> Iterator[list[str]]:
    """The row of each game."""
    for game in family.games:
        file = bench.made("games.py", game.generator, game.quick if bench.is_quick else game.sizes)
        [reading] = bench.stopwatch.least(game_reading(bench, file))
        yield shared_row(game.title, (bench.program, "solve", file), reading, bench)


def shared_questions(family: Shared, bench: Bench) -> Iterator[list[str]]:
    """The row of each question."""
    file = bench.made("systems.py", family.generator, family.quick if bench.is_quick else family.sizes)
    [reading] = bench.stopwatch.least(system_reading(bench, file))
    for question in family.questions:
        words = (bench.program, "check", file, bench.written("formula", formula(question, family.actions)))
        yield shared_row(question, words, reading, bench)


def shared_row(title: str, words: tuple[str | Path, ...], reading: Run | None, bench: Bench) -> list[str]:
    """The row of a game or a question: runs by one worker, by some, by many, and by some over locks."""
    stopwatch = bench.stopwatch
    one = stopwatch.run(*words)
    some = stopwatch.run(*words, "--workers", WORKERS)
    many = stopwatch.run(*words, "--workers", MANY_WORKERS)
    locked = stopwatch.run(*words, "--workers", WORKERS, "--board", "locked", "--shards", MOST_SHARDS)
    reading, one, some, many, locked = stopwatch.least(reading, one, some, many, locked)
    cells = [cell for run in (one, some) for cell in (tables.seconds(run), tables.memory(run))]
    ratios = [tables.ratio(one, some), tables.ratio_past(one, some, reading), tables.ratio(many, some), tables.ratio(locked, some)]
    return [title, tables.seconds(reading), *cells, tables.seconds(many), tables.seconds(locked), *ratios, tables.memory_ratio(some, one)]
