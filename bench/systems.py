"""Labelled transition systems of known shapes, in the Aldebaran format.

    python3 bench/systems.py philosophers 5 > system.aut

The numbers after the name are those of the function that makes the system.
"""

from __future__ import annotations

from typing import Callable, Hashable, Iterable, Iterator

from texts import Dice, write_named

Step = tuple[str, Hashable]
LETTERS = "abcd"
TRANSITIONS_OF_STATE = 2


def header(transitions: int, states: int) -> str:
    """The first line of a system that begins in state 0."""
    return f"des (0,{transitions},{states})\n"


def line(source: int, label: str, target: int) -> str:
    """The line of a transition."""
    return f'({source},"{label}",{target})\n'


def explored(initial: Hashable, steps_of: Callable[..., Iterable[Step]]) -> Iterator[str]:
    """The system of all states that can be reached from this one, numbered as they are found."""
    numbers = {initial: 0}
    found = [initial]
    lines = []
    for source, state in enumerate(found):
        for label, target in steps_of(state):
            if target not in numbers:
                numbers[target] = len(found)
                found.append(target)
            lines.append(line(source, label, numbers[target]))
    yield header(len(lines), len(found))
    yield from lines


def random(states: int) -> Iterator[str]:
    """Twice as many transitions as states, from any state to any, in no order; some states have none."""
    dice = Dice()
    count = TRANSITIONS_OF_STATE * states
    yield header(count, states)
    ends = zip(dice.numbers(count, states), dice.numbers(count, len(LETTERS)), dice.numbers(count, states))
    for source, letter, target in ends:
        yield line(source, LETTERS[letter], target)


def live(states: int) -> Iterator[str]:
    """Two transitions from each state to any: no deadlock."""
    dice = Dice()
    count = TRANSITIONS_OF_STATE * states
    yield header(count, states)
    ends = zip(dice.numbers(count, len(LETTERS)), dice.numbers(count, states))
    for number, (letter, target) in enumerate(ends):
        yield line(number // TRANSITIONS_OF_STATE, LETTERS[letter], target)


def ring(states: int) -> Iterator[str]:
    """One step `turn` on from each state, but `home` from the last to the first."""
    yield header(states, states)
    for state in range(states - 1):
        yield line(state, "turn", state + 1)
    yield line(states - 1, "home", 0)


def path(states: int) -> Iterator[str]:
    """One step `go` on from each state, `arrive` to the last, and none from there."""
    yield header(states - 1, states)
    for state in range(states - 2):
        yield line(state, "go", state + 1)
    yield line(states - 2, "arrive", states - 1)


def chain(states: int) -> Iterator[str]:
    """A step `up` and a step `down` between neighbours; `top` at the last state leads to itself."""
    yield header(2 * states - 1, states)
    for state in range(states - 1):
        yield line(state, "up", state + 1)
        yield line(state + 1, "down", state)
    yield line(states - 1, "top", states - 1)


def philosophers(seats: int) -> Iterator[str]:
    """Dining philosophers who take the left fork, then the right one, and put both back at once: they can all wait for ever."""
    thinks, waits, eats = range(3)

    def steps(state: tuple[int, ...]) -> Iterator[Step]:
        for seat, does in enumerate(state):
            right = state[(seat + 1) % seats]
            if does == thinks and state[seat - 1] != eats:
                yield f"take({seat})", state[:seat] + (waits,) + state[seat + 1:]
            if does == waits and right == thinks:
                yield f"eat({seat})", state[:seat] + (eats,) + state[seat + 1:]
            if does == eats:
                yield f"leave({seat})", state[:seat] + (thinks,) + state[seat + 1:]

    return explored((thinks,) * seats, steps)


def counter(bits: int) -> Iterator[str]:
    """A binary counter: a step `tick` or, from the last number, `carry`; `idle`, and `reset`."""
    states = 1 << bits
    yield header(3 * states, states)
    for number in range(states):
        after = (number + 1) % states
        yield line(number, "tick" if after else "carry", after)
        yield line(number, "idle", number)
        yield line(number, "reset", 0)


def buffer(places: int, data: int) -> Iterator[str]:
    """A queue of so many places for so many kinds of data: `put(D)` where one is free, `get(D)` of the oldest."""
    first = [sum(data**shorter for shorter in range(length)) for length in range(places + 2)]
    states = first[places + 1]
    yield header(first[places] * data + states - 1, states)
    for length in range(places + 1):
        for word in range(data**length):
            source = first[length] + word
            if length < places:
                yield from (line(source, f"put({new})", first[length + 1] + word * data + new) for new in range(data))
            if length > 0:
                oldest, rest = divmod(word, data ** (length - 1))
                yield line(source, f"get({oldest})", first[length - 1] + rest)


def election(stations: int) -> Iterator[str]:
    """The leader of a ring is the station whose number comes round (Chang and Roberts); then all begins again.

    A station passes on what is greater than its own number, to the station below, so that numbers go far."""
    begun = tuple((station,) for station in range(stations))

    def steps(queues: tuple[tuple[int, ...], ...]) -> Iterator[Step]:
        for station, queue in enumerate(queues):
            if not queue:
                continue
            number, following = queue[0], (station - 1) % stations
            left = queues[:station] + (queue[1:],) + queues[station + 1:]
            if number == following:
                yield "leader", begun
            elif number < following:
                yield f"drop({number})", left
            else:
                yield f"pass({number})", left[:following] + (left[following] + (number,),) + left[following + 1:]

    return explored(begun, steps)


def token_ring(stations: int) -> Iterator[str]:
    """The station with the token enters where it wants to, and passes the token on after it or where it doesn't."""

    def steps(state: tuple[int, int, bool]) -> Iterator[Step]:
        holder, wanting, inside = state
        following = (holder + 1) % stations
        for station in range(stations):
            if not wanting >> station & 1:
                yield f"want({station})", (holder, wanting | 1 << station, inside)
        if inside:
            yield f"leave({holder})", (following, wanting & ~(1 << holder), False)
        elif wanting >> holder & 1:
            yield f"enter({holder})", (holder, wanting, True)
        else:
            yield "pass", (following, wanting, False)

    return explored((0, 0, False), steps)


def elevator(floors: int) -> Iterator[str]:
    """An elevator that keeps its direction as long as it is called that way; its door opens where it is called."""

    def moved(floor: int, called: int, rises: bool) -> Step:
        above, below = called >> (floor + 1), called & ((1 << floor) - 1)
        goes_up = above != 0 and (rises or below == 0)
        return ("up", (floor + 1, called, True, False)) if goes_up else ("down", (floor - 1, called, False, False))

    def steps(state: tuple[int, int, bool, bool]) -> Iterator[Step]:
        floor, called, rises, is_open = state
        for other in range(floors):
            if not called >> other & 1:
                yield f"call({other})", (floor, called | 1 << other, rises, is_open)
        if is_open:
            yield "close", (floor, called, rises, False)
        elif called >> floor & 1:
            yield f"open({floor})", (floor, called & ~(1 << floor), rises, True)
        elif called:
            yield moved(floor, called, rises)

    return explored((0, 0, True, False), steps)


def window(size: int, room: int) -> Iterator[str]:
    """A sliding window (go back N) over two queues of so much room, both of which lose messages."""
    numbers = size + 1

    def sent(queue: tuple[int, ...], number: int) -> tuple[int, ...]:
        return queue + (number,) if len(queue) < room else queue

    def steps(state: tuple[int, int, int, tuple[int, ...], tuple[int, ...]]) -> Iterator[Step]:
        oldest, waiting, expected, data, answers = state
        if waiting < size:
            new = (oldest + waiting) % numbers
            yield f"accept({new})", (oldest, waiting + 1, expected, sent(data, new), answers)
        if waiting and len(data) < room:
            for later in range(waiting):
                number = (oldest + later) % numbers
                yield f"resend({number})", (oldest, waiting, expected, sent(data, number), answers)
        if data:
            yield "lose", (oldest, waiting, expected, data[1:], answers)
            fits = data[0] == expected
            after = (expected + 1) % numbers if fits else expected
            yield f"deliver({expected})" if fits else "ignore", (oldest, waiting, after, data[1:], sent(answers, after))
        if answers:
            yield "lose", (oldest, waiting, expected, data, answers[1:])
            told = (answers[0] - oldest) % numbers
            freed = told if told <= waiting else 0
            yield "answer", ((oldest + freed) % numbers, waiting - freed, expected, data, answers[1:])

    return explored((0, 0, 0, (), ()), steps)


SYSTEMS = {
    "random": random,
    "live": live,
    "ring": ring,
    "path": path,
    "chain": chain,
    "philosophers": philosophers,
    "counter": counter,
    "buffer": buffer,
    "election": election,
    "token-ring": token_ring,
    "elevator": elevator,
    "window": window,
}

if __name__ == "__main__":
    write_named(SYSTEMS)
