#!/usr/bin/env python3
"""Writes the system.aut of every folder of examples/, the same bytes on each run.

Run it anywhere: `python3 examples/generate.py`. It needs Python 3.8 or later and nothing else.

Each system is a small model that is written here as a function from a state to its transitions; the states that can be
reached from the first one are numbered in the order in which they are met (breadth first). Where the models come from:

first, two-states     two states, made up for a first look
alternating-bit       the alternating bit protocol (Bartlett, Scantlebury and Wilkinson 1969) over two channels that hold one
                      message each and may lose it
peterson              the mutual exclusion algorithm of Peterson (1981) for two processes
philosophers          the dining philosophers (Dijkstra 1971): four, the last of whom takes his right fork first
philosophers-deadlock the same, where each takes his left fork first
counter               a 4-bit synchronous counter with the inputs enable and reset and the output carry
two-phase-commit      the commit protocol of that name (Gray 1978): a coordinator, which may crash, and two participants
elevator              an elevator for three floors, which goes on in its direction as long as a call waits there
"""

from collections import deque
from pathlib import Path

HERE = Path(__file__).resolve().parent


def explore(first, steps):
    """The transitions (source, label, target) of the states that can be reached, and how many there are."""
    numbers = {first: 0}
    waiting = deque([first])
    transitions = []
    while waiting:
        state = waiting.popleft()
        for label, target in steps(state):
            if target not in numbers:
                numbers[target] = len(numbers)
                waiting.append(target)
            transitions.append((numbers[state], label, numbers[target]))
    return transitions, len(numbers)


def write(name, transitions, states, initial=0):
    """Writes the system's text, its transitions by source, label and target."""
    lines = [f"des ({initial},{len(set(transitions))},{states})"]
    lines += [f'({source},"{label}",{target})' for source, label, target in sorted(set(transitions))]
    folder = HERE / name
    folder.mkdir(exist_ok=True)
    (folder / "system.aut").write_text("\n".join(lines) + "\n", encoding="ascii", newline="\n")


def alternating_bit():
    """The sender, the channel of frames, the receiver, the channel of acknowledgements.

    Sender: ("ready", bit) or ("sending", bit, datum). Receiver: ("waiting", bit), ("holding", bit, datum) or ("replying", bit,
    acknowledged bit). A channel holds a message or None. Losing a message is tau.
    """

    def steps(state):
        sender, frame, receiver, acknowledgement = state
        bit = sender[1]
        if sender[0] == "ready":
            for datum in (0, 1):
                yield f"accept({datum})", (("sending", bit, datum), frame, receiver, acknowledgement)
        elif frame is None:
            yield f"frame({sender[2]},{bit})", (sender, (sender[2], bit), receiver, acknowledgement)
        if acknowledgement is not None:
            done = sender[0] == "sending" and acknowledgement == bit
            after = ("ready", 1 - bit) if done else sender
            yield f"acknowledged({acknowledgement})", (after, frame, receiver, None)
            yield "tau", (sender, frame, receiver, None)
        if frame is not None:
            yield "tau", (sender, None, receiver, acknowledgement)
        if receiver[0] == "waiting" and frame is not None:
            datum, sent = frame
            after = ("holding", sent, datum) if sent == receiver[1] else ("replying", receiver[1], sent)
            yield f"arrive({datum},{sent})", (sender, None, after, acknowledgement)
        elif receiver[0] == "holding":
            yield f"deliver({receiver[2]})", (sender, frame, ("replying", 1 - receiver[1], receiver[1]), acknowledgement)
        elif receiver[0] == "replying" and acknowledgement is None:
            yield f"reply({receiver[2]})", (sender, frame, ("waiting", receiver[1]), receiver[2])

    return explore((("ready", 0), None, ("waiting", 0), None), steps)


def peterson():
    """Two processes, each at one of four places, with a flag each and one turn.

    A process thinks, wants to enter (and raises its flag), gives the turn away, enters where the other's flag is down or the turn
    is its own, and leaves (and lowers its flag).
    """

    def steps(state):
        places, turn = state
        for me in (0, 1):
            other = 1 - me

            def moved(place):
                return (place, places[1]) if me == 0 else (places[0], place)

            if places[me] == "thinking":
                yield f"think({me})", state
                yield f"want({me})", (moved("wanting"), turn)
            elif places[me] == "wanting":
                yield f"give({me})", (moved("waiting"), other)
            elif places[me] == "waiting":
                if places[other] == "thinking" or turn == me:
                    yield f"enter({me})", (moved("inside"), turn)
            else:
                yield f"leave({me})", (moved("thinking"), turn)

    return explore((("thinking", "thinking"), 0), steps)


def philosophers(count, last_is_right_handed):
    """Philosophers at a round table: how many forks each holds; fork i lies to the left of philosopher i."""

    def order(me):
        left, right = me, (me + 1) % count
        return (right, left) if last_is_right_handed and me == count - 1 else (left, right)

    def taken(state):
        return {fork for me in range(count) for fork in order(me)[: state[me]]}

    def steps(state):
        forks = taken(state)
        for me in range(count):
            held = state[me]
            if held < 2:
                fork = order(me)[held]
                if fork not in forks:
                    yield f"take({me},{fork})", state[:me] + (held + 1,) + state[me + 1 :]
            else:
                yield f"drop({me})", state[:me] + (0,) + state[me + 1 :]

    return explore((0,) * count, steps)


def counter(bits):
    """A counter of so many bits. Each transition is one clock with its inputs and its output, as a multi-action."""
    size = 2**bits

    def steps(value):
        yield "clock", value
        yield "clock|enable|carry" if value == size - 1 else "clock|enable", (value + 1) % size
        yield "clock|reset", 0
        yield "clock|enable|reset", 0

    return explore(0, steps)


def two_phase_commit(count):
    """A coordinator and so many participants.

    The coordinator asks each for its vote, decides to commit where all have voted yes and to abort where one has voted no, and tells each. It may
    crash before all are told. A participant that votes no has aborted, and one that hasn't voted yet may abort when the coordinator is down; one
    that has voted yes waits to be told.
    """

    def steps(state):
        coordinator, participants = state

        def put(me, place):
            return participants[:me] + (place,) + participants[me + 1 :]

        for me, place in enumerate(participants):
            if coordinator == "asking" and place == "idle":
                yield f"prepare({me})", (coordinator, put(me, "asked"))
            if place == "asked":
                yield f"vote({me},yes)", (coordinator, put(me, "ready"))
                yield f"vote({me},no)", (coordinator, put(me, "aborted"))
            if place == "ready" and coordinator in ("commit", "abort"):
                yield f"{coordinator}({me})", (coordinator, put(me, "committed" if coordinator == "commit" else "aborted"))
            if place in ("idle", "asked") and coordinator in ("abort", "down"):
                yield f"abort({me})", (coordinator, put(me, "aborted"))
        if coordinator == "asking" and all(place == "ready" for place in participants):
            yield "decide(commit)", ("commit", participants)
        if coordinator == "asking" and "aborted" in participants:
            yield "decide(abort)", ("abort", participants)
        if coordinator != "down" and any(place in ("idle", "asked", "ready") for place in participants):
            yield "crash", ("down", participants)

    return explore(("asking", ("idle",) * count), steps)


def elevator(floors):
    """The floor where it is, where it goes (1 up, -1 down), whether its door is open, and the floors that it is called to.

    A button may be pressed at any time. Called to its floor, it opens its door, which answers the call. Else, with its door closed, it goes on in its
    direction where a call waits there, and turns round where one waits on the other side alone.
    """

    def steps(state):
        floor, direction, is_open, calls = state
        for called in range(floors):
            yield f"press({called})", (floor, direction, is_open, calls | {called})
        if is_open:
            yield "close", (floor, direction, False, calls)
        elif floor in calls:
            yield f"open({floor})", (floor, direction, True, calls - {floor})
        elif any((call - floor) * direction > 0 for call in calls):
            yield "up" if direction > 0 else "down", (floor + direction, direction, False, calls)
        elif calls:
            yield "turn", (floor, -direction, False, calls)

    return explore((0, 1, False, frozenset()), steps)


def main():
    write("first", [(0, "a", 1), (1, "b", 1)], 2)
    write("two-states", [(0, "a", 1), (1, "b", 0)], 2)
    write("alternating-bit", *alternating_bit())
    write("peterson", *peterson())
    write("philosophers", *philosophers(4, last_is_right_handed=True))
    write("philosophers-deadlock", *philosophers(4, last_is_right_handed=False))
    write("counter", *counter(4))
    write("two-phase-commit", *two_phase_commit(2))
    write("elevator", *elevator(3))


if __name__ == "__main__":
    main()
