"""What is asked of the systems: formulas over four action formulas that each family of systems names."""

from __future__ import annotations

from typing import NamedTuple


class Actions(NamedTuple):
    """Action formulas of a system: an event that occurs, a request with its answer, and a step that excuses a path without the answer where
    it comes again and again."""

    event: str
    request: str
    answer: str
    excuse: str


READING = "true"

DEADLOCK = "no deadlock ahead"
EVENT = "an event can be reached"
NOTHING = "what doesn't occur can be reached"
RESPONSE = "each request is answered"
INEVITABLE = "the answer comes on each path"
AGAIN = "some path has the event again and again"
EXCUSED = "each request is answered, or the excuse comes again and again"
ENDLESS = "each endless path has the event again and again"
THREE = "three alternating fixpoints"
FOUR = "four alternating fixpoints"
SIX = "six alternating fixpoints"

FORMULAS = {
    DEADLOCK: "[true*]<true>true",
    EVENT: "<true* . {event}>true",
    NOTHING: '<true* . "no label of this system">true',
    RESPONSE: "[true* . {request}] mu X. (<true>true && [!{answer}]X)",
    INEVITABLE: "mu X. (<true>true && [!{answer}]X)",
    AGAIN: "nu X. <true* . {event}>X",
    EXCUSED: "[true* . {request}] nu X. mu Y. ([{excuse}]X && [!{excuse} && !{answer}]Y)",
    ENDLESS: "nu X. mu Y. ([{event}]X && [!{event}]Y)",
    THREE: "nu X. mu Y. nu Z. ((<{request}>X || [{answer}]Y) && [true]Z)",
    FOUR: "nu U. mu X. nu Y. mu Z. ((<{request}>U || [{answer}]X) && (<{excuse}>Y || [true]Z))",
    SIX: "nu U. mu V. nu W. mu X. nu Y. mu Z. ((<{request}>U || [{answer}]V) && (<{excuse}>W || [{request}]X) && (<{answer}>Y || [true]Z))",
}


def formula(question: str, actions: Actions) -> str:
    """The text of the question for a system of these actions."""
    return FORMULAS[question].format(**actions._asdict())
