"""Reads systems and formulas by docs/FORMATS.md alone, with each refusal. tools/arena.py and tests/reference.py read by it.

A tree is a tuple: its kind and its parts, which are trees, bytes, an offset or a list of names."""

import re
from collections import namedtuple

from verify import NUMBER, lines, want

MAX_STATES, MAX_TRANSITIONS = 1_000_000, 10_000_000
MAX_FORMULA, MAX_NESTING, MAX_OPEN = 1_048_576, 256, 1_024

# ---- systems

HEADER = re.compile(rb"\s*des\s*\(\s*%b\s*,\s*%b\s*,\s*%b\s*\)\s*".replace(rb"\s", rb"[ \t]") % (3 * (NUMBER,)))
TRANSITION = re.compile(rb'\s*\(\s*%b\s*,\s*"([^"]*)"\s*,\s*%b\s*\)\s*'.replace(rb"\s", rb"[ \t]") % (2 * (NUMBER,)))
LABEL = re.compile(rb"[ !#-~]{1,4096}")
NAME = rb"[A-Za-z_][A-Za-z0-9_]*"
NAMES = re.compile(rb"%b(\|%b)*" % (NAME, NAME))

System = namedtuple("System", "initial states arrows")


def read_system(text):
    rows = lines(text, b"\r")
    shape = HEADER.fullmatch(rows[0]) if rows else None
    want(shape, "A1 at line 1")
    initial, count, states = map(int, shape.groups())
    want(count <= MAX_TRANSITIONS and states <= MAX_STATES, "A3 at line 1")
    want(initial < states, "A6 at line 1")
    arrows = set()
    for at, row in enumerate(rows[1:], 2):
        want(at <= count + 1, f"A5 at line {at}")
        shape = TRANSITION.fullmatch(row)
        want(shape, f"A2 at line {at}")
        source, label, target = int(shape[1]), shape[2], int(shape[3])
        want(LABEL.fullmatch(label), f"A7 at line {at}")
        want(max(source, target) < states, f"A4 at line {at}")
        arrows.add((source, label, target))
    want(len(rows) > count, f"A5 at line {len(rows) + 1}")
    return System(initial, states, arrows)


def names_of(label):
    """The multiset of names as which a label is read, ascending, or None where it is opaque."""
    names = sorted(label.split(b"|")) if NAMES.fullmatch(label) else [b"tau", b""]
    return [] if names == [b"tau"] else None if b"tau" in names else names


# ---- formulas

SKIPPED = re.compile(rb"(?:[ \t\r\n]|%[^\n]*)*")
TOKEN = re.compile(rb'(?P<name>%b)|"(?P<quoted>[ !#-~]{1,4096})"|(?P<sign>=>|\|\||&&|[|!<>\[\]().+*])' % NAME)
WORDS, RESERVED = {b"true", b"false", b"mu", b"nu", b"tau"}, {b"forall", b"exists", b"val", b"delay", b"yaled", b"nil"}
AFTER_POSTFIX = {".", "+", "*", ")", "]", ">"}
# Of each row of the tables that leans to the right: its sign, the tree that it makes, and the row of its operands.
LEANING = {
    "formula": ("=>", "implies", "or"), "or": ("||", "or", "and"), "and": ("&&", "and", "unary"),
    "regular": ("choice", "choice", "sequence"), "sequence": (".", "sequence", "postfixed"),
    "implication": ("=>", "implies", "disjunction"), "disjunction": ("||", "or", "conjunction"), "conjunction": ("&&", "and", "negation")}
LOGIC, PATHS = {"not", "and", "or", "implies"}, {"sequence", "choice", "star", "plus"}

Token = namedtuple("Token", "kind value offset")


def tokens_of(text):
    """The tokens and one for the end. A sign's and a word's kind is itself, but that of a `+` is `choice` or `postfix`."""
    want(len(text) <= MAX_FORMULA, f"F8 at offset {MAX_FORMULA}")
    found, at = [], SKIPPED.match(text).end()
    while at < len(text):
        token = TOKEN.match(text, at)
        want(token, f"F1 at offset {at}")
        kind, value = token.lastgroup, token[token.lastgroup]
        want(kind != "name" or value not in RESERVED, f"F4 at offset {at}")
        found.append(Token(value.decode() if kind == "sign" or kind == "name" and value in WORDS else kind, value, at))
        at = SKIPPED.match(text, token.end()).end()
    found.append(Token("end", b"", len(text)))
    for at, (token, following) in enumerate(zip(found, found[1:])):
        if token.kind == "+":
            found[at] = token._replace(kind="postfix" if following.kind in AFTER_POSTFIX else "choice")
    return found


def nesting(tree):
    return 1 + max((nesting(part) for part in tree if isinstance(part, tuple)), default=-1)


class Parser:
    """`outer` is the number of signs around the place. `misplaced` gets the offsets of operands of logic that are no action formulas."""

    def __init__(self, text):
        self.tokens, self.place, self.open, self.misplaced = tokens_of(text), 0, 0, []

    @property
    def kind(self):
        return self.tokens[self.place].kind

    def want(self, condition, code="F2"):
        token = self.tokens[self.place]
        want(condition, f"{'F3' if token.kind == 'end' else code} at offset {token.offset}")

    def take(self, *kinds):
        self.want(self.kind in kinds)
        self.place += 1
        return self.tokens[self.place - 1]

    def nest(self, outer, operand=()):
        """The token here puts one more sign around an operand."""
        self.want(outer + 1 + nesting(operand) <= MAX_NESTING, "F8")

    def parse(self, row, outer):
        if row not in LEANING:
            return getattr(self, row)(outer)
        sign, kind, tighter = LEANING[row]
        start, left = self.place, self.parse(tighter, outer)
        if self.kind != sign:
            return left
        self.nest(outer, left)
        self.take(sign)
        middle, right = self.place, self.parse(row, outer + 1)
        self.test_operands(kind, (start, left), (middle, right))
        return (kind, left, right)

    def test_operands(self, kind, *operands):
        self.misplaced += [self.tokens[place].offset for place, tree in operands if kind in LOGIC and tree[0] in PATHS]

    def parenthesis(self, row, outer):
        self.want(self.open < MAX_OPEN, "F8")
        self.take("(")
        self.open += 1
        tree = self.parse(row, outer)
        self.take(")")
        self.open -= 1
        return tree

    def unary(self, outer):
        if self.kind == "(":
            return self.parenthesis("formula", outer)
        if self.kind in ("!", "<", "[", "mu", "nu"):
            self.nest(outer)
        kind, value, offset = self.take("true", "false", "name", "!", "<", "[", "mu", "nu")
        if kind in ("true", "false", "name"):
            return ("var", value, offset) if kind == "name" else (kind,)
        if kind == "!":
            return ("not", self.unary(outer + 1))
        if kind in ("mu", "nu"):
            name = self.take("name").value
            self.take(".")
            return (kind, name, self.parse("formula", outer + 1))
        steps = self.parse("regular", outer + 1)
        self.take(">" if kind == "<" else "]")
        return ("diamond" if kind == "<" else "box", steps, self.unary(outer + 1))

    def postfixed(self, outer):
        tree = self.parse("implication", outer)
        while self.kind in ("*", "postfix"):
            self.nest(outer, tree)
            tree = ("star" if self.take("*", "postfix").kind == "*" else "plus", tree)
        return tree

    def negation(self, outer):
        if self.kind == "(":
            return self.parenthesis("regular", outer)
        if self.kind == "!":
            self.nest(outer)
            self.take("!")
            place, tree = self.place, self.negation(outer + 1)
            self.test_operands("not", (place, tree))
            return ("not", tree)
        kind, value, _ = self.take("true", "false", "tau", "quoted", "name")
        if kind != "name":
            return (kind, value)
        names = [value]
        while self.kind == "|":
            self.take("|")
            names.append(self.take("name").value)
        return ("names", sorted(names))


def refuse_variables(tree, bound, odd):
    """Refuses the first variable without a binder, or under an odd number of negations below its binder. `bound` has each binder's own parity."""
    kind, *parts = tree
    if kind == "var":
        want(parts[0] in bound, f"F5 at offset {parts[1]}")
        want(bound[parts[0]] == odd, f"F6 at offset {parts[1]}")
    for at, part in enumerate(parts):
        if isinstance(part, tuple):
            inner = {**bound, parts[0]: odd} if kind in ("mu", "nu") else bound
            refuse_variables(part, inner, odd != (kind == "not" or kind == "implies" and at == 0))


def read_formula(text):
    parser = Parser(text)
    tree = parser.parse("formula", 0)
    parser.take("end")
    want(not parser.misplaced, f"F7 at offset {min(parser.misplaced, default=0)}")
    refuse_variables(tree, {}, False)
    return tree


def holds(action, label):
    """The action formula holds of the label."""
    kind, *parts = action
    if kind in ("quoted", "names"):
        return (label if kind == "quoted" else names_of(label)) == parts[0]
    if kind in ("true", "false", "tau"):
        return kind == "true" or kind == "tau" and label == b"tau"
    left, *right = [holds(part, label) for part in parts]
    return not left if kind == "not" else {"and": left and right[0], "or": left or right[0], "implies": not left or right[0]}[kind]
