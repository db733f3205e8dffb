#!/usr/bin/env python3
"""Makes the parity game of a system and a formula from docs/FORMATS.md and docs/DEFINITIONS.md alone, and writes it as `mucheck check --game` does,
byte for byte, or refuses a text as that does. It shares nothing with mucheck, and needs Python 3.11 alone.

    tools/arena.py SYSTEM FORMULA [--priorities nested|dependent]

Vertex 2 + s*K + k is state s with node k of the K nodes of the formula's normal form, and Even wins that of node 0 where s satisfies the
formula."""

import argparse
import sys
from collections import defaultdict, namedtuple
from functools import partial
from pathlib import Path

from texts import holds, read_formula, read_system
from verify import MAX_PRIORITY, MAX_VERTICES, Refusal, want

MAX_NODES = 4_096

# ---- the normal form

Node = namedtuple("Node", "kind children action")


class NormalForm:
    """The nodes of a formula in preorder. A part is given as a function that puts its nodes and answers the number of the first. Of each pair of kinds
    the second is meant by the flag `True`, so negation turns all flags."""

    def __init__(self, formula):
        self.nodes = []
        self.put(True, formula, {})

    def node(self, kind, *parts, action=None):
        at = len(self.nodes)
        want(at < MAX_NODES, "N1")
        self.nodes.append(None)
        self.nodes[at] = Node(kind, [part() for part in parts], action)
        return at

    def variable(self, binder):
        return self.node("var", lambda: binder)

    def put(self, flag, tree, bound):
        """The formula, or its negation where the flag is false. `bound` has the number of each variable's binder."""
        kind, *parts = tree
        if kind == "not":
            return self.put(not flag, parts[0], bound)
        if kind == "var":
            return self.variable(bound[parts[0]])
        if kind in ("true", "false"):
            return self.node(("false", "true")[flag == (kind == "true")])
        if kind in ("mu", "nu"):
            return self.node(("nu", "mu")[flag == (kind == "mu")], partial(self.put, flag, parts[1], {**bound, parts[0]: len(self.nodes)}))
        if kind in ("diamond", "box"):
            return self.modal(flag == (kind == "diamond"), parts[0], partial(self.put, flag, parts[1], bound))
        left = partial(self.put, flag != (kind == "implies"), parts[0], bound)
        return self.node(("and", "or")[flag != (kind == "and")], left, partial(self.put, flag, parts[1], bound))

    def modal(self, flag, steps, part):
        """`<R>f` or `[R]f`"""
        kind, *parts = steps
        if kind == "sequence":
            return self.modal(flag, parts[0], partial(self.modal, flag, parts[1], part))
        if kind == "choice":
            return self.node(("and", "or")[flag], partial(self.modal, flag, parts[0], part), partial(self.modal, flag, parts[1], part))
        if kind == "star":
            return self.loop(flag, parts[0], part)
        if kind == "plus":
            return self.modal(flag, parts[0], partial(self.loop, flag, parts[0], part))
        return self.node(("box", "diamond")[flag], part, action=steps)

    def loop(self, flag, steps, part):
        """`mu Z. (f || <R>Z)` or `nu Z. (f && [R]Z)`"""
        binder = len(self.nodes)
        again = partial(self.modal, flag, steps, partial(self.variable, binder))
        return self.node(("nu", "mu")[flag], partial(self.node, ("and", "or")[flag], part, again))


def priorities_of(nodes, rule):
    """A binder's priority is the least of its parity, odd for mu, that is at least those of the binders inside it: of all by the nested rule, of those in
    which its variable stands by the dependent rule. All other nodes have 0."""
    found, ends, uses = [0] * len(nodes), [0] * len(nodes), defaultdict(list)
    for at in reversed(range(len(nodes))):
        kind, children, _ = nodes[at]
        ends[at] = ends[children[-1]] if children and kind != "var" else at + 1
        if kind == "var":
            uses[children[0]].append(at)
        if kind in ("mu", "nu"):
            inside = range(at + 1, ends[at])
            least = max((found[b] for b in inside if rule == "nested" or any(b < use < ends[b] for use in uses[at])), default=0)
            found[at] = least + (least % 2 == (kind == "nu"))
    want(max(found) <= MAX_PRIORITY, "N2")
    return found


# ---- the game

def game_text(system, formula, rule):
    """The lines of the game."""
    nodes = NormalForm(formula).nodes
    priorities = priorities_of(nodes, rule)
    greatest = 1 + system.states * len(nodes)
    want(greatest < MAX_VERTICES, "B1")
    labels = {label for _, label, _ in system.arrows}
    taken = [{label for label in labels if holds(node.action, label)} if node.action else set() for node in nodes]
    leaving = defaultdict(list)
    for source, label, target in system.arrows:
        leaving[source].append((label, target))
    yield from (f"parity {greatest};", '0 0 0 0 "true";', '1 1 0 1 "false";')
    for state in range(system.states):
        for at, (kind, children, action) in enumerate(nodes):
            # A modality leads to its child at each state that is reached; where there is none, a diamond fails and a box holds.
            reached = {target for label, target in leaving[state] if label in taken[at]} if action else {state}
            successors = sorted({2 + target * len(nodes) + child for target in reached for child in children})
            sink = 0 if kind in ("true", "box") else 1
            owner = 1 if kind in ("and", "box") else 0
            yield f'{2 + state * len(nodes) + at} {priorities[at]} {owner} {",".join(map(str, successors or [sink]))} "{state},{at}";'


def main(words):
    sys.setrecursionlimit(100_000)
    asked = argparse.ArgumentParser()
    asked.add_argument("system", type=Path)
    asked.add_argument("formula", type=Path)
    asked.add_argument("--priorities", choices=["nested", "dependent"], default="nested")
    asked = asked.parse_args(words)
    try:
        system, formula = read_system(asked.system.read_bytes()), read_formula(asked.formula.read_bytes())
        for line in game_text(system, formula, asked.priorities):
            print(line)
    except (Refusal, OSError) as fault:
        print(f"mucheck: {fault}", file=sys.stderr)
        return 2 if isinstance(fault, Refusal) else 3
    return 0


if __name__ == "__main__":
    sys.exit(main(sys.argv[1:]))
