"""Random systems, formulas and games: right texts, but a variable may stand where it is refused. tests/fuzz and tests/trust use them."""

LABELS = ["a", "b", "a|b", "b|a", "tau", "send(1)", "i", "a|tau", "true|a", " a", "%"]
NAMES = ["X", "Y", "Z"]


def a_system(rng):
    states = rng.randint(1, 6)
    arrows = [(rng.randrange(states), rng.choice(LABELS), rng.randrange(states)) for _ in range(rng.randint(0, 14))]
    rows = [f"des ({rng.randrange(states)},{len(arrows)},{states})"]
    rows += [f'({source},"{label}",{target})' for source, label, target in arrows]
    return ("\n".join(rows) + "\n").encode()


def an_action(rng, depth):
    if depth <= 0 or rng.random() < 0.5:
        return rng.choice(["true", "false", "tau", "a", "b", "a|b", "b|a", "i", "a|a", '"send(1)"', '"a|b"', '" a"', '"%"'])
    left, right = an_action(rng, depth - 1), an_action(rng, depth - 1)
    return rng.choice([f"!({left})", f"(({left}) && ({right}))", f"(({left}) || ({right}))", f"({left} => {right})", f"!{left}", f"{left} && {right}"])


def a_regular(rng, depth):
    if depth <= 0 or rng.random() < 0.5:
        return an_action(rng, 2)
    left, right = a_regular(rng, depth - 1), a_regular(rng, depth - 1)
    return rng.choice([f"({left}) . ({right})", f"({left}) + ({right})", f"({left})*", f"({left})+", f"{left} . {right}", f"{left}+ + {right}*"])


def a_formula(rng, depth, bound=()):
    if depth <= 0 or rng.random() < 0.1:
        return rng.choice(["true", "false", *bound, *bound, *bound])
    kind = rng.choice(["binder", "binder", "modality", "modality", "sign", "not"])
    if kind == "binder":
        name = rng.choice(NAMES)
        return f"({rng.choice(['mu', 'nu'])} {name}. {a_formula(rng, depth - 1, (*bound, name))})"
    if kind == "modality":
        opening, closing = rng.choice(["<>", "[]"])
        return f"{opening}{a_regular(rng, 2)}{closing}{a_formula(rng, depth - 1, bound)}"
    if kind == "not":
        return f"!{a_formula(rng, depth - 2, bound if rng.random() < 0.1 else ())}"
    left, right = a_formula(rng, depth - 1, bound), a_formula(rng, depth - 1, bound)
    return rng.choice([f"({left} && {right})", f"({left} || {right})", f"({a_formula(rng, depth - 2)} => {right})"])


def a_game(rng):
    size = rng.randint(1, 8)
    rows = []
    for vertex in range(size):
        successors = ",".join(str(rng.randrange(size)) for _ in range(rng.randint(1, 3)))
        rows.append(f"{vertex} {rng.randint(0, 5)} {rng.randint(0, 1)} {successors}" + rng.choice([";", ' "x";', ' "";']))
    rng.shuffle(rows)
    return ("\n".join([f"parity {size - 1};", *rows]) + "\n").encode()
