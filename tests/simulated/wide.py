"""Cells of more variables than can be tried, for which the program has too few nodes: it is to say so, and where it may.

The output is 0 where two inputs of some pair are 1. With all first inputs of the pairs before all second ones its diagram has more than
two to the number of pairs nodes. With a clock it is so in the second phase alone; in the first one what the cell assumes leaves one
valuation.
"""

from cells import CARRIED, empty, port
from designs import Cover, Design, Expression, Instance, Model, Phase, Rules

# The pairs of inputs of the wide cell: a diagram of more nodes than the least budget has.
PAIRS = 16


def wide_cell(random, has_clock):
    """The wide cell, its model, which may say something else where all inputs are 0, and what it assumes in the first of two phases."""
    lefts, rights = ([f"{side}{number}" for number in range(PAIRS)] for side in "ab")
    clocks = ["clk"] if has_clock else []
    drawing = empty("wide", lefts + rights, ["y"], clocks)
    drawing.device("p", "y", "gnd", "vdd", 4)
    for left, right in zip(lefts, rights):
        add_pair(drawing, left, right, has_clock)
    front = "1" * len(clocks)
    rows = [front + "-" * number + "1" + "-" * (PAIRS - 1) + "1" + "-" * (PAIRS - 1 - number) for number in range(PAIRS)]
    if has_clock and random.random() < 0.3:
        rows.append("0" * (1 + 2 * PAIRS))
    drawing.model = Model("wide", clocks + drawing.inputs, ["y"], [Cover(clocks + drawing.inputs, "y", rows, 0)])
    if has_clock:
        value = None
        for name in drawing.inputs:
            literal = Expression("!", (port(name),))
            value = literal if value is None else Expression("&", (value, literal))
        drawing.assumes.append(("low", value))
    return drawing


def add_pair(drawing, left, right, has_clock):
    """Two devices in series that pull the output to 0 where both inputs, and the clock if there is one, are 1."""
    kind, gate, middle = "n", left, f"s{left}"
    if has_clock:
        kind, gate = "p", f"m{left}"
        drawing.network(("parallel", left, "clk"), "p", "vdd", gate)
        drawing.network(("series", left, "clk"), "n", gate, "gnd")
    drawing.device(kind, "y", gate, middle)
    drawing.device("n", middle, right, "gnd")


def narrow_cell(random, clocks, assumes):
    """A cell around the wide one with few variables: its instance has to be opened, since nothing is known of it."""
    drawing = empty("top", ["a", "b"], ["y"], clocks)
    ties = [random.choice(["a", "b"]) for _ in range(2 * PAIRS)]
    drawing.cell.instances.append(Instance("x0", ties + clocks + ["w"], "wide"))
    drawing.inverter("w", "y")
    is_right = random.random() < 0.6
    pairs = {tuple(sorted({left, right})) for left, right in zip(ties[:PAIRS], ties[PAIRS:])}
    rows = {("a",): "1-", ("b",): "-1", ("a", "b"): "11"}
    drawing.model = Model("top", ["a", "b"], ["y"], [Cover(["a", "b"], "y", [rows[pair] for pair in sorted(pairs)] if is_right else ["11"])])
    drawing.observed = {"y": ["high"]} if clocks else {}
    if assumes:
        both = Expression("&", (Expression("!", (port("a"),)), Expression("!", (port("b"),))))
        drawing.assumes += [("low", both)] if random.random() < 0.7 else []
    return drawing


def wide_design(random):
    """The wide cell and one around it."""
    has_clock = random.random() < 0.7
    phases = [Phase("low", {"phi": 0}), Phase("high", {"phi": 1})]
    rules = Rules(["phi"], phases) if has_clock else Rules()
    design = Design(rules=rules)
    wide = wide_cell(random, has_clock)
    for drawing in (wide, narrow_cell(random, list(wide.clocks), bool(wide.assumes))):
        name = drawing.cell.name
        design.cells[name] = drawing.cell
        design.models[name] = drawing.model
        rules.clock_ports.update({(name, clock): CARRIED[clock] for clock in drawing.clocks})
        rules.assumes += [(name, phase, expression) for phase, expression in drawing.assumes]
        rules.observed.update({(name, output): phases for output, phases in drawing.observed.items()})
    return design
