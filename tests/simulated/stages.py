"""Domino stages, whose inputs are to rise one by one: most are equal to their models, and in many the order in which they rise matters.

A net is precharged while the clock is 0, and pulled down while it is 1 through devices at inputs, at inverses of inputs, or at the output of a stage before. Some have weak paths, keepers of several
kinds and levels, inner nets that keep a charge, charges at inputs, and assumptions that settings on the way may break.
"""

from itertools import product

from cells import CARRIED, empty, port, random_tree
from designs import Cover, Design, Expression, Model, Phase, Rules

PHASES = ["low", "high"]


def conducts(tree, bits):
    """Whether devices of a tree conduct where these gates are 1."""
    if isinstance(tree, str):
        return bits[tree]
    values = [conducts(part, bits) for part in tree[1:]]
    return min(values) if tree[0] == "series" else max(values)


def gates_of(random, drawing, inputs):
    """A gate for each input: the input, or its inverse, which is made once."""
    gates = {}
    for name in inputs:
        gates[name] = name
        if random.random() < 0.25:
            gates[name] = f"{name}n"
            drawing.inverter(name, f"{name}n")
    return gates


def pull_down(random, drawing, tree, top, bottom):
    """Devices of a tree, some of them weak, and now and then an inner net that keeps a charge and is reset while the clock is 0."""
    first = len(drawing.cell.devices)
    drawing.network(tree, "n", top, bottom)
    own = drawing.cell.devices[first:]
    for device in own:
        device.level = random.choice([6, 6, 6, 6, 4, 5, 7])
    inner = sorted({net for device in own for net in (device.drain, device.source)} - {top, bottom})
    if inner and random.random() < 0.4:
        net = random.choice(inner)
        drawing.holds[net] = random.choice([1, 2, 3])
        if random.random() < 0.7:
            kind, gate, supply, bit = random.choice([("p", "clk", "vdd", 1), ("n", "cb", "gnd", 0)])
            drawing.device(kind, net, gate, supply)
            drawing.enters.update({("high", net): bit} if random.random() < 0.8 else {})


def add_stage(random, drawing, name, tree, output):
    """A precharged net that a tree pulls down while the clock is 1, and its inverse."""
    drawing.device("p", name, "clk", "vdd")
    foot = random.choice([f"f{name}", f"f{name}", "gnd"]) if isinstance(tree, str) else f"f{name}"
    pull_down(random, drawing, tree, name, foot)
    if foot != "gnd":
        drawing.device("n", foot, "clk", "gnd")
    drawing.inverter(name, output)
    drawing.holds[name] = random.choice([1, 2, 2, 3, 3])
    if random.random() < 0.9:
        drawing.enters[("high", name)] = 1
    if random.random() < 0.6:
        drawing.keepers.append(drawing.device("p", name, random.choice([output, output, "gnd"]), "vdd", random.choice([4, 4, 4, 5, 6])))


def assumed(random, inputs):
    """What the second phase assumes: that one input is 1 where another is, or that two are not alike; or nothing."""
    if len(inputs) < 2 or random.random() < 0.5:
        return []
    left, right = (port(name) for name in random.sample(inputs, 2))
    if random.random() < 0.7:
        return [("high", Expression("|", (Expression("!", (left,)), right)))]
    return [("high", Expression("^", (left, right)))]


def modelled(inputs, function, output):
    """The cover of a function of the inputs."""
    rows = ["".join(map(str, bits)) for bits in product((0, 1), repeat=len(inputs)) if function(dict(zip(inputs, bits)))]
    return Cover(inputs, output, rows)


def stages(random):
    """A cell of one stage or two, the output of the first at a gate of the second."""
    inputs = ["a", "b", "c", "e"][: random.choice([1, 2, 2, 3, 3, 4])]
    drawing = empty("stage", inputs, ["out"], ["clk"])
    drawing.inverter("clk", "cb")
    gates = gates_of(random, drawing, inputs)
    has_two = len(inputs) > 2 and random.random() < 0.4
    front, rest = (inputs[:2], inputs[2:]) if has_two else (inputs, [])
    first = random_tree(random, [gates[name] for name in front])
    add_stage(random, drawing, "d", first, "o" if has_two else "out")
    second = random_tree(random, [gates[name] for name in rest] + ["o"]) if has_two else None
    if has_two:
        add_stage(random, drawing, "d2", second, "out")
    if random.random() < 0.15:
        drawing.holds[random.choice(inputs)] = random.choice([1, 2, 3])

    def function(bits):
        """The bit of the output while the clock is 1."""
        shown = {gate: bits[name] if gate == name else 1 - bits[name] for name, gate in gates.items()}
        shown["o"] = conducts(first, shown)
        return conducts(second, shown) if has_two else shown["o"]

    drawing.model = Model("stage", inputs, ["out"], [modelled(inputs, function, "out")])
    drawing.observed = {"out": ["high"]}
    drawing.assumes = assumed(random, inputs)
    return drawing


def stage_design(random):
    """The design of such a cell."""
    drawing = stages(random)
    rules = Rules(["phi"], [Phase("low", {"phi": 0}), Phase("high", {"phi": 1})])
    design = Design(rules=rules)
    name = drawing.cell.name
    design.cells[name] = drawing.cell
    design.models[name] = drawing.model
    rules.clock_ports.update({(name, clock): CARRIED[clock] for clock in drawing.clocks})
    rules.holds.update({(name, net): size for net, size in drawing.holds.items()})
    rules.keepers.update((name, device) for device in drawing.keepers)
    rules.enters.update({(name, phase, net): bit for (phase, net), bit in drawing.enters.items()})
    rules.assumes += [(name, phase, expression) for phase, expression in drawing.assumes]
    rules.observed.update({(name, output): phases for output, phases in drawing.observed.items()})
    return design
