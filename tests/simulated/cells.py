"""Cells of the usual kinds, each with its rules, and with its model where it has latches, drawn by a source of random numbers.

There are static, ratioed and pass gates, domino stages, latches, flip-flops, outputs of three states, nets that share charge, and
devices at random.
"""

from dataclasses import dataclass, field

from designs import Cell, Cover, Device, Expression, Latch, Model, Reference


@dataclass
class Drawing:
    """A cell that is being drawn, with what goes into the rules; its model may be left to be simulated."""

    cell: Cell
    inputs: list
    outputs: list
    model: Model = None
    clocks: dict = field(default_factory=dict)  # port: Reference
    holds: dict = field(default_factory=dict)  # net: size
    keepers: list = field(default_factory=list)
    matches: dict = field(default_factory=dict)  # net: Reference
    enters: dict = field(default_factory=dict)  # (phase, net): bit
    observed: dict = field(default_factory=dict)  # port: phases
    assumes: list = field(default_factory=list)  # (phase or None, Expression)
    instance_matches: dict = field(default_factory=dict)  # (instance, element): Reference
    is_skipped: bool = False

    def device(self, kind, drain, gate, source, level=6):
        """Adds a device, and returns its name."""
        name = f"m{len(self.cell.devices) + 1}"
        self.cell.devices.append(Device(name, drain, gate, source, kind, level))
        return name

    def inverter(self, source, output, level=6):
        """Adds an inverter, and returns the names of its two devices."""
        return [self.device("p", output, source, "vdd", level), self.device("n", output, source, "gnd", level)]

    def network(self, tree, kind, first, last):
        """Adds devices of a kind between two nets: a tree is a gate, or ('series', left, right) or ('parallel', left, right)."""
        if isinstance(tree, str):
            self.device(kind, first, tree, last)
        elif tree[0] == "parallel":
            self.network(tree[1], kind, first, last)
            self.network(tree[2], kind, first, last)
        else:
            middle = f"s{len(self.cell.devices) + 1}"
            self.network(tree[1], kind, first, middle)
            self.network(tree[2], kind, middle, last)


def port(name):
    """A port in an expression."""
    return Expression("port", (name,))


# What the clock ports carry, by their names.
CARRIED = {"clk": Reference("phi"), "clkb": Reference("phi", True), "clk2": Reference("psi")}


def empty(name, inputs, outputs, clocks=()):
    """A cell without devices; its clock ports stand behind its inputs."""
    cell = Cell(name, inputs + list(clocks) + outputs)
    return Drawing(cell, inputs, outputs, clocks={clock: CARRIED[clock] for clock in clocks})


def clocked(random, name, inputs, outputs, phases, share):
    """A cell with a clock, and the clock's name: in this share of the cells it is a clock port, else an input."""
    if len(phases) == 1 or random.random() > share:
        return empty(name, inputs + ["clk"], outputs), "clk"
    clock = random.choice([port for port in CARRIED if CARRIED[port].name in phases[0].bits])
    return empty(name, inputs, outputs, [clock]), clock


def random_tree(random, gates):
    """A tree with each of these gates once."""
    if len(gates) == 1:
        return gates[0]
    middle = random.randrange(1, len(gates))
    return (random.choice(["series", "parallel"]), random_tree(random, gates[:middle]), random_tree(random, gates[middle:]))


def dual(tree):
    """The tree with series and parallel exchanged, which conducts where the other does not if its gates are inverse."""
    if isinstance(tree, str):
        return tree
    other = {"series": "parallel", "parallel": "series"}
    return (other[tree[0]], dual(tree[1]), dual(tree[2]))


def static_gate(random, name, phases):
    """A pull-down and a pull-up that is its dual, and behind them perhaps an inverter."""
    inputs = ["a", "b", "c"][: random.choice([1, 2, 2, 3, 3])]
    drawing = empty(name, inputs, ["y"])
    tree = random_tree(random, inputs)
    output = random.choice(["y", "y", "n"])
    drawing.network(dual(tree), "p", "vdd", output)
    drawing.network(tree, "n", output, "gnd")
    if output == "n":
        drawing.inverter("n", "y")
    return drawing


def ratioed_gate(random, name, phases):
    """A pull-down, and a load that is always on and weaker."""
    inputs = ["a", "b", "c"][: random.choice([2, 3])]
    drawing = empty(name, inputs, ["y"])
    drawing.device("p", "y", "gnd", "vdd", random.choice([4, 4, 5, 6]))
    drawing.network(random_tree(random, inputs), "n", "y", "gnd")
    return drawing


def pass_gate(random, name, phases):
    """Two pass devices onto one net. Their selects are inverse by an inverter, or by what the cell assumes."""
    if random.random() < 0.5:
        drawing = empty(name, ["a", "b", "s"], ["y"])
        drawing.inverter("s", "t")
        selects = ["s", "t"]
    else:
        drawing = empty(name, ["a", "b", "s", "t"], ["y"])
        operator = random.choice(["^", "^", "^", "|"])
        drawing.assumes.append((None, Expression(operator, (port("s"), port("t")))))
        selects = ["s", "t"]
    net = random.choice(["y", "n"])
    drawing.device("n", "a", selects[0], net)
    drawing.device("n", "b", selects[1], net)
    if net == "n":
        drawing.inverter("n", "y")
    return drawing


def domino_stage(random, name, phases):
    """A net that is precharged while the clock is 0 and falls by a pull-down while it is 1, with a keeper behind its inverter."""
    inputs = ["a", "b", "c"][: random.choice([1, 2, 3])]
    drawing = empty(name, inputs, ["y"], ["clk"])
    drawing.device("p", "d", "clk", "vdd")
    tree = random_tree(random, inputs)
    drawing.network(random.choice([("series", tree, "clk"), ("series", "clk", tree)]), "n", "d", "gnd")
    drawing.inverter("d", "y")
    drawing.holds["d"] = random.choice([1, 2, 3])
    if random.random() < 0.7:
        drawing.keepers.append(drawing.device("p", "d", "y", "vdd", random.choice([4, 6])))
    for phase in phases:
        if phase.bits["phi"]:
            drawing.enters[(phase.name, "d")] = 1
    drawing.observed["y"] = [phase.name for phase in phases if phase.bits["phi"]]
    if random.random() < 0.2:
        inner = next((net for net in drawing.cell.inner_nets() if net != "d"), "d")
        drawing.holds.setdefault(inner, random.choice([1, 2]))
    return drawing


def latch(random, name, phases):
    """A pass device onto a net that keeps its charge, perhaps with a feedback of keepers; its clock may be an input."""
    drawing, clock = clocked(random, name, ["d"], ["q"], phases, 0.7)
    kind = random.choice(["n", "n", "p"])
    drawing.device(kind, "d", clock, "s")
    drawing.inverter("s", "sb")
    stored = random.choice(["q", "l"])
    if stored == "q":
        drawing.inverter("sb", "q")
    else:
        drawing.device("n", "q", "sb", "vdd")
        drawing.device("p", "q", "sb", "gnd")
    if random.random() < 0.7:
        drawing.keepers += drawing.inverter("sb", "s", random.choice([4, 6]))
    drawing.holds["s"] = random.choice([1, 2, 3])
    drawing.matches["s"] = Reference(stored)
    drawing.model = Model(name, ["d", clock], ["q"], latches=[Latch("d", stored, "ah" if kind == "n" else "al", clock)])
    if stored == "l":
        drawing.model.covers.append(random.choice([Cover(["l"], "q", ["0"]), Cover(["l"], "q", ["1"], 0)]))
    return drawing


def flip_flop(random, name, phases):
    """A master that takes its input while the clock is 0, a slave while it is 1, or the other way round."""
    drawing, clock = clocked(random, name, ["d"], ["q"], phases, 0.8)
    rises = random.random() < 0.6
    add_master_and_slave(random, drawing, "d", clock, rises)
    drawing.model = Model(name, ["d", clock], ["q"], latches=[Latch("d", "q", "re" if rises else "fe", clock)])
    return drawing


def toggling_flip_flop(random, name, phases):
    """A flip-flop that takes the inverse of its output where it is not reset; only its clock cuts the way around."""
    drawing, clock = clocked(random, name, ["r"], ["q"], phases, 1)
    rises = random.random() < 0.6
    drawing.network(("series", "q", "r"), "p", "vdd", "n")
    drawing.network(("parallel", "q", "r"), "n", "n", "gnd")
    add_master_and_slave(random, drawing, "n", clock, rises)
    slave = Latch("n", "q", "re" if rises else "fe", clock)
    drawing.model = Model(name, ["r", clock], ["q"], [Cover(["q", "r"], "n", ["00"])], [slave])
    return drawing


def add_master_and_slave(random, drawing, source, clock, rises):
    """The two stages of a flip-flop, with pass devices of both kinds, or of one kind and an inverter of the clock."""
    if random.random() < 0.5:
        drawing.device("p" if rises else "n", source, clock, "m")
        drawing.device("n" if rises else "p", "mb", clock, "s")
    else:
        drawing.inverter(clock, "cn")
        drawing.device("n", source, "cn" if rises else clock, "m")
        drawing.device("n", "mb", clock if rises else "cn", "s")
    drawing.inverter("m", "mb")
    drawing.inverter("s", "q")
    if random.random() < 0.7:
        level = random.choice([4, 6])
        drawing.keepers += drawing.inverter("mb", "m", level) + drawing.inverter("q", "s", level)
    drawing.holds.update(m=random.choice([1, 2]), s=random.choice([1, 2]))
    drawing.matches.update(m=Reference("q#m"), s=Reference("q", True))


def three_state(random, name, phases):
    """An inverter that drives its output while it is enabled; else the output keeps its charge. So it is a latch in the model."""
    drawing = empty(name, ["d", "e"], ["y"])
    drawing.inverter("e", "en")
    drawing.network(("series", "d", "en"), "p", "vdd", "y")
    drawing.network(("series", "e", "d"), "n", "y", "gnd")
    drawing.holds["y"] = random.choice([1, 2, 3])
    drawing.matches["y"] = Reference("y")
    drawing.model = Model(name, ["d", "e"], ["y"], [Cover(["d"], "n", ["0"])], [Latch("n", "y", "ah", "e")])
    return drawing


def double_latch(random, name, phases):
    """A latch that stores its bit in two nets, of which the second may be open at another input; it may have no model."""
    drawing = empty(name, ["d", "e"], ["q"])
    drawing.is_skipped = random.random() < 0.6
    drawing.device("n", "d", "e", "s")
    drawing.device("n", "d", random.choice("edd"), "t")
    drawing.inverter("s", "q")
    is_inverted = random.random() < 0.3
    drawing.holds.update(s=random.choice([1, 2]), t=random.choice([1, 2]))
    drawing.matches.update(s=Reference("l", is_inverted), t=Reference("l", is_inverted))
    cover = Cover(["l"], "q", ["0" if not is_inverted else "1"])
    source = Cover(["d"], "n", ["1" if not is_inverted else "0"])
    drawing.model = Model(name, ["d", "e"], ["q"], [source, cover], [Latch("n", "l", "ah", "e")])
    return drawing


def shared_charge(random, name, phases):
    """Nets that keep their charge, with pass devices between them; the largest is the output or drives it."""
    drawing = empty(name, ["a", "b", "d"], ["y"])
    drawing.device("n", "d", "a", "u")
    drawing.device(random.choice(["n", "p"]), "u", "b", "v", random.choice([4, 5, 6]))
    drawing.holds["v"] = random.choice([1, 2, 3])
    if random.random() < 0.8:
        drawing.holds["u"] = random.choice([1, 2, 3])
    if random.random() < 0.5:
        drawing.matches["v"] = Reference("v")
        drawing.model = Model(name, ["a", "b", "d"], ["y"], [Cover(["a", "b"], "c", ["11"]), Cover(["v"], "y", ["0"])])
        drawing.model.latches.append(Latch("d", "v", "ah", "c"))
    drawing.inverter("v", "y")
    return drawing


def random_devices(random, name, phases):
    """Devices of any kind and level between nets at random, some of which keep their charge."""
    inputs = ["a", "b", "c"][: random.choice([1, 2, 3])]
    clocks = ["clk"] if len(phases) > 1 and random.random() < 0.6 else []
    drawing = empty(name, inputs, ["y", "z"][: random.choice([1, 1, 2])], clocks)
    inner = drawing.outputs + ["u", "v"]
    nets = inputs + clocks + inner + ["vdd", "gnd"]
    for _ in range(random.randrange(3, 9)):
        gate = random.choice(inputs + inputs + 3 * clocks + ["vdd", "gnd"] + inner[: random.choice([0, 1, 4])])
        level = random.choice([4, 5, 6, 6, 6, 7])
        drawing.device(random.choice(["n", "p"]), random.choice(inner), gate, random.choice(nets), level)
    for net in inner:
        if random.random() < 0.25:
            drawing.holds[net] = random.choice([1, 2, 3])
    if random.random() < 0.15:
        drawing.keepers.append(random.choice(drawing.cell.devices).name)
    return drawing


UNCLOCKED = [static_gate, static_gate, ratioed_gate, pass_gate, latch, flip_flop, double_latch, double_latch]
UNCLOCKED += [three_state, shared_charge, random_devices]
CLOCKED = UNCLOCKED + [domino_stage, domino_stage, latch, flip_flop, toggling_flip_flop, random_devices]
