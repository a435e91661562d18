"""Cells that keep charges in several nets at once, of one polarity or of two, which are right by their construction.

A cell of charges has no model on purpose; what stands in its place is what it shows while its clock is 1. The cells above tie that to
their models, and are compared while the clock is 1.
"""

from cells import CARRIED, empty
from designs import Cover, Latch, Model, Reference

# The names that the cells of charges give what they keep: some of them are names of latches in the cells above.
NAMES = ["q", "s", "u", "x0q", "x1q", "x0s"]


def polarities(random, count):
    """A polarity for each of several nets, mostly not all the same."""
    return [False] + [random.random() < 0.5 for _ in range(count - 1)]


def phases_at(phases, clock, bit):
    """The names of the phases in which a clock has a bit."""
    return [phase.name for phase in phases if phase.bits[clock.name] ^ clock.inverted == bit]


def keep(random, drawing, net, element, is_inverted):
    """A net that keeps the bit of an element, or its inverse."""
    drawing.holds[net] = random.choice([1, 2, 3])
    drawing.matches[net] = Reference(element, is_inverted)


def add_keeper(random, drawing, net, precharged):
    """A device behind an inverter that keeps a net at the bit to which it is precharged."""
    level = random.choice([4, 6])
    back = f"k{net}"
    drawing.inverter(net, back)
    kind, supply = ("p", "vdd") if precharged else ("n", "gnd")
    drawing.keepers.append(drawing.device(kind, net, back, supply, level))


def precharged_nets(random, name, phases):
    """Nets that are precharged while the clock is 0, to 1 or to 0, and flip together where the input is 1 while it is 1.

    Some enter the phases of clock 1 with their constants: two or three of them say the same of the bit that they share.
    """
    drawing = empty(name, ["a"], ["y"], ["clk"])
    inverted = polarities(random, random.choice([2, 2, 3]))
    if any(inverted):
        drawing.inverter("clk", "ck")
        drawing.inverter("a", "an")
    element = random.choice(NAMES)
    entering = random.sample(range(len(inverted)), random.choice([1, 2, len(inverted)]))
    for number, is_inverted in enumerate(inverted):
        net = f"t{number}"
        if is_inverted:
            drawing.device("n", net, "ck", "gnd")
            drawing.network(("series", "an", "ck"), "p", "vdd", net)
        else:
            drawing.device("p", net, "clk", "vdd")
            drawing.network(("series", "a", "clk"), "n", net, "gnd")
        keep(random, drawing, net, element, is_inverted)
        if random.random() < 0.4:
            add_keeper(random, drawing, net, not is_inverted)
        if number in entering:
            drawing.enters.update({(phase, net): 1 - is_inverted for phase in phases_at(phases, CARRIED["clk"], 1)})
    drawing.inverter("t0", "y")
    drawing.model = Model(name, ["a"], ["y"], [Cover(["a"], "y", ["1"])])
    return shown_at_one(drawing, phases, "clk")


def shown_at_one(drawing, phases, clock):
    """A cell of charges, which is compared above while its clock is 1."""
    drawing.is_skipped = True
    drawing.observed = {output: phases_at(phases, CARRIED[clock], 1) for output in drawing.outputs}
    return drawing


def stored_nets(random, name, phases):
    """Nets that take the input or its inverse while the clock is 1, and keep it while it is 0."""
    clock = random.choice(["clk", "clkb"])
    drawing = empty(name, ["d"], ["y"], [clock])
    write_nets(random, drawing, clock, random.choice(NAMES), random.choice([2, 2, 3, 4]))
    drawing.model = Model(name, ["d"], ["y"], [Cover(["d"], "y", ["0"])])
    return shown_at_one(drawing, phases, clock)


def write_nets(random, drawing, clock, element, count):
    """Nets that keep one element, each behind a pass device of its own, and an output that is the inverse of the first."""
    inverted = polarities(random, count)
    if any(inverted):
        drawing.inverter("d", "dn")
    for number, is_inverted in enumerate(inverted):
        net = f"t{number}"
        drawing.device("n", "dn" if is_inverted else "d", clock, net)
        keep(random, drawing, net, element, is_inverted)
    drawing.inverter("t0", "y")


def latch_of_nets(random, name, phases):
    """A latch that stores its bit in two or three nets, of one polarity or of two."""
    drawing = empty(name, ["d"], ["y"], ["clk"]) if len(phases) > 1 else empty(name, ["d", "clk"], ["y"])
    write_nets(random, drawing, "clk", "q", random.choice([2, 3]))
    drawing.model = Model(name, ["d", "clk"], ["y"], [Cover(["q"], "y", ["0"])], [Latch("d", "q", "ah", "clk")])
    return drawing


def held_port(random, name, phases):
    """A latch whose output is the net that stores, so that cells above may say themselves that it keeps its charge."""
    drawing = empty(name, ["d"], ["s"], ["clk"]) if len(phases) > 1 else empty(name, ["d", "clk"], ["s"])
    drawing.device("n", "d", "clk", "s")
    keep(random, drawing, "s", "s", False)
    drawing.model = Model(name, ["d", "clk"], ["s"], latches=[Latch("d", "s", "ah", "clk")])
    return drawing


def held_port_of_charge(random, name, phases):
    """The same without a model: what it enters with falls away where a cell above says itself what the net keeps."""
    drawing = held_port(random, name, phases)
    drawing.is_skipped = True
    if len(phases) > 1 and random.random() < 0.6:
        drawing.enters[(random.choice(phases).name, "s")] = random.choice([0, 1])
    return drawing


CHARGES = [precharged_nets, precharged_nets, stored_nets]
LATCHES = [latch_of_nets, held_port]
