"""Cells that may be left whole above, and devices around instances: at their inputs, and with gates or channels at outputs."""

from cells import CARRIED, empty, pass_gate, ratioed_gate, static_gate
from designs import Cover, Model


def clocked_gate(random, name, phases):
    """A gate of which one input is a clock port. Its model has the clock too, or it is compared where the clock is 1 alone."""
    if len(phases) == 1:
        return static_gate(random, name, phases)
    clock = random.choice([port for port in CARRIED if CARRIED[port].name in phases[0].bits])
    drawing = empty(name, ["a"], ["y"], [clock])
    drawing.network(("parallel", "a", clock), "p", "vdd", "y")
    drawing.network(("series", "a", clock), "n", "y", "gnd")
    high = [phase.name for phase in phases if phase.bits[CARRIED[clock].name] ^ CARRIED[clock].inverted]
    if high and random.random() < 0.5:
        drawing.model = Model(name, ["a"], ["y"], [Cover(["a"], "y", ["1"], 0)])
        drawing.observed["y"] = high
    else:
        drawing.model = Model(name, ["a", clock], ["y"], [Cover(["a", clock], "y", ["11"], 0)])
    return drawing


def pulled_input(random, name, phases):
    """An inverter or two, with a device that pulls at the input from inside, or one that joins it to another input."""
    drawing = empty(name, ["a", "b"][: random.choice([1, 2])], ["y"])
    output = random.choice(["y", "u"])
    drawing.inverter("a", output)
    if output == "u":
        drawing.inverter("u", "y")
    other = random.choice(["vdd", "gnd", drawing.inputs[-1]])
    drawing.device(*random.choice([("p", "a", "gnd", other), ("n", "a", "vdd", other)]), random.choice([4, 6]))
    return drawing


def chain(random, name, phases):
    """Two to four inverters one behind another."""
    drawing = empty(name, ["a"], ["y"])
    nets = ["a", "u", "v", "w"][: random.choice([2, 2, 3, 4])] + ["y"]
    for source, output in zip(nets, nets[1:]):
        drawing.inverter(source, output)
    return drawing


def two_outputs(random, name, phases):
    """A gate, and behind it an inverter as another output; or two inverters side by side, joined where both show the same."""
    if random.random() < 0.6:
        drawing = empty(name, ["a", "b"], ["y", "z"])
        drawing.network(("parallel", "a", "b"), "p", "vdd", "y")
        drawing.network(("series", "a", "b"), "n", "y", "gnd")
        drawing.inverter("y", "z")
        return drawing
    drawing = empty(name, ["a"], ["y", "z"])
    drawing.inverter("a", "y")
    if random.random() < 0.5:
        drawing.inverter("a", "z")
    joining = drawing.device("n", "y", random.choice(["vdd", "a"]), "z")
    if random.random() < 0.3:
        drawing.keepers.append(joining)
    return drawing


def unneeded_input(random, name, phases):
    """An inverter with an input more, which only its model may name, or a gate that is always off."""
    drawing = empty(name, ["a", "b"], ["y"])
    drawing.inverter("a", "y")
    if random.random() < 0.4:
        drawing.device("n", "y", "gnd", "u")
        drawing.device("n", "u", "b", "gnd")
    if random.random() < 0.6:
        rows = random.choice([["0-"], ["00", "01"], ["0-", "00"]])
        drawing.model = Model(name, ["a", "b"], ["y"], [Cover(["a", "b"], "y", rows)])
    return drawing


def constant(random, name, phases):
    """An output that is known, and an inverter behind it, and perhaps an input."""
    drawing = empty(name, random.choice([[], ["a"]]), ["y"])
    inner = random.choice(["y", "n"])
    drawing.device("p", inner, "gnd", "vdd")
    if inner == "n":
        drawing.inverter("n", "y")
    return drawing


PLAIN = [static_gate] * 3 + [chain] * 5 + [ratioed_gate, pass_gate, clocked_gate, two_outputs, two_outputs, unneeded_input]
PLAIN += [unneeded_input, constant, pulled_input, clocked_gate]


def rename(drawing, old, new):
    """Another name of a net that is neither a port nor a supply."""
    for device in drawing.cell.devices:
        device.drain, device.gate, device.source = [new if net == old else net for net in device.nets()]
    for instance in drawing.cell.instances:
        instance.nets = [new if net == old else net for net in instance.nets]


def add_driver(random, drawing, wires):
    """A wire for the inputs of instances: one that may float, one that is known, an inverter, or one behind a pass device."""
    net = f"w{len(wires)}"
    source = random.choice(wires)
    kind = random.choice(["floating", "floating", "known", "inverter", "passed"])
    if kind == "floating":
        drawing.device(*random.choice([("n", net, source, "gnd"), ("p", net, source, "vdd")]))
    elif kind == "known":
        drawing.device(*random.choice([("n", net, "vdd", "gnd"), ("p", net, "gnd", "vdd")]))
    elif kind == "inverter":
        drawing.inverter(source, net)
    else:
        drawing.device("n", net, random.choice(wires), source)
    wires.append(net)


def add_load(random, drawing, wires):
    """A device with its gate at a wire, which may leave its own net floating, an inverter there, or a channel at the wire."""
    net = f"w{len(wires)}"
    source = random.choice(wires)
    kind = random.choice(["floating"] * 5 + ["inverter"] * 3 + ["channel", "pull", "fight"])
    if kind == "floating":
        drawing.device(*random.choice([("n", net, source, "gnd"), ("p", net, source, "vdd")]))
    elif kind == "inverter":
        drawing.inverter(source, net)
    elif kind == "channel":
        drawing.device("n", net, random.choice(wires), source)
    elif kind == "fight":
        drawing.device("n", net, source, "gnd")
        drawing.device("p", net, random.choice(wires), "vdd")
    else:
        drawing.device("p", source, random.choice(["gnd"] + wires), "vdd", random.choice([4, 5, 6]))
    if kind != "pull":
        wires.append(net)


def add_race(random, drawing, wires, outputs):
    """Two nets that may float or fight, one behind an output of an instance and one behind a row of inverters."""
    source = random.choice(drawing.inputs)
    for _ in range(random.choice([1, 2, 2, 3])):
        wires.append(f"w{len(wires)}")
        drawing.inverter(source, wires[-1])
        source = wires[-1]
    raced = []
    for gate in random.sample([source, random.choice(outputs)], 2):
        raced.append(f"w{len(wires)}")
        wires.append(raced[-1])
        drawing.device(*random.choice([("n", raced[-1], gate, "gnd"), ("p", raced[-1], gate, "vdd")]))
        if random.random() < 0.3:
            other = random.choice(drawing.inputs + ["vdd"])
            drawing.device("n", raced[-1], other, "gnd")
    return raced
