"""The circuit of a cell with all instances unrolled: each transistor and net with its path, as replay prints it.

    for device in unrolled(netlist, rules, "top").devices: print(device.name, device.gate, device.card.line)
"""

from typing import Dict, List, NamedTuple

from lib import tool
from lib.netlist import Card, cell_named


class FlatDevice(NamedTuple):
    """A transistor of the circuit: its path, as `x1/m3`, its nets, kind and level, whether it is a keeper, and its card and cell."""

    name: str
    drain: str
    gate: str
    source: str
    model: str
    kind: str
    level: int
    is_keeper: bool
    cell: str
    card: Card

    def across(self, net):
        """The other net of its channel."""
        return self.source if net == self.drain else self.drain


class Placed(NamedTuple):
    """An instance in its place: its path, its card, the name of its cell, and the nets at the ports of that."""

    path: str
    card: Card
    cell: str
    nets: Dict[str, str]


class Circuit:
    """A circuit: its devices, its held nets with their sizes, and the elements of the cell's model that these are matched with, as
    [!]LATCH, and the level of supplies, inputs and clock ports. Supplies keep their names."""

    def __init__(self, source_level):
        self.source_level = source_level
        self.devices: List[FlatDevice] = []
        self.holds: Dict[str, int] = {}
        self.elements: Dict[str, str] = {}


def is_common(netlist, rules, net):
    """Whether a name that is no port is one net in all cells: a supply or a global net."""
    return net in rules.supplies or net in netlist.global_nets


def net_of(name, path, ties, netlist, rules):
    """The flat net of a name that stands in the cell at a path."""
    if name in rules.supplies:
        return name
    return ties.get(name) or (name if is_common(netlist, rules, name) else path + name)


def placed_instances(netlist, rules, cell, path="", ties=None):
    """Each instance of a cell at any depth, those around before those inside."""
    for instance in netlist.cells[cell].instances:
        inner = netlist.cells[instance.cell]
        nets = [net_of(net, path, ties or {}, netlist, rules) for net in instance.nets]
        placed = Placed(path + instance.name, instance.card, instance.cell, dict(zip(inner.ports, nets)))
        yield placed
        yield from placed_instances(netlist, rules, instance.cell, placed.path + "/", placed.nets)


def unrolled(netlist, rules, name):
    """The circuit of a cell; a cell that is not there, or that contains itself, is refused with status 3."""
    circuit = Circuit(rules.source_level)
    _unroll(circuit, netlist, rules, cell_named(netlist, name), "", {}, lambda literal: literal)
    return circuit


def _literal(literal, inner):
    """What an element of an instance is above, as [!]LATCH, where `inner` says it of the element alone."""
    above = inner(literal.lstrip("!"))
    if above and literal.startswith("!"):
        return above[1:] if above.startswith("!") else "!" + above
    return above


def _unroll(circuit, netlist, rules, cell, path, ties, above):
    if path.count("/") > 32:
        raise tool.Refused(f"{cell.card.place}: deeper than 32")
    keepers, holds, matches = rules.keepers(cell.name), rules.holds(cell.name), rules.matches(cell.name)

    def net(name):
        return net_of(name, path, ties, netlist, rules)

    for d in cell.devices:
        circuit.devices.append(FlatDevice(
            path + d.name, net(d.drain), net(d.gate), net(d.source), d.model, rules.kind(d, netlist),
            rules.level(cell.name, d), d.name in keepers, cell.name, d.card))
    for held, size in holds.items():
        circuit.holds.setdefault(net(held), size)
        if held in matches and above(matches[held]):
            circuit.elements.setdefault(net(held), above(matches[held]))
    for i in cell.instances:
        if i.cell not in netlist.cells:
            raise tool.Refused(f"{i.card.place}: no cell {i.cell}")
        inner = netlist.cells[i.cell]
        if len(i.nets) != len(inner.ports):
            raise tool.Refused(f"{i.card.place}: {len(i.nets)} nets for {len(inner.ports)} ports")
        ties_inside = dict(zip(inner.ports, map(net, i.nets)))

        def said(literal, name=i.name):
            return _literal(literal, lambda latch: above(matches[f"{name}:{latch}"]) if f"{name}:{latch}" in matches else None)

        _unroll(circuit, netlist, rules, inner, path + i.name + "/", ties_inside, said)
