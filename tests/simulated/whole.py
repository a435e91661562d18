"""Instances that are left whole, as docs/MODEL.md defines them: which are, how their ports are linked, and what they show.

The model of its cell stands for such an instance, and all that is inside it is left out of the circuit. An output that meets gates alone is a
source; one that meets a channel, or another output, drives as strongly as its cell always does, where it has a drive at all.
"""

from copy import copy
from dataclasses import dataclass
from itertools import product

from designs import SUPPLIES
from drives import SOFT, drives_of
from flat import Assignment, FlatCircuit
from simulator import Cycle


class Undetermined(Exception):
    """An output of a whole instance hangs on an input that has no bit, though no fault was found before it."""


@dataclass(frozen=True)
class Link:
    """An arc of a whole instance, from the net of a port to that of an output. A constraint of the instance may name the port."""

    source: int
    output: int
    is_named: bool


@dataclass(frozen=True)
class Output:
    """An output of a whole instance: its port, its net, and its drive, a level or soft."""

    port: str
    net: int
    drive: object


class Inside:
    """A cell that was found equal and keeps nothing, as it is seen from above: what is said of its ports."""

    def __init__(self, comparison, drives):
        self.comparison = comparison
        self.drives = drives  # of the output ports
        self.links_of = {}  # the links in a phase, by its name

    def is_allowed(self):
        """Whether its model has no don't-care network, it names no global net, its outputs are always observed, and no channel in it meets an input or a clock port."""
        k = self.comparison
        if k.design.model_of(k.cell).network:
            return False
        phases = k.rules.phases
        if any(k.design.names_global(k.cell, net) for net in k.design.globals):
            return False
        if not all(k.is_observed_port(port, phase) for port in k.outputs for phase in phases):
            return False
        given = set(k.inputs) | set(k.clock_nets)
        return all(given.isdisjoint(device.ends) for device in k.circuit.devices)

    def observed_inputs(self):
        """The input ports whose nets are observed inside, which does not hang on the phase."""
        k = self.comparison
        observed = k.observed(k.rules.phases[0])
        return [port for port, net in k.circuit.ports.items() if net in k.inputs and net in observed]

    def links(self, phase):
        """Triples of a port, an output to which it is linked in a phase, and whether a constraint names the port."""
        if phase.name not in self.links_of:
            self.links_of[phase.name] = list(self.found_links(phase))
        return self.links_of[phase.name]

    def found_links(self, phase):
        """Finds them. A port that a constraint names is linked to each output."""
        k = self.comparison
        in_phase = k.in_phase(phase)
        named = set(k.rules.clocks_of(k.cell)).union(*(expression.ports() for expression in k.rules.assumed(k.cell, phase)))
        for port in k.circuit.ports:
            for output in k.outputs:
                if port in named or self.is_linked(in_phase, port, output):
                    yield port, output, port in named

    def is_linked(self, in_phase, port, output):
        """Whether arcs inside lead from an input, or from the part of another output, to the output, or the model leads there."""
        k = self.comparison
        net, end = k.circuit.ports[port], in_phase.part_of[k.outputs[output]]
        if net in k.inputs:
            signals = k.pairing.signals
            return end in in_phase.parts_behind(net) or signals[port] in self.signals_before(signals[output])
        if port in k.outputs and port != output:
            return any(end in in_phase.parts_behind(member) for member in in_phase.part_of[net].nets)
        return False

    def signals_before(self, signal):
        """The signals from which the covers of the model lead to a signal, over one cover at least."""
        further, found = {signal}, set()
        while further:
            covers = [self.comparison.model.covers[one] for one in further if one in self.comparison.model.covers]
            further = {one for cover in covers for one in cover.inputs} - found
            found |= further
        return found


@dataclass
class Whole:
    """An instance that is left whole: its number among all instances, its place, and its cell."""

    number: int
    instance: object
    inside: Inside

    def outputs(self):
        """Its outputs, with the drives that their cell has."""
        return [Output(port, self.instance.ports[port], self.inside.drives[port]) for port in self.inside.comparison.outputs]

    def observed(self):
        """The nets of the inputs that are observed inside."""
        return {self.instance.ports[port] for port in self.inside.observed_inputs()}

    def in_phase(self, phase, comparison):
        """What it is in a phase, in the circuit of a comparison."""
        return WholeInPhase(self, phase, comparison)


class WholeInPhase:
    """A whole instance in a phase, with what a circuit around asks of it."""

    def __init__(self, whole, phase, comparison):
        self.inside = whole.inside
        self.ports = whole.instance.ports
        self.phase = phase
        self.source = comparison.circuit.source
        self.outputs = [(output, meets_gates_alone(comparison, output)) for output in whole.outputs()]

    def driven(self):
        """The nets of the outputs."""
        return [output.net for output, _ in self.outputs]

    def roots(self, nets, bits):
        """Its outputs at some nets as roots: where one meets gates alone, of the level of a source, else of that of its drive."""
        for output, is_alone in self.outputs:
            if output.net in nets:
                yield output.net, self.source if is_alone else output.drive, self.bit(output.port, bits)

    def links(self):
        """The links of its ports, between the nets of these."""
        return [Link(self.ports[port], self.ports[output], named) for port, output, named in self.inside.links(self.phase)]

    def bit(self, port, bits):
        """The bit that the model gives an output; an input without a bit is to make no difference."""
        k = self.inside.comparison
        nets = {signal: self.ports[name] for signal, name in k.pairing.input_ports().items()}
        carried = k.carried(self.phase)
        missing = sorted(set(nets.values()) - set(bits))
        shown = set()
        for values in product((0, 1), repeat=len(missing)):
            full = {**bits, **dict(zip(missing, values))}
            given = {**{name: full[tied] for name, tied in nets.items()}, **carried}
            shown.add(Assignment(k.model, given, {}).bit(k.pairing.signals[port]))
        if len(shown) > 1:
            raise Undetermined
        return shown.pop()


def without_inner_parts(circuit, wholes):
    """A flat circuit without the devices and the instances inside whole ones; their nets stay, with nothing at them."""
    numbers = {whole.number for whole in wholes}
    devices = [device for device in circuit.devices if numbers.isdisjoint(device.within)]
    instances = [instance for instance in circuit.instances if numbers.isdisjoint(instance.within)]
    return FlatCircuit(circuit.names, circuit.ports, circuit.source, devices, circuit.holds, instances)


def with_wholes(comparison, wholes):
    """The comparison of a cell, with some instances left whole."""
    changed = copy(comparison)
    changed.circuit = without_inner_parts(comparison.circuit, wholes)
    changed.wholes = wholes
    return changed


def met_by(comparison, output):
    """What an output of a whole instance meets beside gates: the levels of devices, and the drives of other outputs."""
    levels = [device.level for device in comparison.circuit.devices if output.net in device.ends]
    drives = [other.drive for whole in comparison.wholes for other in whole.outputs() if other.net == output.net]
    drives.remove(output.drive)
    return levels, drives


def meets_gates_alone(comparison, output):
    """Whether neither a channel nor another output is at the net of an output."""
    levels, drives = met_by(comparison, output)
    return not levels and not drives


def is_output_allowed(comparison, output):
    """Whether an output meets gates alone, or has a level, and meets devices of at most that level and outputs of that very drive."""
    levels, drives = met_by(comparison, output)
    if not levels and not drives:
        return True
    return output.drive != SOFT and all(level <= output.drive for level in levels) and all(drive == output.drive for drive in drives)


def are_outputs_allowed(comparison, whole):
    """Whether the outputs of a whole instance are plain nets without a charge, and each is allowed."""
    given = set(SUPPLIES.values()) | set(comparison.clock_nets) | set(comparison.inputs) | set(comparison.circuit.holds)
    return all(output.net not in given and is_output_allowed(comparison, output) for output in whole.outputs())


def known_cell(flat, checked, tells_levels):
    """What is known of a cell that was found equal and keeps nothing, from its flat and its checked circuit; each drive is soft where no levels are told."""
    if not tells_levels:
        return Inside(flat, dict.fromkeys(flat.outputs, SOFT))
    drives = drives_of(flat, checked)
    for port, net in checked.outputs.items():
        standing = [output for whole in checked.wholes for output in whole.outputs() if output.net == net]
        if drives[port] != SOFT and any(meets_gates_alone(checked, output) for output in standing):
            drives[port] = standing[0].drive
    return Inside(flat, drives)


def is_acyclic(comparison):
    """Whether the arcs of its circuit lead around in no phase."""
    try:
        for phase in comparison.rules.phases:
            comparison.in_phase(phase)
    except Cycle:
        return False
    return True


def left_whole(comparison, known):
    """The instances of a flat circuit without cycles that are left whole, tried in their order; inside one none is tried.

    `known` has the cells that were found equal and keep nothing.
    """
    chosen = []
    for number, instance in enumerate(comparison.circuit.instances):
        inside = known.get(instance.cell)
        if inside is None or any(whole.number in instance.within for whole in chosen) or not inside.is_allowed():
            continue
        one = Whole(number, instance, inside)
        tried = with_wholes(comparison, chosen + [one])
        if are_outputs_allowed(tried, one) and is_acyclic(tried):
            chosen.append(one)
    return chosen
