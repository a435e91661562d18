"""The verdict on a cell, as docs/MODEL.md defines it, by trying every valuation, and its line, as docs/FORMATS.md has it."""

from dataclasses import dataclass
from itertools import product

from designs import SUPPLIES
from flat import flat_circuit, flat_model
from pairing import Pairing
from simulator import FIGHT, FLOAT, Part, PhaseCircuit


@dataclass
class Fault:
    """A fault that stands: where its place comes in the order of places, its kind, the name of its place, and two values."""

    place: tuple
    kind: str
    name: str
    values: str = ""

    def line(self, cell, phase, at):
        """The line that is printed."""
        words = ["cell", cell, self.kind, self.name, "phase", phase, self.values, "at", at]
        return " ".join(word for word in words if word)


@dataclass
class Group:
    """Holds with one end, in net order: they share a bit, each with its polarity."""

    holds: list
    element: str  # the element of the cell's model that the end is, or None

    def entered(self, phase):
        """The bit with which the group enters a phase, by the least of its holds with an `enter` line for it, or None."""
        bits = [constant(hold, phase) ^ hold.is_inverted for hold in self.holds if constant(hold, phase) is not None]
        return bits[0] if bits else None


@dataclass
class Setting:
    """What a valuation gives: the bits of the inputs, of the elements and of the holds, those of nets by their numbers."""

    inputs: dict
    elements: dict
    held: dict


def constant(hold, phase):
    """The constant that an `enter` line gives a hold for a phase, or None."""
    return dict(hold.enters).get(phase.name)


class Comparison:
    """A cell's flat circuit, its flat model, and what the rules say of both."""

    def __init__(self, design, cell):
        self.design = design
        self.rules = design.rules
        self.cell = cell
        self.circuit = flat_circuit(design, cell)
        self.model = flat_model(design, design.model_of(cell).name)
        self.pairing = Pairing(design, cell, self.model)
        ports = {port: net for port, net in self.circuit.ports.items() if port not in SUPPLIES}
        self.clock_nets = {ports[port]: clock for port, clock in self.pairing.clocks.items() if port in ports}
        self.outputs = {port: ports[port] for port in self.pairing.outputs}
        self.inputs = [ports[port] for port in self.pairing.inputs]
        self.groups = self.make_groups()
        self.wholes = []  # the instances that are left whole

    def make_groups(self):
        """The groups, by their least nets."""
        by_end = {}
        for net in sorted(self.circuit.holds):
            hold = self.circuit.holds[net]
            by_end.setdefault(hold.end, []).append(hold)
        elements = {("element", "", name): name for name in self.model.elements()}
        return [Group(holds, elements.get(end)) for end, holds in by_end.items()]

    def unmatched(self):
        """The first element of the model that no hold stores, else what the first `match` line names that is no element, or None."""
        stored = {group.element for group in self.groups}
        elements = self.model.elements()
        named = [reference.name for reference in self.rules.matched(self.cell)]
        found = [name for name in elements if name not in stored] + [name for name in named if name not in elements]
        return found[0] if found else None

    def latch_without_clock(self):
        """The first latch without a control, where there is no default clock, or None."""
        latches = [] if self.rules.default_clock else self.model.latches.values()
        return next((latch.output for latch in latches if latch.control is None), None)

    def carried(self, phase):
        """The bits of the signals that carry clocks, and under None that of the default clock."""
        bits = {signal: phase.bits[clock.name] ^ clock.inverted for signal, clock in self.pairing.carried.items()}
        if self.rules.default_clock:
            bits[None] = phase.bits[self.rules.default_clock]
        return bits

    def in_phase(self, phase):
        """The circuit in a phase; raises Cycle where its gates lead around."""
        bits = {net: phase.bits[clock.name] ^ clock.inverted for net, clock in self.clock_nets.items()}
        return PhaseCircuit(self.circuit, self.inputs, bits, [whole.in_phase(phase, self) for whole in self.wholes])

    def is_observed_port(self, port, phase):
        """An output port is compared in the phases of its `observe` line, and in all without one."""
        phases = self.rules.observed.get((self.cell, port))
        return phases is None or phase.name in phases

    def observed(self, phase):
        """The gates of devices, the holds, the observed outputs, the ports of instances whose cells have a constraint, and the
        inputs of whole instances that are observed inside."""
        nets = {device.gate for device in self.circuit.devices} | set(self.circuit.holds)
        nets |= {net for port, net in self.outputs.items() if self.is_observed_port(port, phase)}
        for instance in self.circuit.instances:
            if self.rules.is_constrained(instance.cell):
                nets |= set(instance.ports.values())
        return nets.union(*(whole.observed() for whole in self.wholes))


class PhaseCheck:
    """The search for the first fault of a phase."""

    def __init__(self, comparison, phase, next_phase):
        self.comparison = comparison
        self.phase = phase
        self.next_phase = next_phase
        self.circuit = comparison.circuit
        self.in_phase = comparison.in_phase(phase)
        self.observed = comparison.observed(phase)
        self.free = [group for group in comparison.groups if group.element is None and group.entered(phase) is None]
        self.steps = self.make_steps()
        self.bits = {}  # of the nets, at the setting that was looked at last

    def make_steps(self):
        """What is looked at in turn, with its place: rank by rank the parts by least net, then the constraints of instances."""
        steps = [((part.rank, 0, part.nets[0]), part) for part in self.in_phase.parts]
        for number, instance in enumerate(self.circuit.instances):
            if self.comparison.rules.is_constrained(instance.cell):
                steps.append(((self.constraint_rank(instance), 1, number), instance))
        return sorted(steps, key=lambda item: item[0])

    def variable_names(self):
        """The inputs, then the elements, then the groups that reach no latch and enter with no constant."""
        inputs = [self.circuit.names[net] for net in self.comparison.inputs]
        return inputs + self.comparison.model.elements() + [self.circuit.names[group.holds[0].net] for group in self.free]

    def assumed_bits(self):
        """The bits that inputs have at each valuation that meets the constraints, by `assume` lines of ports, inverses, and `&` of these."""
        waiting, bits = self.comparison.rules.assumed(self.comparison.cell, self.phase), {}
        for expression in waiting:
            if expression.operator == "&":
                waiting.extend(expression.operands)
            elif expression.operator == "port":
                bits[self.circuit.ports[expression.operands[0]]] = 1
            elif expression.operator == "!" and expression.operands[0].operator == "port":
                bits[self.circuit.ports[expression.operands[0].operands[0]]] = 0
        return bits

    def variable_count(self):
        """The variables of which both bits are tried."""
        assumed = self.assumed_bits()
        return sum(net not in assumed for net in self.comparison.inputs) + len(self.comparison.model.elements()) + len(self.free)

    def settings(self):
        """Each valuation with what it gives, the lesser valuations first, but for those that cannot meet the constraints."""
        assumed = self.assumed_bits()
        choices = [(assumed[net],) if net in assumed else (0, 1) for net in self.comparison.inputs]
        others = len(self.comparison.model.elements()) + len(self.free)
        return self.settings_of(product(*choices, *[(0, 1)] * others))

    def settings_of(self, valuations):
        """Valuations with what they give."""
        elements = self.comparison.model.elements()
        first_element = len(self.comparison.inputs)
        first_group = first_element + len(elements)
        for bits in valuations:
            values = dict(zip(elements, bits[first_element:first_group]))
            held = {}
            for group in self.comparison.groups:
                if group.element is not None:
                    bit = values[group.element]
                elif group in self.free:
                    bit = bits[first_group + self.free.index(group)]
                else:
                    bit = group.entered(self.phase)
                held.update({hold.net: bit ^ hold.is_inverted for hold in group.holds})
            yield bits, Setting(dict(zip(self.comparison.inputs, bits)), values, held)

    def meets(self, setting):
        """Whether each `assume` of the cell is true, and each hold that an `enter` line names has its constant."""
        bits = {**self.in_phase.fixed, **setting.inputs}
        ports = {port: bits[net] for port, net in self.circuit.ports.items() if net in bits}
        rules, cell = self.comparison.rules, self.comparison.cell
        if not all(expression.value(ports) for expression in rules.assumed(cell, self.phase)):
            return False
        holds = self.circuit.holds.values()
        return all(constant(hold, self.phase) in (None, setting.held[hold.net]) for hold in holds)

    def faults(self, setting):
        """The faults at a valuation, in the order of their places.

        Only the first of them is to be asked for. Where none came before, each gate that is looked at has a bit in the solution:
        so all readings that agree with it conduct alike, and what one of them shows stands under every one.
        """
        self.bits = bits = {**self.in_phase.known, **setting.inputs}
        yield from self.solved_faults(setting, bits)
        yield from self.kept_faults(setting, bits)
        yield from self.model_faults(setting, bits)
        yield from self.group_faults(bits)
        yield from self.enter_faults(bits)

    def solved_faults(self, setting, bits):
        """Solves the bare circuit step by step; the bits of the nets are added to those that are given."""
        for place, step in self.steps:
            if isinstance(step, Part):
                yield from self.part_faults(place, step, setting, bits)
            elif self.is_broken(step, bits):
                yield Fault((0,) + place, "constraint", step.path)

    def part_faults(self, place, part, setting, bits):
        """Solves a part, and finds the nets that fight, and the observed nets that float."""
        shown = self.in_phase.part_responses(part, bits, setting.held)
        for net in part.nets:
            if shown[net] == FIGHT:
                yield Fault((0,) + place + (net, 0), "fight", self.circuit.names[net])
            elif shown[net] == FLOAT and net in self.observed:
                yield Fault((0,) + place + (net, 1), "float", self.circuit.names[net])
            elif shown[net] != FLOAT:
                bits[net] = shown[net]

    def constraints(self, instance):
        """What the rules ask of the ports of an instance in this phase: expressions, and the bits of clock ports."""
        rules = self.comparison.rules
        clocks = {port: self.phase.bits[clock.name] ^ clock.inverted for port, clock in rules.clocks_of(instance.cell).items()}
        return rules.assumed(instance.cell, self.phase), clocks

    def constraint_rank(self, instance):
        """The greatest rank of a port that a constraint of the instance names in this phase."""
        expressions, clocks = self.constraints(instance)
        named = set(clocks).union(*(expression.ports() for expression in expressions))
        return max((self.in_phase.rank(instance.ports[port]) for port in named), default=0)

    def is_broken(self, instance, bits):
        """Whether an `assume` of the instance's cell is false, or a clock port has another bit than declared."""
        expressions, clocks = self.constraints(instance)
        ports = {port: bits[net] for port, net in instance.ports.items() if net in bits}
        return not all(expression.value(ports) for expression in expressions) or any(
            ports[port] != bit for port, bit in clocks.items()
        )

    def kept_faults(self, setting, bits):
        """Net by net: where a net fights with the keepers, and where an observed one shows another bit than without them."""
        kept = self.in_phase.kept_responses(bits, setting.held)
        for net in self.in_phase.plain:
            name = self.circuit.names[net]
            if kept[net] == FIGHT:
                yield Fault((1, net, 0), "fightkept", name)
            elif net in self.observed and kept[net] != bits[net]:
                yield Fault((1, net, 1), "unsettled", name, f"circuit {kept[net]} wanted {bits[net]}")

    def model_faults(self, setting, bits):
        """The observed outputs that are not what the model says and are not free to be, then the holds that are not the new bits of their elements."""
        model = self.comparison.model
        pairing, given = self.comparison.pairing, self.comparison.carried(self.phase)
        given.update({signal: bits[self.circuit.ports[port]] for signal, port in pairing.input_ports().items()})
        signals, new = model.assignment(given, setting.elements)
        for number, port in enumerate(self.circuit.ports):
            if port in self.comparison.outputs and self.comparison.is_observed_port(port, self.phase):
                bit = bits[self.circuit.ports[port]]
                wanted = signals[pairing.signals[port]]
                free = model.free.get(pairing.signals[port])
                if bit != wanted and not (free and signals[free]):
                    yield Fault((2, number), "differs", port, f"circuit {bit} model {wanted}")
        stored = [(hold, group.element) for group in self.comparison.groups if group.element is not None for hold in group.holds]
        for hold, element in sorted(stored, key=lambda item: item[0].net):
            yield from self.hold_fault(3, "next", hold, bits, new[element] ^ hold.is_inverted)

    def group_faults(self, bits):
        """The holds of other groups that are not what the least net of their group is."""
        others = [(hold, group.holds[0]) for group in self.comparison.groups if group.element is None for hold in group.holds]
        for hold, least in sorted(others, key=lambda item: item[0].net):
            wanted = bits[least.net] ^ least.is_inverted ^ hold.is_inverted
            yield from self.hold_fault(4, "apart", hold, bits, wanted)

    def enter_faults(self, bits):
        """The holds that do not get the constant with which they enter the next phase."""
        for net in sorted(self.circuit.holds):
            wanted = constant(self.circuit.holds[net], self.next_phase)
            if wanted is not None:
                yield from self.hold_fault(5, "enter", self.circuit.holds[net], bits, wanted)

    def hold_fault(self, stage, kind, hold, bits, wanted):
        """A fault where a hold has another bit than is wanted."""
        if bits[hold.net] != wanted:
            name = self.circuit.names[hold.net]
            yield Fault((stage, hold.net), kind, name, f"circuit {bits[hold.net]} wanted {wanted}")

    def line(self, watch=None):
        """The line of the first fault, there with the least valuation, or of a phase that is vacuous; None where it is equal.

        Who watches is told the first fault of each setting, or None.
        """
        is_vacuous, first, at = True, None, ()
        for valuation, setting in self.settings():
            if self.meets(setting):
                is_vacuous = False
                fault = next(self.faults(setting), None)
                if watch:
                    watch(setting, fault)
                if fault and (first is None or fault.place < first.place):
                    first, at = fault, valuation
        cell = self.comparison.cell
        if is_vacuous:
            return f"cell {cell} vacuous phase {self.phase.name}"
        if first is None:
            return None
        pairs = [f"{name}={bit}" for name, bit in zip(self.variable_names(), at)]
        return first.line(cell, self.phase.name, " ".join(pairs) or "-")
