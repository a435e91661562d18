"""Which faults stand in a flat circuit at a setting, also such as are not the first there.

It is asked of the faults that were found with instances left whole: each of them is to stand in the flat circuit too.
"""

from itertools import product

from simulator import FIGHT, FLOAT


class Standing:
    """The one solution of a flat circuit at a setting.

    Where a gate has no bit, it may have either: a net has a bit in the solution if it shows that bit in each of these cases, and
    a fault stands if it does in each of them.
    """

    def __init__(self, check, setting):
        self.check = check
        self.setting = setting
        self.bits = {**check.in_phase.known, **setting.inputs}
        self.shown = {}
        for part in sorted(check.in_phase.parts, key=lambda part: part.rank):
            self.solve(part)

    def cases(self, devices):
        """The bits with each choice for the gates of devices that have none."""
        missing = sorted({device.gate for device in devices} - set(self.bits))
        for values in product((0, 1), repeat=len(missing)):
            yield {**self.bits, **dict(zip(missing, values))}

    def solve(self, part):
        """Adds the bits of a part whose gates were solved."""
        circuit = self.check.in_phase
        cases = [circuit.part_responses(part, bits, self.setting.held) for bits in self.cases(part.devices)]
        for net in part.nets:
            self.shown[net] = {case[net] for case in cases}
            if self.shown[net] in ({0}, {1}):
                self.bits[net] = min(self.shown[net])

    def kept(self, net):
        """What a net shows with the keepers."""
        circuit = self.check.in_phase
        cases = self.cases(circuit.circuit.devices)
        return {circuit.kept_responses(bits, self.setting.held)[net] for bits in cases}

    def has(self, fault):
        """Whether a fault stands, with the values that are told."""
        if fault.kind == "constraint":
            return any(instance.path == fault.name and self.is_broken(instance) for instance in self.check.circuit.instances)
        if fault.kind in ("fight", "float", "fightkept", "unsettled"):
            return self.has_at_net(fault, self.check.circuit.names.index(fault.name))
        try:
            found = [*self.check.model_faults(self.setting, self.bits), *self.check.group_faults(self.bits)]
            found += self.check.enter_faults(self.bits)
        except KeyError:
            return False
        return (fault.kind, fault.name, fault.values) in [(other.kind, other.name, other.values) for other in found]

    def has_at_net(self, fault, net):
        """Whether a fault of the bare or of the kept circuit stands at a net."""
        if fault.kind == "fight":
            return self.shown[net] == {FIGHT}
        if fault.kind == "float":
            return net in self.check.observed and self.shown[net] == {FLOAT}
        kept = self.kept(net)
        if fault.kind == "fightkept":
            return kept == {FIGHT}
        wanted = self.bits.get(net)
        if wanted is None:
            return False
        return net in self.check.observed and kept == {1 - wanted} and fault.values == f"circuit {1 - wanted} wanted {wanted}"

    def is_broken(self, instance):
        """Whether an `assume` of an instance is false, each port in it having a bit, or a clock port has the wrong bit."""
        expressions, clocks = self.check.constraints(instance)
        ports = {port: self.bits[net] for port, net in instance.ports.items() if net in self.bits}
        told = [expression for expression in expressions if expression.ports() <= set(ports)]
        if any(not expression.value(ports) for expression in told):
            return True
        return any(ports.get(port, bit) != bit for port, bit in clocks.items())


class Agreement:
    """Compares a phase with instances left whole with the same phase of the flat circuit, at each setting that is looked at."""

    def __init__(self, flat, checked):
        self.flat = flat
        self.checked = checked
        self.wrong = []

    def watch(self, setting, fault):
        """Notes where only one of the two has a fault, where the flat one has another than this, and where the bits differ."""
        first = next(self.flat.faults(setting), None)
        if (fault is None) != (first is None):
            self.wrong.append(f"whole: {fault}, flat: {first}")
        elif fault is not None and not Standing(self.flat, setting).has(fault):
            self.wrong.append(f"whole: {fault}, which does not stand in the flat circuit")
        elif fault is None:
            both = self.flat.observed & self.checked.observed
            differ = [net for net in both if self.flat.bits.get(net) != self.checked.bits.get(net)]
            self.wrong += [f"whole: another bit of {self.flat.circuit.names[net]}" for net in differ]
