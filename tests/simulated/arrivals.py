"""Whether the order matters in which inputs rise within a phase, as docs/MODEL.md defines it: every order is tried, and every single step."""

from itertools import chain, combinations

from budgets import MOST_TRIED
from verdicts import PhaseCheck, Setting

# The most ports that rise whose orders are all tried.
MOST_RISING = 4


def subsets(items):
    """The sets of some items."""
    return map(frozenset, chain.from_iterable(combinations(items, count) for count in range(len(items) + 1)))


class Arrivals:
    """Input ports of an equal cell that rise within a phase."""

    def __init__(self, comparison, phase, ports):
        self.comparison = comparison
        self.phase = phase
        self.ports = ports
        self.nets = [comparison.circuit.ports[port] for port in ports]
        self.check = PhaseCheck(comparison, phase, phase)
        self.settled = {}  # the bits of the nets by the setting, or None where the circuit does not settle

    def is_small(self):
        """Whether all valuations and orders can be tried."""
        return len(self.ports) <= MOST_RISING and len(self.check.variable_names()) <= MOST_TRIED

    def bits_at(self, setting):
        """The bits of the nets where the circuit settles, else None; constraints of instances are not asked."""
        key = tuple(sorted(setting.inputs.items())), tuple(sorted(setting.held.items()))
        if key not in self.settled:
            self.settled[key] = self.settle(setting)
        return self.settled[key]

    def settle(self, setting):
        """The same, by solving the circuit."""
        bits = {**self.check.in_phase.known, **setting.inputs}
        for fault in self.check.solved_faults(setting, bits):
            if fault.kind != "constraint":
                return None
        return None if next(self.check.kept_faults(setting, bits), None) else bits

    def on_the_way(self, end, risen, held):
        """The setting with these ports risen, and these bits of the holds."""
        inputs = {net: int(net in risen) if net in self.nets else bit for net, bit in end.inputs.items()}
        return Setting(inputs, end.elements, held)

    def at_once(self, end, risen):
        """The same with the charges of the valuation."""
        return self.on_the_way(end, risen, end.held)

    def taken(self, bits, end):
        """The bit that each hold takes from its net."""
        return {net: bits.get(net, end.held[net]) for net in end.held}

    def end_alike(self, bits, others):
        """Whether the observed nets have the same bits."""
        return all(bits.get(net) == others.get(net) for net in self.check.observed)

    def goes_well(self, end, risen, held, left):
        """Whether each order of ports that are left goes well, where these have risen."""
        bits, others = self.bits_at(self.on_the_way(end, risen, held)), self.bits_at(self.at_once(end, risen))
        if bits is None or others is None or not self.end_alike(bits, others):
            return False
        taken = self.taken(bits, end)
        return all(self.goes_well(end, risen | {net}, taken, left - {net}) for net in left)

    def fails(self, end, risen, net):
        """Whether the step fails at which one more port rises."""
        before, once = self.bits_at(self.at_once(end, risen)), self.bits_at(self.at_once(end, risen | {net}))
        if before is None or once is None:
            return True
        after = self.bits_at(self.on_the_way(end, risen | {net}, self.taken(before, end)))
        return after is None or not self.end_alike(after, once)

    def ends(self):
        """The valuations that meet the constraints, with what they give and the nets that rise there."""
        for valuation, setting in self.check.settings():
            if self.check.meets(setting):
                yield valuation, setting, frozenset(net for net in self.nets if setting.inputs[net])

    def failing(self, net):
        """The least bits of a step at which a port fails, or None."""
        found = [
            (*valuation, *(int(other in risen) for other in self.nets))
            for valuation, end, rising in self.ends()
            if net in rising
            for risen in subsets(rising - {net})
            if self.fails(end, risen, net)
        ]
        return min(found, default=None)

    def line(self):
        """The line that is printed; every order and every step have to say the same."""
        told = f"arrive {self.comparison.cell} phase {self.phase.name}"
        every_order = all(self.goes_well(end, frozenset(), end.held, rising) for _, end, rising in self.ends())
        for port, net in zip(self.ports, self.nets):
            bits = self.failing(net)
            if bits is not None:
                names = self.check.variable_names() + [f"{name}+" for name in self.ports]
                pairs = " ".join(f"{name}={bit}" for name, bit in zip(names, bits))
                return "THE ORDERS DISAGREE" if every_order else f"{told} no {port} at {pairs}"
        return f"{told} yes" if every_order else "THE ORDERS DISAGREE"
