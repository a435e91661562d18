"""Which signal of its model each port of a cell pairs with, and what stands in the way, as docs/FORMATS.md and docs/MODEL.md define it."""

from designs import SUPPLIES, Reference


def interface(model):
    """The signals of a model's interface, each once: its inputs and clocks, then its outputs."""
    return list(dict.fromkeys(model.inputs + model.outputs))


class Pairing:
    """The ports of a cell with their signals, and the signals that carry clocks.

    A port pairs with the signal that its `port` line names, else with the first whose name in lower case is the port's. It is a
    supply by its name, else a clock port by its `clockport` line, else an output or an input as its signal is.
    """

    def __init__(self, design, cell, model):
        self.rules = design.rules
        self.cell = cell
        self.model = model
        self.all_ports = design.cells[cell].ports
        self.clocks = self.rules.clocks_of(cell)
        self.signals = {port: self.signal_of(port) for port in self.all_ports if port not in SUPPLIES}
        ports = [port for port in self.signals if port not in self.clocks and self.signals[port] is not None]
        self.outputs = [port for port in ports if self.signals[port] in model.outputs]
        self.inputs = [port for port in ports if port not in self.outputs]
        self.carried = self.carried_clocks()

    def like(self, port):
        """The signals whose names in lower case are a port's."""
        return [signal for signal in interface(self.model) if signal.lower() == port]

    def signal_of(self, port):
        """The signal that a port pairs with, or None."""
        named = self.rules.ports.get((self.cell, port))
        if named is not None:
            return named if named in interface(self.model) else None
        return next(iter(self.like(port)), None)

    def carried_clocks(self):
        """The signals that carry clocks: those of clock ports, and inputs that no port pairs with and whose names are clocks."""
        carried = {self.signals[port]: clock for port, clock in self.clocks.items() if self.signals.get(port) is not None}
        for signal in self.model.inputs:
            if signal not in self.signals.values() and signal in self.rules.clocks:
                carried[signal] = Reference(signal)
        return carried

    def input_ports(self):
        """The signals of inputs that carry no clock, each with the port with which it pairs."""
        return {self.signals[port]: port for port in self.inputs}

    def fault(self):
        """The first port that stands in the way, else the first signal, or None."""
        found = [port for port in self.all_ports if self.is_in_way(port)]
        found += [signal for signal in interface(self.model) if signal not in self.signals.values() and signal not in self.carried]
        return found[0] if found else None

    def is_in_way(self, port):
        """Whether a port has no role, fits two signals, shares its signal, names none, or is an output or a supply that it may not be."""
        is_clock, named = port in self.clocks, self.rules.ports.get((self.cell, port))
        if named is not None and named not in interface(self.model):
            return True
        if port in SUPPLIES:
            return is_clock
        signal = self.signals[port]
        if signal is None:
            return not is_clock
        is_output = signal in self.model.outputs
        is_assumed = any(name == self.cell and port in expression.ports() for name, _, expression in self.rules.assumes)
        is_shared = list(self.signals.values()).count(signal) > 1
        return is_shared or (named is None and len(self.like(port)) > 1) or (is_output and (is_clock or is_assumed))

    def output_that_is_input(self):
        """The first signal that is an output and an input too, or None."""
        return next((signal for signal in self.model.inputs if signal in self.model.outputs), None)
