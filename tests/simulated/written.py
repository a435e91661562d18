"""The model that is to be written of an equal cell, as docs/FORMATS.md has it, made from the bits of the outputs at all valuations."""

from itertools import product

from budgets import MOST_TRIED
from verdicts import PhaseCheck


class Nodes:
    """The nodes of functions, each a list of bits at all valuations of so many inputs, numbered as they are met."""

    def __init__(self):
        self.numbers = {}  # by input, lo and hi

    def number(self, bits, at):
        """The number of a function of the inputs from this one on."""
        if len(set(bits)) == 1:
            return bits[0]
        lo, hi = bits[: len(bits) // 2], bits[len(bits) // 2 :]
        low = self.number(lo, at + 1)
        if lo == hi:
            return low
        return self.numbers.setdefault((at, low, self.number(hi, at + 1)), len(self.numbers) + 2)


def output_bits(comparison, port):
    """The bits of an output at all valuations of the inputs: 1 where some phase observes it, has its constraints met and gives it 1."""
    ones = set()
    for phase in comparison.rules.phases:
        if not comparison.is_observed_port(port, phase):
            continue
        check = PhaseCheck(comparison, phase, phase)
        for valuation, setting in check.settings():
            if check.meets(setting) and not any(check.faults(setting)):
                if check.bits[comparison.circuit.ports[port]]:
                    ones.add(tuple(valuation))
    return [int(bits in ones) for bits in product((0, 1), repeat=len(comparison.inputs))]


def model_lines(comparison):
    """The lines of the model that is to be written."""
    model, pairing = comparison.model, comparison.pairing
    source = comparison.design.model_of(comparison.cell)
    inputs = [name for name in source.inputs if name not in source.clocks] if source.clocks else source.inputs
    signals = [pairing.signals[port] for port in pairing.inputs]
    ports = {signal: port for port, signal in pairing.signals.items()}
    nodes = Nodes()
    roots = [nodes.number(output_bits(comparison, ports[signal]), 0) for signal in model.outputs]
    lines = [" ".join([".model", source.name]), " ".join([".inputs", *inputs])]
    lines += [" ".join([".clock", *source.clocks])] if source.clocks else []
    lines += [" ".join([".outputs", *source.outputs]), ".names =0", ".names =1", "1"]
    for (at, low, high), number in nodes.numbers.items():
        lines += [f".names {signals[at]} ={low} ={high} ={number}", "01- 1", "1-1 1"]
    for signal, number in zip(source.outputs, roots):
        lines += [f".names ={number} {signal}", "1 1"]
    return lines + [".end"]


def is_small(comparison):
    """Whether all valuations can be tried."""
    return len(comparison.inputs) <= MOST_TRIED
