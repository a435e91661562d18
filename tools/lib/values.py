"""The bits of a cell's circuit and of its model at one valuation, as replay and the rules have them.

    moment = Moment(netlist, models, rules, "latch", "all", {"d": "0", "clk": "0", "q": "0"})
    moment.replay(files)
    moment.bare["s"], moment.given["clk"], moment.held["s"].bit, moment.model().bits["q"]
"""

import re
from typing import Dict, List, NamedTuple, Optional

from lib import tool
from lib.flat import net_of, placed_instances
from lib.models import Cover, Latch, model_of, port_of, unrolled_model
from lib.netlist import cell_named, lowered


class Held(NamedTuple):
    """What a held net begins its phase with: its bit (None where it is not known), its size, and the lines of the rules that say so.

    `element` is the latch element of the cell's model that it stores, with `!` where it stores the inverse; None where it reaches none.
    `group` is one for the held nets that store one bit. `enters` are all lines that give it a constant, for any phase.
    """

    bit: Optional[str]
    size: int
    element: Optional[str]
    lines: list
    group: object
    enters: list


def inverse(bit, is_inverted=True):
    """A bit, inverted where it is to be; None stays None."""
    return {"0": "1", "1": "0"}.get(bit) if is_inverted else bit


class Moment:
    """A cell in a phase at a valuation. `bare` and `kept` are what its plain nets show, once they were replayed."""

    def __init__(self, netlist, models, rules, cell, phase, at):
        self.netlist, self.models, self.rules = netlist, models, rules
        self.cell, self.phase, self.at = cell_named(netlist, cell).name, phase, at
        self.meets: bool = True
        self.bare: Dict[str, str] = {}
        self.kept: Dict[str, str] = {}
        self.given: Dict[str, str] = {}
        self.held: Dict[str, Held] = {}

    def replay(self, files):
        """Takes what replay prints; a refusal, or a cell that is not replayed, ends with what the program says."""
        at = ",".join(f"{name}={bit}" for name, bit in self.at.items())
        run = tool.verity("--do", "replay", "--cell", self.cell, "--phase", self.phase, "--at", at, "--", *files)
        if run.status != 0 or not run.lines or not run.lines[0].startswith("replay "):
            status = run.status if run.status in (3, 4, 5) else 7
            raise tool.Refused("; ".join(run.lines) or f"{tool.program()}: status {run.status}", status)
        self.meets = run.lines[0].endswith(" yes")
        for line in run.lines[1:]:
            _, net, bare, kept = line.split(" ")
            self.bare[net], self.kept[net] = bare, kept
        self._give()
        self._hold()

    def _give(self):
        """The bits of supplies, clock ports and inputs: of each port that replay does not show."""
        self.given = dict(self.rules.supplies)
        clocked = self.rules.clock_ports(self.cell)
        for port in self.netlist.cells[self.cell].ports:
            if port in clocked and port not in self.rules.supplies:
                self.given[port] = self.clock_bit(clocked[port])
            elif port not in self.bare:
                self.given.setdefault(port, self.at.get(port, "0"))

    def clock_bit(self, clock):
        """The bit of a clock in the phase, or of its inverse for `!CLOCK`."""
        bit = self.rules.phases.get(self.phase, {}).get(clock.lstrip("!"), "0")
        return inverse(bit, clock.startswith("!"))

    def _hold(self):
        """The held nets: the lines of the outermost cell count."""
        parts, lifts = [("", self.cell, {})], {"": {}}
        parts += [(p.path + "/", p.cell, p.nets) for p in placed_instances(self.netlist, self.rules, self.cell)]
        groups = {}
        for path, cell, ties in sorted(parts, key=lambda part: part[0].count("/")):
            for line in self.rules.of("match", cell):
                inner, _, latch = line.words[2].partition(":") if len(line.words) == 4 else ("", "", "")
                if latch:
                    up, is_inverse, lines = self._lifted(path, line.words[3], lifts)
                    lifts.setdefault(f"{path}{lowered(inner)}/", {})[latch] = (up, is_inverse, [line] + lines)
            for net, size in self.rules.holds(cell).items():
                flat = net_of(net, path, ties, self.netlist, self.rules)
                if flat not in self.held:
                    self.held[flat] = self._held(flat, net, cell, path, size, lifts, groups)
        for members in groups.values():
            known = [self.at[net] for net, _, _ in members if net in self.at]
            known += [inverse(constant, is_inverse) for _, is_inverse, constant in members if constant]
            for net, is_inverse, _ in members:
                self.held[net] = self.held[net]._replace(bit=inverse(known[0], is_inverse) if known else None)

    def _lifted(self, path, latch, lifts):
        """The element of the cell's model that a latch of the cell at a path is, whether inverted, and the lines that say so."""
        is_inverse, name = latch.startswith("!"), latch.lstrip("!")
        if path == "":
            return name, is_inverse, []
        if name in lifts.get(path, {}):
            up, turned, lines = lifts[path][name]
            return up, is_inverse != turned, lines
        return (path, name), is_inverse, []

    def _held(self, flat, net, cell, path, size, lifts, groups):
        all_enters = [line for line in self.rules.of("enter", cell) if lowered(line.words[3]) == net]
        enters = [line for line in all_enters if lowered(line.words[2]) == self.phase]
        matches = [line for line in self.rules.of("match", cell) if lowered(line.words[2]) == net]
        element, is_inverse, lines = ("", flat), False, []
        if matches:
            element, is_inverse, lines = self._lifted(path, matches[0].words[3], lifts)
        lines = enters[:1] + matches[:1] + lines
        constant = enters[0].words[4] if enters else None
        if isinstance(element, str):
            bit = inverse(self.at[element], is_inverse) if element in self.at else constant
            return Held(bit, size, "!" * is_inverse + element, lines, element, all_enters)
        groups.setdefault(element, []).append((flat, is_inverse, constant))
        return Held(constant, size, None, lines, element, all_enters)

    def bit(self, net):
        """What a net shows without the keepers."""
        return self.given.get(net) or self.bare.get(net, "-")

    def model(self):
        """The cell's model with its bits; None where it has none."""
        model = model_of(self.models, self.rules, self.cell)
        return Evaluation(self, model) if model else None

    def signal(self, port):
        """The signal of an output port, None where there is none."""
        model = model_of(self.models, self.rules, self.cell)
        said = self.rules.signals(self.cell).get(port)
        return said or next((name for name in (model.outputs if model else []) if lowered(name) == port), None)


class Evaluation:
    """A model at a moment: its sub-models unrolled, each signal with its path, and each latch by the name of its output."""

    def __init__(self, moment, model):
        self.moment = moment
        self.drivers = unrolled_model(moment.models, model)
        self.readers = {}
        self.bits = {}
        for signal, (_, inputs) in self.drivers.items():
            for name in inputs:
                self.readers.setdefault(name, []).append(signal)
        for signal in model.inputs + model.clocks:
            self.bits[signal] = moment.given.get(port_of(moment.rules, moment.cell, signal), "0")
        todo = [signal for signal in self.drivers if signal not in self.bits]
        while todo:
            signal = todo.pop()
            bit = None if signal in self.bits else self._bit(signal)
            if bit is not None:
                self.bits[signal] = bit
                todo += self.readers.get(signal, [])

    def _bit(self, signal):
        """The bit of a signal that a cover or a latch drives; None while what it hangs at is not known."""
        driver, inputs = self.drivers[signal]
        if isinstance(driver, Latch):
            return self.new_bit(signal)
        bits = [self.bits.get(name) for name in inputs]
        if None in bits:
            return None
        fits = any(all(want in ("-", bit) for want, bit in zip(row, bits)) for row, _ in driver.rows)
        return inverse("1", not fits) if not driver.rows or driver.rows[0][1] == "1" else inverse("1", fits)

    def _control(self, latch, inputs):
        if len(inputs) > 1:
            return self.bits.get(inputs[1])
        lines = [line for line in self.moment.rules.lines if line.words[0] == "defaultclock" and len(line.words) > 1]
        return self.moment.clock_bit(lowered(lines[0].words[1])) if lines else None

    def new_bit(self, element):
        """The new bit of an element of a latch, as `q` or `q#m`; None while it is not known."""
        is_master = element not in self.drivers and element.endswith("#m")
        latch, inputs = self.drivers[element[:-2] if is_master else element]
        control, held = self._control(latch, inputs), self.moment.at.get(element, "0")
        if control is None:
            return None
        if latch.type in ("ah", "al"):
            return self.bits.get(inputs[0]) if control == {"ah": "1", "al": "0"}[latch.type] else held
        if is_master == (control == {"fe": "1"}.get(latch.type, "0")):
            return self.bits.get(inputs[0]) if is_master else self.moment.at.get(element + "#m", "0")
        return held

    def operands(self, signal):
        """The signals that the driver of a signal reads, each once."""
        return list(dict.fromkeys(self.drivers[signal][1])) if signal in self.drivers else []

    def told(self, signal):
        """What drives a signal, as a line of text."""
        if signal not in self.drivers:
            return f"input {signal}={self.bits.get(signal, '-')}"
        driver, inputs = self.drivers[signal]
        shown = " ".join(f"{name}={self.bits.get(name, '-')}" for name in dict.fromkeys(inputs))
        if isinstance(driver, Cover):
            return f".names {' '.join(driver.inputs + [driver.output])} (line {driver.line})" + f": {shown}" * bool(shown)
        held = " ".join(f"{name} was {self.moment.at[name]}" for name in (signal + "#m", signal) if name in self.moment.at)
        form = f" {driver.type} {driver.control or 'NIL'}" if driver.type else ""
        return f".latch {driver.input} {driver.output}{form} (line {driver.line}): {shown} {held}"


def truth(expression, bits):
    """The bit of an expression of an `assume` line; None where it reads a name without a bit, or has another form."""
    tokens: List[str] = re.findall(r"[!&^|()]|[^ \t!&^|()]+", expression)

    def operand():
        token = tokens.pop(0)
        if token == "!":
            return 1 - operand()
        if token == "(":
            value = group(0)
            tokens.pop(0)
            return value
        return int(bits[lowered(token)])

    def group(level):
        if level == 3:
            return operand()
        value = group(level + 1)
        while tokens[:1] == ["|^&"[level]]:
            tokens.pop(0)
            other = group(level + 1)
            value = [value | other, value ^ other, value & other][level]
        return value

    try:
        return str(group(0))
    except (IndexError, KeyError, ValueError):
        return None
