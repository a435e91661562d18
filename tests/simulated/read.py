"""Reads the three files of a case into a design, in the plain forms of docs/FORMATS.md that the acceptance cases use.

What it does not know, and supplies of other names than `vdd` and `gnd`, it refuses by NotRead.
"""

import re

from designs import SUPPLIES, USUAL_LEVELS, Cell, Cover, Design, Device, Expression, Instance, Latch, Model, Phase, Reference, Rules, SubModel


class NotRead(Exception):
    """A line of a form that is not read here."""


def cards(text, comments, joins):
    """The words of each card. Lines that begin with a comment are left out; a line is joined to the one before as the format has it."""
    joined = []
    for line in text.splitlines():
        line = re.sub(comments, "", line).strip()
        if joins == "+" and line.startswith("+"):
            joined[-1] += " " + line[1:]
        elif joins == "\\" and joined and joined[-1].endswith("\\"):
            joined[-1] = joined[-1][:-1] + line
        elif line:
            joined.append(line)
    return [line.split() for line in joined]


def reference(word):
    """A name, or its inverse."""
    return Reference(word.lstrip("!"), word.startswith("!"))


class Reader:
    """Reads a design from its three texts."""

    def __init__(self, netlist, models, rules):
        self.kinds = {}
        self.device_models = {}
        self.design = Design(rules=Rules(phases=[]))
        self.read_netlist(netlist)
        self.read_models(models)
        for words in cards(rules, r"^\s*#.*", ""):
            self.read_rule(words)
        self.finish()

    def read_netlist(self, text):
        """The cells; the first line is a title."""
        cell = None
        for words in cards("\n".join(text.lower().splitlines()), r"^\*.*|;.*|\$ .*", "+"):
            words = [word for word in words if "=" not in word]
            if words[0] == ".subckt":
                cell = self.design.cells[words[1]] = Cell(words[1], words[2:])
            elif words[0] == ".ends":
                cell = None
            elif words[0] == ".global":
                self.design.globals += words[1:]
            elif cell is not None and words[0][0] == "m" and len(words) >= 6:
                cell.devices.append(Device(words[0], words[1], words[2], words[3], "?"))
                self.device_models[(cell.name, words[0])] = words[5]
            elif cell is not None and words[0][0] == "x":
                words = [word for word in words if word != "/"]
                cell.instances.append(Instance(words[0], words[1:-1], words[-1]))
            elif cell is not None or words[0] in (".include", ".model"):
                raise NotRead(" ".join(words))

    def read_models(self, text):
        """The models."""
        model = None
        for words in cards(text, r"#.*", "\\"):
            first, rest = words[0], words[1:]
            if first == ".model":
                model = self.design.models[rest[0]] = Model(rest[0], [], [])
            elif first in (".inputs", ".clock"):
                model.inputs += [name for name in rest if name not in model.inputs]
                model.clocks += rest if first == ".clock" else []
            elif first == ".outputs":
                model.outputs += rest
            elif first == ".exdc":
                model.network = []
            elif first == ".names":
                covers = model.covers if model.network is None else model.network
                covers.append(Cover(rest[:-1], rest[-1], []))
            elif first == ".latch":
                kind, control = rest[2:4] if len(rest) > 3 else ("re", "NIL")
                model.latches.append(Latch(rest[0], rest[1], kind, None if control == "NIL" else control))
            elif first == ".subckt":
                model.submodels.append(SubModel(rest[0], dict(tie.split("=", 1) for tie in rest[1:])))
            elif not first.startswith("."):
                covers[-1].rows.append(first if rest else "")
                covers[-1].value = int(words[-1])
            elif first != ".end":
                raise NotRead(" ".join(words))

    def read_rule(self, words):
        """A line of the rules."""
        read = getattr(self, f"read_{words[0]}", None)
        if read is None:
            raise NotRead(" ".join(words))
        read(*words[1:])

    def read_scale(self, scale):
        """The scale of levels and sizes."""
        self.design.rules.scale = int(scale)

    def read_supply(self, value, *nets):
        """The supplies have fixed names."""
        if any(SUPPLIES.get(net) != int(value) for net in nets):
            raise NotRead(f"supply {value} {nets}")

    def read_device(self, model, kind, level=None):
        """The kind and the level of a device model."""
        self.kinds[model] = (kind, USUAL_LEVELS[self.design.rules.scale] if level is None else int(level))

    def read_strength(self, cell, device, level):
        """The level of a device."""
        self.kinds[(cell, device)] = int(level)

    def read_clock(self, *names):
        """Clocks."""
        self.design.rules.clocks += names

    def read_phase(self, name, *bits):
        """A phase."""
        self.design.rules.phases.append(Phase(name, {clock: int(bit) for clock, bit in (pair.split("=") for pair in bits)}))

    def read_clockport(self, cell, port, clock):
        """A port that carries a clock."""
        self.design.rules.clock_ports[(cell, port)] = reference(clock)

    def read_defaultclock(self, clock):
        """The default clock."""
        self.design.rules.default_clock = clock

    def read_pair(self, cell, model):
        """The model of a cell, or none."""
        if model == "-":
            self.design.rules.skipped.add(cell)
        else:
            self.design.rules.pairs[cell] = model

    def read_port(self, cell, port, signal):
        """The signal of a port."""
        self.design.rules.ports[(cell, port)] = signal

    def read_hold(self, cell, net, size="1"):
        """A net that keeps its charge."""
        self.design.rules.holds[(cell, net)] = int(size)

    def read_keeper(self, cell, *devices):
        """Devices that keep a value."""
        self.design.rules.keepers.update((cell, device) for device in devices)

    def read_match(self, cell, name, element):
        """A net or an element inside that stands for an element."""
        if ":" in name:
            self.design.rules.instance_matches[(cell, *name.split(":", 1))] = reference(element)
        else:
            self.design.rules.matches[(cell, name)] = reference(element)

    def read_enter(self, cell, phase, net, bit):
        """The constant with which a net enters a phase."""
        self.design.rules.enters[(cell, phase, net)] = int(bit)

    def read_observe(self, cell, port, *phases):
        """The phases in which an output is compared."""
        self.design.rules.observed[(cell, port)] = list(phases)

    def read_assume(self, cell, phase, *words):
        """What a cell assumes."""
        tokens = re.findall(r"[!&^|()]|[^\s!&^|()]+", " ".join(words)) + ["end"]
        self.design.rules.assumes.append((cell, None if phase == "*" else phase, expression(tokens, 0)))

    def finish(self):
        """Kinds and levels of the devices, and the one phase where none is declared."""
        if not self.design.rules.phases:
            self.design.rules.phases.append(Phase("all", dict.fromkeys(self.design.rules.clocks, 0)))
        for cell in self.design.cells.values():
            for device in cell.devices:
                model = self.device_models[(cell.name, device.name)]
                if model not in self.kinds:
                    raise NotRead(f"device {model}")
                device.kind, device.level = self.kinds[model]
                device.level = self.kinds.get((cell.name, device.name), device.level)


# The operators that take two expressions, the weakest first.
OPERATORS = "|^&"


def expression(tokens, strength):
    """The expression at the front of tokens, which are taken off: its operators bind at least so strongly."""
    if strength == len(OPERATORS):
        token = tokens.pop(0)
        if token == "!":
            return Expression("!", (expression(tokens, strength),))
        if token == "(":
            inner = expression(tokens, 0)
            tokens.pop(0)
            return inner
        return Expression("port", (token,))
    left = expression(tokens, strength + 1)
    while tokens[0] == OPERATORS[strength]:
        tokens.pop(0)
        left = Expression(OPERATORS[strength], (left, expression(tokens, strength + 1)))
    return left


def read_design(folder, words=("c.sp", "m.blif", "r.txt")):
    """The design of the three files of a folder."""
    return Reader(*[(folder / name).read_text(encoding="latin-1") for name in words]).design
