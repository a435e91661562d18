"""Designs as data: a netlist of cells, a model for each, and the rules; and the three files that say them.

The forms of the files are those of docs/FORMATS.md: SPICE cards, the Berkeley Logic Interchange Format (University of
California, Berkeley, 1992), and lines of rules.
"""

from dataclasses import dataclass, field

# The two supplies; each has this name in every cell.
SUPPLIES = {"gnd": 0, "vdd": 1}

# The level of a device of which no line says another, and that of a supply, an input and a clock port, at each scale.
USUAL_LEVELS = {8: 6, 16: 10}
SOURCE_LEVELS = {8: 8, 16: 15}


@dataclass
class Device:
    """A transistor of a cell, by the names of its nets."""

    name: str
    drain: str
    gate: str
    source: str
    kind: str  # 'n' or 'p'
    level: int = USUAL_LEVELS[8]

    def nets(self):
        """The nets in the order in which its card names them."""
        return [self.drain, self.gate, self.source]


@dataclass
class Instance:
    """A use of a cell: its nets are tied to the ports of that cell, in their order."""

    name: str
    nets: list
    cell: str


@dataclass
class Cell:
    """A cell of the netlist."""

    name: str
    ports: list
    devices: list = field(default_factory=list)
    instances: list = field(default_factory=list)

    def mentioned_nets(self):
        """The nets that its cards name, each once: those of the devices, then those of the instances."""
        names = [net for device in self.devices for net in device.nets()]
        names += [net for instance in self.instances for net in instance.nets]
        return list(dict.fromkeys(names))

    def inner_nets(self):
        """The nets that are neither supplies nor ports, in the order in which the cards name them; global ones among them."""
        return [net for net in self.mentioned_nets() if net not in SUPPLIES and net not in self.ports]


@dataclass
class Cover:
    """A signal as a function of others: rows of `0`, `1` and `-`, all of the on-set or all of the off-set."""

    inputs: list
    output: str
    rows: list
    value: int = 1


@dataclass
class Latch:
    """A storage element (`ah`, `al`) or a master and a slave (`re`, `fe`), with its control, or with none: the default clock's bit."""

    source: str
    output: str
    kind: str
    control: str | None


@dataclass
class SubModel:
    """A use of a model: each formal signal is tied to a signal around it."""

    model: str
    ties: dict


@dataclass
class Model:
    """What a cell is meant to do."""

    name: str
    inputs: list
    outputs: list
    covers: list = field(default_factory=list)
    latches: list = field(default_factory=list)
    submodels: list = field(default_factory=list)
    clocks: list = field(default_factory=list)  # those of the inputs that a `.clock` card lists
    network: list | None = None  # the covers of its don't-care network, if it has one


@dataclass(frozen=True)
class Expression:
    """What an `assume` line asks for: a port, or `!`, `&`, `^` or `|` over expressions."""

    operator: str  # 'port', or the operator as it is written
    operands: tuple  # the name of the port, or the expressions

    def ports(self):
        """The ports that it names."""
        if self.operator == "port":
            return {self.operands[0]}
        return set().union(*(operand.ports() for operand in self.operands))

    def value(self, bits):
        """Its value, where each port has a bit."""
        if self.operator == "port":
            return bits[self.operands[0]]
        values = [operand.value(bits) for operand in self.operands]
        if self.operator == "!":
            return 1 - values[0]
        left, right = values
        return {"&": left & right, "^": left ^ right, "|": left | right}[self.operator]

    def text(self):
        """The expression as it is written, with parentheses around each operation."""
        if self.operator == "port":
            return self.operands[0]
        if self.operator == "!":
            return f"!{self.operands[0].text()}"
        left, right = self.operands
        return f"({left.text()} {self.operator} {right.text()})"


@dataclass(frozen=True)
class Reference:
    """A clock or a latch element by its name, or its inverse."""

    name: str
    inverted: bool = False

    def text(self):
        """The name as the rules write it."""
        return f"!{self.name}" if self.inverted else self.name


@dataclass
class Phase:
    """A phase, with a bit for each clock."""

    name: str
    bits: dict


@dataclass
class Rules:
    """What the netlist does not say. The keys are those that may not repeat in the file."""

    clocks: list = field(default_factory=list)
    phases: list = field(default_factory=lambda: [Phase("all", {})])
    default_clock: str | None = None
    skipped: set = field(default_factory=set)  # cells that have no model on purpose
    pairs: dict = field(default_factory=dict)  # cell: the name of its model, where it is another
    ports: dict = field(default_factory=dict)  # (cell, port): the name of its signal, where it is another
    clock_ports: dict = field(default_factory=dict)  # (cell, port): Reference
    holds: dict = field(default_factory=dict)  # (cell, net): size
    keepers: set = field(default_factory=set)  # (cell, device)
    matches: dict = field(default_factory=dict)  # (cell, net): Reference
    instance_matches: dict = field(default_factory=dict)  # (cell, instance, element): Reference
    enters: dict = field(default_factory=dict)  # (cell, phase, net): bit
    observed: dict = field(default_factory=dict)  # (cell, port): names of phases
    assumes: list = field(default_factory=list)  # (cell, name of a phase or None for all, Expression)
    scale: int = 8  # of levels and sizes, 8 or 16

    def turns(self):
        """Each phase with the one after it; the first follows the last."""
        return list(zip(self.phases, self.phases[1:] + self.phases[:1]))

    def assumed(self, cell, phase):
        """The expressions that a cell assumes in a phase."""
        return [text for name, named, text in self.assumes if name == cell and named in (None, phase.name)]

    def matched(self, cell):
        """What the `match` lines of a cell name, in the order in which they are written."""
        lines = list(self.matches.items()) + list(self.instance_matches.items())
        return [element for key, element in lines if key[0] == cell]

    def clocks_of(self, cell):
        """The clock ports of a cell, each with what it carries."""
        return {port: clock for (name, port), clock in self.clock_ports.items() if name == cell}

    def is_constrained(self, cell):
        """Whether a cell has an `assume` or a `clockport` line."""
        return any(name == cell for name, _, _ in self.assumes) or bool(self.clocks_of(cell))


@dataclass
class Design:
    """The three files: cells and models by their names, in the order of the files, and the rules."""

    cells: dict = field(default_factory=dict)
    models: dict = field(default_factory=dict)
    rules: Rules = field(default_factory=Rules)
    globals: list = field(default_factory=list)  # nets that are one in all cells in which they are no ports

    def depth(self, cell):
        """How deep a cell is: 1 without instances."""
        return 1 + max((self.depth(instance.cell) for instance in self.cells[cell].instances), default=0)

    def names_global(self, cell, net):
        """Whether a card of a cell, or of a cell in it, names a global net."""
        if net in self.globals and net in self.cells[cell].inner_nets():
            return True
        return any(self.names_global(instance.cell, net) for instance in self.cells[cell].instances)

    def model_of(self, cell):
        """The model of a cell: that of its `pair` line, else the one whose name in lower case is the cell's; None without one."""
        if cell in self.rules.pairs:
            return self.models.get(self.rules.pairs[cell])
        like = [model for model in self.models.values() if model.name.lower() == cell]
        return like[0] if len(like) == 1 else None

    def order(self):
        """The cells as their lines are printed: by depth, and of one depth in the order of the netlist."""
        return sorted(self.cells, key=self.depth)


def netlist_text(design):
    """The SPICE file of a design."""
    lines = ["* a random design"] + [f".global {net}" for net in design.globals]
    for cell in design.cells.values():
        lines.append(" ".join([".subckt", cell.name] + cell.ports))
        for device in cell.devices:
            bulk = "vdd" if device.kind == "p" else "gnd"
            lines.append(" ".join([device.name] + device.nets() + [bulk, f"{device.kind}fet"]))
        for instance in cell.instances:
            lines.append(" ".join([instance.name] + instance.nets + [instance.cell]))
        lines.append(".ends")
    return "\n".join(lines) + "\n"


def cover_lines(cover):
    """The lines of a cover; a row of a cover without inputs has its output alone."""
    lines = [" ".join([".names"] + cover.inputs + [cover.output])]
    return lines + [f"{row} {cover.value}".strip() for row in cover.rows]


def models_text(design):
    """The BLIF file of a design."""
    lines = []
    for model in design.models.values():
        inputs = [name for name in model.inputs if name not in model.clocks]
        lines += [f".model {model.name}", " ".join([".inputs"] + inputs), " ".join([".outputs"] + model.outputs)]
        lines += [f".clock {name}" for name in model.clocks]
        for latch in model.latches:
            controlled = f"{latch.kind} {latch.control or 'NIL'} "
            lines.append(f".latch {latch.source} {latch.output} {controlled if latch.control or latch.kind != 're' else ''}3")
        for submodel in model.submodels:
            ties = [f"{formal}={actual}" for formal, actual in submodel.ties.items()]
            lines.append(" ".join([".subckt", submodel.model] + ties))
        for cover in model.covers:
            lines += cover_lines(cover)
        if model.network is not None:
            lines.append(".exdc")
            for cover in model.network:
                lines += cover_lines(cover)
        lines.append(".end")
    return "\n".join(lines) + "\n"


def clock_lines(rules):
    """The lines of the scale, of supplies, devices, clocks and phases, which come first."""
    lines = [] if rules.scale == 8 else [f"scale {rules.scale}"]
    lines += ["supply 1 vdd", "supply 0 gnd", "device pfet p", "device nfet n"]
    if rules.clocks:
        lines.append(" ".join(["clock"] + rules.clocks))
        for phase in rules.phases:
            lines.append(" ".join(["phase", phase.name] + [f"{clock}={bit}" for clock, bit in phase.bits.items()]))
    if rules.default_clock:
        lines.append(f"defaultclock {rules.default_clock}")
    return lines


def held_lines(rules):
    """The lines of nets that keep a charge, and of what they keep."""
    lines = [f"hold {cell} {net} {size}" for (cell, net), size in rules.holds.items()]
    lines += [f"match {cell} {net} {element.text()}" for (cell, net), element in rules.matches.items()]
    for (cell, instance, inner), element in rules.instance_matches.items():
        lines.append(f"match {cell} {instance}:{inner} {element.text()}")
    lines += [f"enter {cell} {phase} {net} {bit}" for (cell, phase, net), bit in rules.enters.items()]
    return lines


def rules_text(design):
    """The file of rules of a design."""
    rules = design.rules
    lines = clock_lines(rules)
    lines += [f"clockport {cell} {port} {clock.text()}" for (cell, port), clock in rules.clock_ports.items()]
    lines += [f"pair {cell} -" for cell in sorted(rules.skipped)]
    lines += [f"pair {cell} {model}" for cell, model in rules.pairs.items() if cell not in rules.skipped]
    lines += [f"port {cell} {port} {signal}" for (cell, port), signal in rules.ports.items()]
    for cell in design.cells.values():
        for device in cell.devices:
            if device.level != USUAL_LEVELS[rules.scale]:
                lines.append(f"strength {cell.name} {device.name} {device.level}")
    lines += held_lines(rules)
    lines += [f"keeper {cell} {device}" for cell, device in sorted(rules.keepers)]
    for (cell, port), phases in rules.observed.items():
        lines.append(" ".join(["observe", cell, port] + phases))
    for cell, phase, expression in rules.assumes:
        lines.append(f"assume {cell} {phase or '*'} {expression.text()}")
    return "\n".join(lines) + "\n"
