"""Cells and models with their instances unrolled: the flat circuit and the flat model of docs/MODEL.md."""

from dataclasses import dataclass, field

from designs import SOURCE_LEVELS, SUPPLIES, Cover, Latch


@dataclass(frozen=True)
class FlatDevice:
    """A device between flat nets, which are numbers. Its channel has no direction."""

    gate: int
    ends: tuple
    kind: str
    level: int
    is_keeper: bool
    within: tuple  # the numbers of the instances around it, the outermost first

    def conducts(self, bit):
        """An n-device conducts where its gate is 1, a p-device where it is 0."""
        return bit == (1 if self.kind == "n" else 0)


@dataclass(frozen=True)
class FlatHold:
    """A net that keeps its charge, and where its `match` lines lead: to an element of the model of a place, or to itself."""

    net: int
    size: int
    end: tuple  # ('net', number), or ('element', path, name)
    is_inverted: bool
    enters: tuple  # pairs of a phase's name and a bit


@dataclass
class FlatInstance:
    """An instance at any depth: its path, its cell, the flat net of each port, and the numbers of the instances around it."""

    path: str
    cell: str
    ports: dict
    within: tuple


@dataclass
class FlatCircuit:
    """A cell with all its instances unrolled."""

    names: list  # of the nets, by their numbers
    ports: dict  # the net of each port of the cell
    source: int  # the level of supplies, inputs and clock ports
    devices: list = field(default_factory=list)
    holds: dict = field(default_factory=dict)  # by net
    instances: list = field(default_factory=list)


class Unroller:
    """Numbers the nets: the supplies 0 and 1, the ports in their order, the global nets, then place by place the nets of its own.

    A place is the cell itself or one of its instances; each comes before those inside it, and all of these before the
    next card.
    """

    def __init__(self, design, cell):
        self.design = design
        self.depth_of_hold = {}
        self.circuit = FlatCircuit(names=["gnd", "vdd"], ports={}, source=SOURCE_LEVELS[design.rules.scale])
        for port in design.cells[cell].ports:
            self.circuit.ports[port] = SUPPLIES[port] if port in SUPPLIES else self.new_net(port)
        self.globals = {net: self.new_net(net) for net in design.globals if design.names_global(cell, net)}
        self.visit(design.cells[cell], [], self.circuit.ports, ())

    def new_net(self, name):
        """Numbers one net more."""
        self.circuit.names.append(name)
        return len(self.circuit.names) - 1

    def visit(self, cell, path, ports, within):
        """Unrolls a cell at a place; the path has the instance and the cell around it for each step inward."""
        nets = {**self.globals, **ports, **SUPPLIES}
        prefix = "".join(f"{instance}/" for instance, _ in path)
        for name in cell.inner_nets():
            if name not in self.globals:
                nets[name] = self.new_net(prefix + name)
        if path:
            self.circuit.instances.append(FlatInstance(prefix[:-1], cell.name, ports, within))
            within += (len(self.circuit.instances) - 1,)
        self.add_devices(cell, nets, within)
        self.add_holds(cell, path, nets)
        for instance in cell.instances:
            inner = self.design.cells[instance.cell]
            ties = dict(zip(inner.ports, (nets[name] for name in instance.nets)))
            self.visit(inner, path + [(instance.name, cell.name)], ties, within)

    def add_devices(self, cell, nets, within):
        """The devices of a place."""
        for device in cell.devices:
            is_keeper = (cell.name, device.name) in self.design.rules.keepers
            ends = (nets[device.drain], nets[device.source])
            self.circuit.devices.append(FlatDevice(nets[device.gate], ends, device.kind, device.level, is_keeper, within))

    def add_holds(self, cell, path, nets):
        """The holds of a place. Of two lines for one flat net that of the outer place counts, and else the earlier one."""
        rules = self.design.rules
        own = [(local, size) for (name, local), size in rules.holds.items() if name == cell.name]
        for local, size in own:
            net = nets[local]
            if len(path) >= self.depth_of_hold.get(net, len(path) + 1):
                continue
            self.depth_of_hold[net] = len(path)
            end, is_inverted = self.end_of(cell.name, local, path, net)
            lines = [(name, held, phase, bit) for (name, phase, held), bit in rules.enters.items()]
            enters = tuple((phase, bit) for name, held, phase, bit in lines if (name, held) == (cell.name, local))
            self.circuit.holds[net] = FlatHold(net, size, end, is_inverted, enters)

    def end_of(self, cell, local, path, net):
        """Follows the `match` lines of a hold from its own cell to the cells around, as far as they go."""
        rules = self.design.rules
        element = rules.matches.get((cell, local))
        if element is None:
            return ("net", net), False
        is_inverted = element.inverted
        path = list(path)
        while path:
            instance, around = path[-1]
            outer = rules.instance_matches.get((around, instance, element.name))
            if outer is None:
                break
            is_inverted ^= outer.inverted
            element = outer
            path.pop()
        return ("element", "/".join(instance for instance, _ in path), element.name), is_inverted


def flat_circuit(design, cell):
    """The flat circuit of a cell."""
    return Unroller(design, cell).circuit


@dataclass
class FlatModel:
    """A model with its sub-models unrolled: its own latches come first, then those of each sub-model in turn."""

    inputs: list
    outputs: list
    covers: dict = field(default_factory=dict)  # by output
    latches: dict = field(default_factory=dict)  # by output
    signals: dict = field(default_factory=dict)  # their names, in the order of their numbers
    free: dict = field(default_factory=dict)  # by output: the signal that is 1 where the output may have either value

    def elements(self):
        """The names of the storage elements: of an edge-triggered latch the master `q#m` and the slave `q`."""
        names = []
        for latch in self.latches.values():
            names += [f"{latch.output}#m"] if latch.kind in ("re", "fe") else []
            names.append(latch.output)
        return names

    def assignment(self, given, held):
        """The bit of each signal and the new bit of each element, from those of the inputs and the held bits."""
        return Assignment(self, given, held).complete()


def flat_model(design, name):
    """The flat model of a model; a signal of a sub-model that is tied to none has a path name."""
    top = design.models[name]
    listed = [signal for signal in top.inputs if signal not in top.clocks]
    flat = FlatModel(listed + top.clocks, top.outputs)

    def visit(model, prefix, ties):
        """Adds the covers and the latches of a model at its place, and of those in it."""

        def signal(local):
            """The flat name of a signal."""
            return ties.get(local, prefix + local)

        flat.signals.update(dict.fromkeys(signal(local) for local in mentioned(model)))
        for cover in model.covers:
            output = signal(cover.output)
            flat.covers[output] = Cover([signal(local) for local in cover.inputs], output, cover.rows, cover.value)
        for latch in model.latches:
            output = signal(latch.output)
            control = None if latch.control is None else signal(latch.control)
            flat.latches[output] = Latch(signal(latch.source), output, latch.kind, control)
        for number, submodel in enumerate(model.submodels):
            tied = {formal: signal(actual) for formal, actual in submodel.ties.items()}
            visit(design.models[submodel.model], f"{prefix}{number}/", tied)

    visit(top, "", {})
    add_network(flat, top)
    return flat


def add_network(flat, model):
    """Adds the don't-care network of the topmost model: its signals stand behind all others, and are none of the model's own but inputs."""
    covers = model.network or []
    driven = {cover.output for cover in covers}
    names = dict.fromkeys(name for cover in covers for name in [*cover.inputs, cover.output] if name in driven)
    flat.signals.update(dict.fromkeys(f"{name}#dc" for name in names))
    for cover in covers:
        inputs = [f"{name}#dc" if name in driven else name for name in cover.inputs]
        flat.covers[f"{cover.output}#dc"] = Cover(inputs, f"{cover.output}#dc", cover.rows, cover.value)
    flat.free = {output: f"{output}#dc" for output in model.outputs if output in driven}


def mentioned(model):
    """The signals of a model as they are first mentioned: its interface, then the covers, the latches and the ties of its sub-models."""
    names = [signal for signal in model.inputs if signal not in model.clocks] + model.clocks + model.outputs
    for cover in model.covers:
        names += [*cover.inputs, cover.output]
    for latch in model.latches:
        names += [latch.source, latch.output] + ([] if latch.control is None else [latch.control])
    for submodel in model.submodels:
        names += submodel.ties.values()
    return names


class Assignment:
    """Gives the signals of a model their bits, each as its cover or its latch asks for. The default clock is given as None."""

    def __init__(self, model, given, held):
        self.model = model
        self.held = held
        self.signals = dict(given)
        self.elements = {}

    def complete(self):
        """All signals that have a cover or a latch, and all elements."""
        for signal in list(self.model.covers) + list(self.model.latches):
            self.bit(signal)
        self.take_masters()
        return self.signals, self.elements

    def bit(self, signal):
        """The bit of a signal."""
        if signal not in self.signals:
            if signal in self.model.covers:
                self.signals[signal] = self.covered(self.model.covers[signal])
            else:
                self.signals[signal] = self.stored(self.model.latches[signal])
        return self.signals[signal]

    def covered(self, cover):
        """A cover has the value of its rows where one of them fits, and the other value else; without rows it is 0."""
        if not cover.rows:
            return 0
        bits = [self.bit(signal) for signal in cover.inputs]
        fits = any(all(mark in ("-", str(bit)) for mark, bit in zip(row, bits)) for row in cover.rows)
        return cover.value if fits else 1 - cover.value

    def stored(self, latch):
        """The new bit of a latch's last element: an element takes its input where it is transparent."""
        control = self.bit(latch.control)
        if latch.kind in ("ah", "al"):
            is_transparent = control == (1 if latch.kind == "ah" else 0)
            new = self.bit(latch.source) if is_transparent else self.held[latch.output]
        else:
            takes_input = control == (0 if latch.kind == "re" else 1)
            master = f"{latch.output}#m"
            self.elements[master] = self.held[master]
            new = self.held[latch.output] if takes_input else self.held[master]
        self.elements[latch.output] = new
        return new

    def take_masters(self):
        """The masters that take their input, which may hang at the output of their own latch, get its bit."""
        for latch in self.model.latches.values():
            if latch.kind in ("re", "fe") and self.bit(latch.control) == (0 if latch.kind == "re" else 1):
                self.elements[f"{latch.output}#m"] = self.bit(latch.source)
