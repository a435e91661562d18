"""Other names, and clocks that no port brings: models and signals that `pair` and `port` lines name, `.clock` cards, the default clock.

None of this changes what a design means, but for the mistakes that are made now and then.
"""

from designs import Cover, Expression, Latch, SubModel
from pairing import Pairing, interface

# The kind of a latch whose control is inverse.
INVERSE = {"ah": "al", "al": "ah", "re": "fe", "fe": "re"}


def elements_of(model):
    """The signals of a model that name latches: its own, and such as may be tied to those of its sub-models."""
    named = {latch.output for latch in model.latches}
    return named.union(*(submodel.ties.values() for submodel in model.submodels))


def free_names(random, model, carried):
    """New names for some signals of an interface: in capital letters, with an index, of the clock that is carried, or those of two exchanged."""
    free = [signal for signal in interface(model) if signal not in elements_of(model)]
    names = {signal: random.choice([signal, signal.upper(), f"{signal}[0]", f"IN_{signal}"]) for signal in free}
    if len(free) > 1 and random.random() < 0.5:
        left, right = random.sample(free, 2)
        names[left], names[right] = right, left
    for signal, clock in carried.items():
        if signal in free and not clock.inverted and random.random() < 0.3 and clock.name not in names.values():
            names[signal] = clock.name
    taken = {name for cover in model.covers for name in [*cover.inputs, cover.output]} - set(free)
    return {signal: name for signal, name in names.items() if name not in taken}


def rename_signals(design, model, names):
    """Gives signals of a model other names, there and at the ties of its uses."""

    def new(signal):
        """The new name of a signal."""
        return names.get(signal, signal)

    model.inputs, model.outputs, model.clocks = ([new(one) for one in some] for some in (model.inputs, model.outputs, model.clocks))
    model.covers = [Cover([new(one) for one in cover.inputs], new(cover.output), cover.rows, cover.value) for cover in model.covers]
    model.latches = [
        Latch(new(latch.source), new(latch.output), latch.kind, latch.control and new(latch.control)) for latch in model.latches
    ]
    model.submodels = [SubModel(use.model, {formal: new(actual) for formal, actual in use.ties.items()}) for use in model.submodels]
    for other in design.models.values():
        for use in other.submodels:
            if use.model == model.name:
                use.ties = {new(formal): actual for formal, actual in use.ties.items()}


def add_port_lines(random, design, cell, pairs):
    """The `port` lines of a cell; mostly none where the names in small letters are the same, or where the signal has the name of a clock."""
    for port, signal in pairs.items():
        is_clock = (cell, port) in design.rules.clock_ports and signal in design.rules.clocks
        if not is_clock and (signal.lower() != port or random.random() < 0.2):
            design.rules.ports[(cell, port)] = signal


def rename_model(design, name, other):
    """Gives a model another name, there and at its uses."""
    models = {other if key == name else key: model for key, model in design.models.items()}
    design.models.clear()
    design.models.update(models)
    models[other].name = other
    for model in models.values():
        for use in model.submodels:
            use.model = other if use.model == name else use.model


def drop_controls(random, design, cell, model):
    """Leaves out the control of latches where it is the default clock, or its inverse, by the clock ports of the cell."""
    carried = Pairing(design, cell, model).carried
    for latch in model.latches:
        clock = carried.get(latch.control)
        if clock and clock.name == design.rules.default_clock and random.random() < 0.8:
            latch.control, latch.kind = None, INVERSE[latch.kind] if clock.inverted else latch.kind


def rename(random, design):
    """Other names in about half of the designs, and a default clock in about half of those with latches and clocks."""
    rules = design.rules
    if rules.clocks and random.random() < 0.5 and any(model.latches for model in design.models.values()):
        rules.default_clock = random.choice([rules.clocks[0], rules.clocks[0], rules.clocks[-1]])
    is_named = random.random() < 0.5
    for cell in design.cells:
        model = design.models[cell]
        if rules.default_clock:
            drop_controls(random, design, cell, model)
        if is_named and random.random() < 0.6:
            pairing = Pairing(design, cell, model)
            model.clocks = [signal for signal in pairing.carried if random.random() < 0.5]
            names = free_names(random, model, pairing.carried)
            rename_signals(design, model, names)
            add_port_lines(random, design, cell, {port: names.get(one, one) for port, one in pairing.signals.items() if one})
    for cell in list(design.cells):
        if is_named and random.random() < 0.3:
            other = random.choice([cell.upper(), f"M_{cell}"])
            rename_model(design, cell, other)
            if other.lower() != cell:
                rules.pairs[cell] = other
    if random.random() < 0.3:
        random.choice(MISTAKES)(random, design)


def drop_port(random, design):
    """A `port` line less."""
    if design.rules.ports:
        del design.rules.ports[random.choice(sorted(design.rules.ports))]


def other_signal(random, design):
    """A `port` line of another signal, or of none."""
    ports = design.rules.ports
    if ports:
        ports[random.choice(sorted(ports))] = random.choice(["nothing", random.choice(sorted(ports.values()))])


def drop_pair(random, design):
    """A `pair` line less."""
    if design.rules.pairs:
        del design.rules.pairs[random.choice(sorted(design.rules.pairs))]


def drop_clock(random, design):
    """No default clock."""
    design.rules.default_clock = None


def assume_never(random, design):
    """A cell that assumes what is never so, in all phases or in the last one."""
    pairs = [(cell, design.model_of(cell)) for cell in design.cells]
    ports = [(cell, port) for cell, model in pairs if model for port in Pairing(design, cell, model).inputs]
    if ports:
        cell, name = random.choice(ports)
        literal = Expression("port", (name,))
        never = Expression("&", (literal, Expression("!", (literal,))))
        design.rules.assumes.append((cell, random.choice([None, design.rules.phases[-1].name]), never))


def ring(random, design):
    """A cover of its own output."""
    covers = [cover for model in design.models.values() for cover in model.covers if cover.inputs]
    if covers:
        cover = random.choice(covers)
        cover.inputs = cover.inputs[:-1] + [cover.output]


def output_and_input(random, design):
    """An output that is an input too, of a model that no other one uses."""
    used = {use.model for model in design.models.values() for use in model.submodels}
    models = [model for model in design.models.values() if model.name not in used and model.inputs and not model.latches]
    if models:
        model = random.choice(models)
        model.outputs = model.outputs + [random.choice(model.inputs)]


MISTAKES = [drop_port, other_signal, ring, *[drop_pair] * 2, *[drop_clock] * 2, *[assume_never] * 2, *[output_and_input] * 2]
