"""Random designs: a few cells of the usual kinds, cells of instances of these, and a model for each, most of them nearly right.

A model without latches is what the circuit itself shows where it is simulated, or the models of the instances tied together; then
one or two things of the circuit, the rules or the model may be turned. The same seed and number give the same design.
"""

from itertools import product

from cells import CARRIED, CLOCKED, UNCLOCKED, empty, port
from designs import SUPPLIES, Cover, Design, Expression, Instance, Model, Phase, Reference, Rules, SubModel
from flat import flat_model
from mixed import PLAIN, add_driver, add_load, add_race, rename
from simulator import Cycle
from turns import TURNS, tidy
from verdicts import Comparison, PhaseCheck

# The name of the global net of a design that has one.
GLOBAL_NET = "glob"

# A cell with more is drawn anew, so that all its valuations can be tried.
MOST_VARIABLES = 7
MOST_NETS = 40


def merged(rows):
    """The rows with pairs that differ in one place put together, while there are any."""
    rows = list(rows)
    for left in rows:
        for right in rows:
            differ = [at for at in range(len(left)) if left[at] != right[at]]
            if len(differ) == 1 and left < right:
                rest = [row for row in rows if row not in (left, right)]
                return merged(rest + [left[: differ[0]] + "-" + left[differ[0] + 1 :]])
    return rows


class Maker:
    """Makes one design."""

    def __init__(self, random):
        self.random = random
        self.is_plain = self.chance(0.5)  # the inner cells are such as may be left whole, and most of them nothing is turned in
        self.design = Design(rules=self.clocked_rules(), globals=[GLOBAL_NET] if self.chance(0.25) else [])

    def chance(self, share):
        """True in this share of the cases."""
        return self.random.random() < share

    def clocked_rules(self):
        """No clock, or one with two phases, or two with three phases."""
        clocks = self.random.choice([[], [], ["phi"], ["phi"], ["phi"], ["phi", "psi"]])
        if not clocks:
            return Rules()
        if len(clocks) == 1:
            return Rules(clocks, [Phase("low", {"phi": 0}), Phase("high", {"phi": 1})])
        bits = [(0, 0), (1, 0), (0, 1)]
        return Rules(clocks, [Phase(f"p{number}", dict(zip(clocks, values))) for number, values in enumerate(bits)])

    def make(self):
        """Two to four cells without instances, then one to three with instances."""
        names = [f"g{number}" for number in range(self.random.randrange(2, 5))]
        for name in names:
            kinds = CLOCKED if self.design.rules.clocks else UNCLOCKED
            kinds = PLAIN if self.is_plain and self.chance(0.85) else kinds
            self.add(self.random.choice(kinds)(self.random, name, self.design.rules.phases))
        for number in range(self.random.randrange(2 if self.is_plain else 1, 4)):
            for _ in range(10):
                if self.add(self.composite(f"h{number}")):
                    break
        return self.design

    def add(self, drawing):
        """Finishes a cell and adds it, unless it is too large; whether it was added."""
        if self.design.globals and drawing.cell.inner_nets() and self.chance(0.4):
            rename(drawing, self.random.choice(drawing.cell.inner_nets()), GLOBAL_NET)
        self.add_rules(drawing)
        if not self.entered(drawing):
            return False
        if drawing.model is None:
            drawing.model = self.simulated_model(drawing)
        self.withdraw(drawing.cell.name)
        is_kept = self.is_plain and self.chance(0.4 if drawing.cell.instances else 0.7)
        for _ in range(0 if is_kept else self.random.choice([0, 0, 0, 1, 1, 2])):
            self.random.choice(TURNS)(self.random, drawing)
        if not self.entered(drawing):
            return False
        if drawing.is_skipped or self.chance(0.05):
            self.design.rules.skipped.add(drawing.cell.name)
        return True

    def add_rules(self, drawing):
        """Adds now and then an `assume`, a `hold`, an `enter` or an `observe` line, or the supplies among the ports."""
        if drawing.inputs and self.chance(0.1):
            drawing.assumes.append((self.some_phase(), self.some_expression(drawing.inputs)))
        nets = drawing.outputs + drawing.cell.inner_nets()
        if drawing.cell.instances and nets and self.chance(0.2):
            drawing.holds[self.random.choice(nets)] = self.random.choice([1, 2, 3])
        if drawing.holds and self.chance(0.07):
            phase = self.random.choice(self.design.rules.phases)
            drawing.enters[(phase.name, self.random.choice(sorted(drawing.holds)))] = self.random.choice([0, 1])
        if drawing.outputs and self.chance(0.07):
            phases = [phase.name for phase in self.design.rules.phases if self.chance(0.6)]
            if phases:
                drawing.observed[self.random.choice(drawing.outputs)] = phases
        if self.chance(0.15):
            drawing.cell.ports += list(SUPPLIES)

    def entered(self, drawing):
        """Puts a cell into the design, and takes it out again if it is too large; whether it is there."""
        tidy(drawing)
        self.enter(drawing)
        if self.is_small(drawing):
            return True
        self.withdraw(drawing.cell.name)
        return False

    def some_phase(self):
        """A phase, or none for all."""
        return self.random.choice([None] + [phase.name for phase in self.design.rules.phases])

    def some_expression(self, inputs):
        """An operation on two inputs, one of which may be inverted."""
        left, right = port(self.random.choice(inputs)), port(self.random.choice(inputs))
        if self.chance(0.5):
            left = Expression("!", (left,))
        return Expression(self.random.choice("|||&^"), (left, right))

    def enter(self, drawing):
        """Puts a cell with its model and its rules into the design."""
        name, rules = drawing.cell.name, self.design.rules
        self.design.cells[name] = drawing.cell
        self.design.models[name] = drawing.model or Model(name, drawing.inputs, [])
        rules.clock_ports.update({(name, clock): carried for clock, carried in drawing.clocks.items()})
        rules.holds.update({(name, net): size for net, size in drawing.holds.items()})
        rules.keepers.update((name, device) for device in drawing.keepers)
        rules.matches.update({(name, net): element for net, element in drawing.matches.items()})
        rules.instance_matches.update({(name, *inner): element for inner, element in drawing.instance_matches.items()})
        rules.enters.update({(name, *key): bit for key, bit in drawing.enters.items()})
        rules.observed.update({(name, output): phases for output, phases in drawing.observed.items()})
        rules.assumes += [(name, phase, expression) for phase, expression in drawing.assumes]

    def withdraw(self, name):
        """Takes a cell with its model and its rules out of the design."""
        self.design.cells.pop(name)
        self.design.models.pop(name)
        rules = self.design.rules
        for table in (rules.clock_ports, rules.holds, rules.matches, rules.instance_matches, rules.enters, rules.observed):
            for key in [key for key in table if key[0] == name]:
                del table[key]
        rules.keepers = {key for key in rules.keepers if key[0] != name}
        rules.assumes = [assumed for assumed in rules.assumes if assumed[0] != name]

    def is_small(self, drawing):
        """Whether the cell has few variables and nets."""
        comparison = Comparison(self.design, drawing.cell.name)
        free = sum(group.element is None for group in comparison.groups)
        count = len(comparison.inputs) + len(comparison.model.elements()) + free
        return count <= MOST_VARIABLES and len(comparison.circuit.names) <= MOST_NETS

    def simulated_model(self, drawing):
        """The model whose outputs are what the circuit shows, in the last phase in which they are observed."""
        model = Model(drawing.cell.name, drawing.inputs, drawing.outputs)
        self.design.models[drawing.cell.name] = model
        observed = [phases[-1] for phases in drawing.observed.values()] or [self.design.rules.phases[-1].name]
        phase = next(phase for phase in self.design.rules.phases if phase.name == observed[0])
        comparison = Comparison(self.design, drawing.cell.name)
        shown = self.shown(comparison, phase)
        for output in drawing.outputs:
            value = self.random.choice([0, 1, 1])
            rows = ["".join(map(str, bits)) for bits, nets in shown.items() if nets[output] == value]
            rows = merged(rows) if self.chance(0.5) else rows
            model.covers.append(Cover(list(drawing.inputs), output, rows, value))
        return model

    def shown(self, comparison, phase):
        """For each valuation of the inputs the bits of the outputs; a bit at random where an output shows none."""
        shown = {}
        try:
            check = PhaseCheck(comparison, phase, phase)
        except Cycle:
            check = None
        for _, setting in check.settings() if check else []:
            bits = {**check.in_phase.known, **setting.inputs}
            next(check.solved_faults(setting, bits), None)
            inputs = tuple(setting.inputs.values())
            outputs = {name: bits.get(net, self.random.choice([0, 1])) for name, net in comparison.outputs.items()}
            shown.setdefault(inputs, outputs)
        for inputs in product((0, 1), repeat=len(comparison.inputs)):
            shown.setdefault(inputs, {name: self.random.choice([0, 1]) for name in comparison.outputs})
        return shown

    def composite(self, name):
        """A cell of instances of cells that are there. Each takes inputs, clocks, or outputs of those before it.

        The outputs of an instance without a model may be read by none: what it holds is then seen by no output. There may be
        devices at the inputs and the outputs of the instances.
        """
        inputs = ["a", "b", "c"][: self.random.choice([2, 2, 3])]
        weights = [3 if self.is_plain and cell.instances else 1 for cell in self.design.cells.values()]
        chosen = self.random.choices(list(self.design.cells), weights, k=self.random.choice([1, 2, 2, 3]))
        chosen += chosen[: self.chance(0.25)]
        carried = {port for cell in chosen for port in self.design.rules.clocks_of(cell)}
        clocks = [clock for clock in CARRIED if clock in carried]
        drawing = empty(name, inputs, [], clocks)
        wires = list(inputs)
        has_devices = self.chance(0.5 if self.is_plain else 0.2)
        for _ in range(self.random.choice([0, 1, 1, 2]) if has_devices else 0):
            add_driver(self.random, drawing, wires)
        for number, cell in enumerate(chosen):
            is_unread = cell in self.design.rules.skipped and self.chance(0.7)
            instance = self.instance(f"x{number}", cell, list(wires) if is_unread else wires, clocks)
            drawing.cell.instances.append(instance)
        for _ in range(self.random.choice([1, 2, 3, 4]) if has_devices else 0):
            add_load(self.random, drawing, wires)
        drawing.outputs = self.chosen_outputs(drawing, wires, has_devices)
        drawing.cell.ports += drawing.outputs
        if self.can_tie_models(drawing):
            drawing.model = self.tied_model(drawing)
        return drawing

    def chosen_outputs(self, drawing, wires, has_devices):
        """The outputs of a cell of instances: some of its wires, mostly the last ones; now and then two that race."""
        outputs = wires[len(drawing.inputs) :]
        if has_devices and self.chance(0.5):
            self.random.shuffle(outputs)
        driven = [net for instance in drawing.cell.instances for net in self.driven(instance)]
        if driven and self.is_plain and self.chance(0.4):
            return add_race(self.random, drawing, wires, driven)
        return outputs[-self.random.choice([1, 1, 2]) :] if self.chance(0.8) else outputs[:1]

    def driven(self, instance):
        """The nets at the outputs of an instance."""
        return [net for net, formal in self.ties(instance) if formal in self.design.models[instance.cell].outputs]

    def instance(self, name, cell, wires, clocks):
        """An instance whose inputs are wires that are there, the later ones more often; its outputs are wires more."""
        nets = []
        for formal in self.design.cells[cell].ports:
            if formal in SUPPLIES or (cell, formal) in self.design.rules.clock_ports:
                nets.append(formal)
            elif formal in self.design.models[cell].outputs:
                nets.append(self.bus(cell, formal) or f"{name}{formal}")
            else:
                nets.append(self.input_wire(name, formal in self.design.cells[cell].mentioned_nets(), wires, clocks))
        formals = self.design.models[cell].outputs
        outputs = [net for net, formal in zip(nets, self.design.cells[cell].ports) if formal in formals]
        wires[:] = dict.fromkeys(wires + outputs)
        return Instance(name, nets, cell)

    def input_wire(self, name, is_needed, wires, clocks):
        """A wire for an input of an instance; now and then one of the next instance, so that gates may lead around.

        That is more often where no card inside names the input, so that only models lead around.
        """
        if self.is_plain and self.chance(0.04 if is_needed else 0.5):
            return f"{name[0]}{int(name[1:]) + 1}y"
        return self.random.choice(wires[-4:] + clocks[:1])

    def bus(self, cell, formal):
        """A net at which several outputs may drive, those that keep their charge more often; None for a net of its own."""
        return "bus" if self.chance(0.5 if (cell, formal) in self.design.rules.holds else 0.08) else None

    def can_tie_models(self, drawing):
        """Whether the models of the instances can be tied as the instances are: each takes what comes before it."""
        driven = list(drawing.inputs) + list(drawing.clocks)
        if drawing.cell.devices:
            return False
        for instance in drawing.cell.instances:
            model = self.design.models[instance.cell]
            if instance.cell in self.design.rules.skipped:
                return False
            if any(formal in model.inputs and net not in driven for net, formal in self.ties(instance)):
                return False
            driven += self.driven(instance)
        return len(driven) == len(set(driven)) and self.chance(0.9)

    def ties(self, instance):
        """The nets of an instance with the ports to which they are tied."""
        return list(zip(instance.nets, self.design.cells[instance.cell].ports))

    def tied_model(self, drawing):
        """The model of a cell of instances, from the models of these; its latches are said to be those of the instances."""
        model = Model(drawing.cell.name, drawing.inputs + list(drawing.clocks), drawing.outputs)
        for number, instance in enumerate(drawing.cell.instances):
            inner = self.design.models[instance.cell]
            ties = {formal: net for net, formal in self.ties(instance) if formal in inner.inputs + inner.outputs}
            model.submodels.append(SubModel(inner.name, ties))
            for element in flat_model(self.design, inner.name).elements():
                output, mark, _ = element.partition("#m")
                named = ties.get(output, f"{number}/{output}") + mark
                drawing.instance_matches[(instance.name, element)] = Reference(named)
        return model
