"""Hierarchies that are right by their construction, and then changed in no to three places, at any depth.

Each cell shows what its model says: always, or, where it has cells of charges or domino stages in it, in the phases in which these are
compared. The models of cells with instances are those of the instances tied together.
"""

from cells import CARRIED, domino_stage, empty, flip_flop, latch, pass_gate, port, static_gate, three_state, toggling_flip_flop
from circuits import Maker
from designs import SUPPLIES, Cover, Expression, Instance, Latch, Model, Reference, Rules
from held import CHARGES, LATCHES, held_port, held_port_of_charge, keep
from mixed import chain, two_outputs
from turns import TURNS, tidy, turn_assume, turn_enter, turn_feedback, turn_hold, turn_match, turn_supply, turn_write

PLAIN = [static_gate, chain, two_outputs, pass_gate, pass_gate]
UNCLOCKED = [*PLAIN, *LATCHES, latch, flip_flop, three_state]
CLOCKED = [*PLAIN, *LATCHES, *CHARGES, *CHARGES, *CHARGES, latch, flip_flop, toggling_flip_flop, domino_stage, domino_stage, held_port_of_charge]

def has_charges(drawing):
    """Whether a cell without a model keeps charges in several nets."""
    return drawing.is_skipped and len(drawing.holds) > 1


def has_supply_ties(drawing):
    """Whether an instance in a cell has a port that is a supply."""
    return any(net in SUPPLIES for instance in drawing.cell.instances for net in instance.nets)


# Changes, with the cells in which they are made where there are any.
CHANGES = [([turn_write, turn_write, turn_enter], has_charges)] * 5
CHANGES += [([turn_enter, turn_write], lambda drawing: drawing.enters and not drawing.is_skipped)] * 3
CHANGES += [([turn_enter], lambda drawing: has_charges(drawing) and drawing.enters)] * 2
CHANGES += [([turn_write, turn_match], lambda drawing: drawing.model.latches and not drawing.is_skipped)] * 3
CHANGES += [([turn_feedback], lambda drawing: drawing.keepers), ([turn_hold], lambda drawing: drawing.holds)]
CHANGES += [([turn_supply], has_supply_ties)] * 2
CHANGES += [([turn_assume], lambda drawing: drawing.assumes), (TURNS, lambda drawing: drawing.cell.instances), (TURNS, lambda drawing: drawing.model)]


class Wires:
    """The wires of a cell of instances, and in which phases each of them is what its model says; None says in all."""

    def __init__(self, inputs):
        self.right_in = dict.fromkeys(inputs)

    def unrestricted(self):
        """Those that are always right."""
        return [wire for wire, phases in self.right_in.items() if phases is None]

    def common(self, wires):
        """The phases in which all of some wires are right, or None for all phases."""
        sets = [set(self.right_in[wire]) for wire in wires if self.right_in.get(wire) is not None]
        return sorted(set.intersection(*sets)) if sets else None


class RightMaker(Maker):
    """Makes one design."""

    def __init__(self, random):
        super().__init__(random)
        self.drawings = {}
        self.design.globals = []

    def make(self):
        """Two to four cells without instances, then one to three with instances, then the changes."""
        is_clocked = bool(self.design.rules.clocks)
        for number in range(self.random.randrange(2, 5)):
            drawing = self.random.choice(CLOCKED if is_clocked else UNCLOCKED)(self.random, f"g{number}", self.design.rules.phases)
            self.assume_of_clock(drawing)
            self.add(drawing)
        if is_clocked and self.chance(0.5):
            self.add_meeting()
        for number in range(self.random.randrange(1, 4)):
            for _ in range(6):
                drawing = self.tied(f"h{number}")
                if drawing and self.add(drawing):
                    break
        for _ in range(self.random.choice([0, 1, 2, 2, 3, 3])):
            self.change()
        return self.design

    def add(self, drawing):
        """Adds a cell, with a model that is simulated where it has none, unless it is too large; whether it was added."""
        if self.chance(0.15):
            drawing.cell.ports += list(SUPPLIES)
        if not self.entered(drawing):
            return False
        if drawing.model is None:
            drawing.model = self.simulated_model(drawing)
        self.drawings[drawing.cell.name] = drawing
        self.rebuild()
        return True

    def assume_of_clock(self, drawing):
        """Adds now and then that an input is 1 where the clock is, or where it is not, or the like."""
        if drawing.clocks and drawing.inputs and self.chance(0.2):
            left, right = port(drawing.inputs[0]), port(next(iter(drawing.clocks)))
            right = Expression("!", (right,)) if self.chance(0.5) else right
            drawing.assumes.append((None, Expression(self.random.choice("|^"), (left, right))))

    def rebuild(self):
        """Puts all cells into an empty design, in their order."""
        rules = self.design.rules
        self.design.rules = Rules(rules.clocks, rules.phases)
        self.design.cells.clear()
        self.design.models.clear()
        for name, drawing in self.drawings.items():
            self.enter(drawing)
            if drawing.is_skipped:
                self.design.rules.skipped.add(name)

    def change(self):
        """Changes one thing of one cell; it is taken back where a cell becomes too large."""
        turns, able = self.random.choice(CHANGES)
        drawings = [drawing for drawing in self.drawings.values() if able(drawing)] or list(self.drawings.values())
        drawing = self.random.choice(drawings)
        self.random.choice(turns)(self.random, drawing)
        tidy(drawing)
        self.rebuild()
        if not all(self.is_small(drawing) for drawing in self.drawings.values()):
            drawing.holds.clear()
            tidy(drawing)
            self.rebuild()

    def tied(self, name):
        """A cell of one to three instances, each behind those before it, or None where no phase is left to compare it in.

        Cells of charges are taken more often, since nothing else shows what they do.
        """
        drawing = empty(name, ["a", "b", "c"][: self.random.choice([2, 2, 3])], [])
        weights = [3 if has_charges(inner) else 1 for inner in self.drawings.values()]
        chosen = self.random.choices(list(self.drawings), weights, k=self.random.choice([1, 1, 2, 2, 3]))
        ports = {port for cell in chosen for port in self.design.rules.clocks_of(cell)}
        drawing.clocks = {clock: CARRIED[clock] for clock in CARRIED if clock in ports}
        drawing.cell.ports += list(drawing.clocks)
        wires = Wires(drawing.inputs)
        for number, cell in enumerate(chosen):
            drawing.cell.instances.append(self.placed(drawing, wires, f"x{number}", self.drawings[cell]))
        driven = list(wires.right_in)[len(drawing.inputs) :]
        drawing.outputs = self.random.sample(driven, min(len(driven), self.random.choice([1, 1, 2])))
        phases = wires.common(drawing.outputs)
        if not drawing.outputs or phases == []:
            return None
        drawing.cell.ports += drawing.outputs
        if phases is not None:
            drawing.observed = {output: phases for output in drawing.outputs}
        drawing.model = self.tied_model(drawing)
        for instance in drawing.cell.instances:
            self.say_again(drawing, instance)
            self.borrow_name(drawing, self.drawings[instance.cell])
        return drawing

    def placed(self, drawing, wires, name, inner):
        """An instance whose inputs are wires that are there; a latch takes none that is right in some phases alone."""
        assumed = {port for _, expression in inner.assumes for port in expression.ports()}
        own = self.random.sample(drawing.inputs, len(drawing.inputs))
        ties = {name: own.pop() if own else drawing.inputs[0] for name in inner.inputs if name in assumed}
        is_latch = bool(inner.model.latches or inner.model.submodels)
        sources = wires.unrestricted() if is_latch else list(wires.right_in)
        taken = []
        for port in inner.inputs:
            if port not in ties:
                ties[port] = self.random.choice(sources[-4:])
                taken.append(ties[port])
        phases = wires.common(taken)
        for port in inner.outputs:
            ties[port] = f"{name}{port}"
            own_phases = inner.observed.get(port)
            both = [set(one) for one in (phases, own_phases) if one is not None]
            wires.right_in[ties[port]] = sorted(set.intersection(*both)) if both else None
        for phase, expression in inner.assumes:
            drawing.assumes.append((phase, renamed(expression, ties)))
        return Instance(name, [ties.get(port, port) for port in inner.cell.ports], inner.cell.name)

    def say_again(self, drawing, instance):
        """Says of a net at an instance that it keeps its charge, which its cell says already: what is said here counts."""
        inner = self.drawings[instance.cell]
        net = dict(zip(inner.cell.ports, instance.nets)).get("s")
        is_wrapped = inner.is_skipped and inner.cell.instances
        if net is not None and (is_wrapped or ("s" in inner.holds and (inner.enters or self.chance(0.5)))):
            keep(self.random, drawing, net, net, False)
            if self.chance(0.5):
                drawing.instance_matches.pop((instance.name, "s"), None)

    def borrow_name(self, drawing, inner):
        """Gives what a cell of charges keeps now and then the name of a latch of a cell around it, which it is none of."""
        names = sorted({element.name for element in drawing.instance_matches.values()})
        if inner.is_skipped and not inner.model.latches and inner.matches and names and self.chance(0.6):
            name = self.random.choice(names)
            inner.matches = {net: Reference(name, element.inverted) for net, element in inner.matches.items()}

    def add_meeting(self):
        """Two or three instances at one net, each of which says that it keeps its charge; some of them are one cell further inside."""
        for number in range(2):
            make = self.random.choice([held_port, held_port_of_charge])
            if not self.add(make(self.random, f"k{number}", self.design.rules.phases)):
                return
        depths = [(f"k{number}", 1) for number in range(2)]
        if self.add(self.wrapped("kw", self.random.choice(["k0", "k1"]))):
            depths += [("kw", 2), ("kw", 2)]
        chosen = self.random.sample(depths, self.random.choice([2, 2, 3]) if len(depths) > 2 else 2)
        if self.chance(0.5):
            chosen.sort(key=lambda one: -one[1])
        self.add(self.meeting("m0", chosen))

    def instance_of(self, name, cell, ties):
        """An instance whose ports are tied to nets of their names, but for some."""
        return Instance(name, [ties.get(one, one) for one in self.design.cells[cell].ports], cell)

    def wrapped(self, name, inner):
        """A cell around another one, without a model."""
        drawing = empty(name, ["d"], ["s"], ["clk"])
        drawing.cell.instances.append(self.instance_of("x0", inner, {}))
        drawing.model = self.tied_model(drawing)
        drawing.instance_matches[("x0", "s")] = Reference("s")
        drawing.is_skipped = True
        return drawing

    def meeting(self, name, chosen):
        """A latch of instances at one net: the line counts of the least deep of them, and of one depth of the first, or one of its own."""
        drawing = empty(name, ["d"], ["y"], ["clk"])
        drawing.inverter("k", "y")
        for number, (cell, _) in enumerate(chosen):
            drawing.cell.instances.append(self.instance_of(f"x{number}", cell, {"s": "k"}))
        drawing.model = Model(name, ["d", "clk"], ["y"], [Cover(["q"], "y", ["0"])], [Latch("d", "q", "ah", "clk")])
        counts = min(range(len(chosen)), key=lambda number: chosen[number][1])
        inner = self.drawings["k0" if chosen[counts][0] == "kw" else chosen[counts][0]]
        if inner.enters or chosen[counts][0] == "kw" or self.chance(0.2):
            keep(self.random, drawing, "k", "q", False)
        for number in range(len(chosen)):
            if number == counts or self.chance(0.3):
                drawing.instance_matches[(f"x{number}", "s")] = Reference("q", number != counts)
        return drawing


def renamed(expression, ties):
    """An expression with other names of ports."""
    if expression.operator == "port":
        name = expression.operands[0]
        return Expression("port", (ties.get(name, name),))
    return Expression(expression.operator, tuple(renamed(operand, ties) for operand in expression.operands))
