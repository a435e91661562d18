"""What is printed for a design: the line of each cell, with what was found of the cells before it."""

from budgets import MOST_TRIED, USUAL_BUDGET, literals, may_pass
from designs import SUPPLIES
from flat import flat_model
from rings import on_a_ring
from simulator import Cycle
from standing import Agreement
from verdicts import Comparison, PhaseCheck
from whole import Undetermined, known_cell, left_whole, meets_gates_alone, with_wholes


def supply_tie(design, cell, prefix=""):
    """The path of the first instance that ties a port named as a supply to another net than that supply, or None."""
    for instance in design.cells[cell].instances:
        path = prefix + instance.name
        ports = design.cells[instance.cell].ports
        if any(port in SUPPLIES and port != net for port, net in zip(ports, instance.nets)):
            return path
        inner = supply_tie(design, instance.cell, path + "/")
        if inner:
            return inner
    return None


def why_early(comparison):
    """Why a cell cannot be checked, in the order of the tests behind the ties of supplies and before the cycles, or None."""
    causes = [("ports", comparison.pairing.fault()), ("outputisinput", comparison.pairing.output_that_is_input())]
    causes += [("noclock", comparison.latch_without_clock()), ("unmatched", comparison.unmatched())]
    return next((f"{cause} {name}" for cause, name in causes if name is not None), None)


class Report:
    """The cells of a design, compared one by one, the inner ones first.

    A cell that was found equal and keeps nothing may be left whole in the cells above. What is equal is asked of the flat circuit
    too, and each fault that is found with instances left whole is to stand there.
    """

    def __init__(self, design, leaves_whole=True, tells_levels=False, budget=USUAL_BUDGET):
        self.design = design
        self.budget = budget
        self.leaves_whole = leaves_whole
        self.tells_levels = tells_levels  # so that instances may be left whole whose outputs meet channels
        self.known = {}  # cells that were found equal and keep nothing
        self.with_wholes = 0  # cells with an instance that is left whole
        self.exposed = 0  # cells with an output of such an instance that meets more than gates
        self.moved = 0  # cells whose first fault is another one in the flat circuit
        self.wrong = []  # where the circuit with whole instances and the flat circuit disagree
        self.lines = [self.line(cell) for cell in design.order()]

    def line(self, cell):
        """The line of a cell: the first cause for which it cannot be checked, else the first phase that is not equal."""
        if cell in self.design.rules.skipped:
            return f"cell {cell} skipped"
        if self.design.model_of(cell) is None:
            return f"cell {cell} unsupported nomodel"
        tied = supply_tie(self.design, cell)
        if tied:
            return f"cell {cell} unsupported supplytie {tied}"
        comparison = Comparison(self.design, cell)
        cause = why_early(comparison)
        return f"cell {cell} unsupported {cause}" if cause else self.compared(comparison)

    def compared(self, comparison):
        """The line of a cell for which all is there."""
        checks = []
        for phase, after in comparison.rules.turns():
            try:
                checks.append(PhaseCheck(comparison, phase, after))
            except Cycle as cycle:
                return f"cell {comparison.cell} unsupported cycle {comparison.circuit.names[cycle.net]} phase {phase.name}"
            signal = on_a_ring(comparison.model, comparison.carried(phase))
            if signal is not None:
                return f"cell {comparison.cell} unsupported modelcycle {signal} phase {phase.name}"
        wholes = left_whole(comparison, self.known) if self.leaves_whole else []
        if wholes:
            told = self.line_with_wholes(comparison, checks, wholes)
        else:
            told = next((line for line in map(self.phase_line, checks) if line), None)
        if told is None and not comparison.circuit.holds and not comparison.model.latches:
            self.known[comparison.cell] = known_cell(comparison, with_wholes(comparison, wholes), self.tells_levels)
        return told or f"cell {comparison.cell} equal"

    def phase_line(self, check):
        """The line of a phase, or None where it is equal. One with too many variables to be tried is to spend the budget, if it may."""
        comparison = check.comparison
        if check.variable_count() <= MOST_TRIED:
            return check.line()
        if not may_pass(comparison, self.model_size, len(check.variable_names()), self.budget):
            raise ValueError(f"cell {comparison.cell}: too many variables")
        return f"cell {comparison.cell} budget {self.budget} phase {check.phase.name}"

    def model_size(self, cell):
        """The literals, rows and latches of the model of a cell, if it has one."""
        model = None if cell in self.design.rules.skipped else self.design.model_of(cell)
        return literals(flat_model(self.design, model.name)) if model else 0

    def line_with_wholes(self, comparison, flat_checks, wholes):
        """The line of a cell with instances left whole, or None where it is equal."""
        self.with_wholes += 1
        checked = with_wholes(comparison, wholes)
        self.exposed += any(not meets_gates_alone(checked, output) for whole in wholes for output in whole.outputs())
        for flat_check in flat_checks:
            check = PhaseCheck(checked, flat_check.phase, flat_check.next_phase)
            agreement = Agreement(flat_check, check)
            try:
                line = check.line(agreement.watch)
            except Undetermined:
                line = None
                agreement.wrong.append("an output without a bit")
            self.wrong += [f"cell {comparison.cell} phase {check.phase.name}: {text}" for text in agreement.wrong[:3]]
            if line:
                self.moved += line != flat_check.line()
                return line
        return None
