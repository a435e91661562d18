"""Where the answer that the nodes do not suffice may come, as docs/FORMATS.md says under `--budget`."""

# The most variables of a phase whose valuations are all tried.
MOST_TRIED = 12

# The budget of the program where no word says another.
USUAL_BUDGET = 4_000_000


def literals(model):
    """The literals, rows and latches of a flat model."""
    covers = model.covers.values()
    return sum(len(row) - row.count("-") + 1 for cover in covers for row in cover.rows) + len(model.latches)


def operators_and_names(expression):
    """The operators and names of an expression."""
    if expression.operator == "port":
        return 1
    return 1 + sum(operators_and_names(operand) for operand in expression.operands)


def constraints_size(rules, cell):
    """The operators and names of what a cell assumes, in all phases."""
    return sum(operators_and_names(expression) for name, _, expression in rules.assumes if name == cell)


def enough(comparison, model_sizes, variables):
    """The nodes that always suffice for a phase: by its variables, and by the sizes of the flat circuit, the models and the constraints."""
    rules, circuit = comparison.rules, comparison.circuit
    nets, devices = len(circuit.names), len(circuit.devices)
    size = literals(comparison.model) + sum(model_sizes(instance.cell) for instance in circuit.instances)
    asked = constraints_size(rules, comparison.cell)
    for instance in circuit.instances:
        asked += constraints_size(rules, instance.cell) + len(rules.clocks_of(instance.cell))
    return 2 + 2**variables * (1000 * (nets + 1) * (nets + devices + 1) + 100 * (size + asked + 1))


def may_pass(comparison, model_sizes, variables, budget):
    """Whether a phase may need more nodes than the budget has."""
    return variables > 4 and enough(comparison, model_sizes, variables) > budget
