"""Don't-care networks: of some models that are right where they are asked, and of others that are wrong there or somewhere else."""

import copy

from designs import Cover, SubModel
from named import elements_of


def rows_at(random, count):
    """Some rows of so many inputs."""
    return list(dict.fromkeys("".join(random.choice("01-") for _ in range(count)) for _ in range(random.choice([1, 1, 2]))))


def some_function(random, model, output):
    """A function of some of the inputs and clocks of a model, as a cover."""
    inputs = random.sample(model.inputs, min(len(model.inputs), random.choice([1, 2, 2, 3])))
    return Cover(inputs, output, rows_at(random, len(inputs)), random.choice([1, 1, 1, 0]))


def renamed(model, signal, name):
    """Gives a signal of a model another name, but for its interface: where it is driven, and where the model reads it."""

    def new(one):
        """The new name of a signal."""
        return name if one == signal else one

    model.covers = [Cover([new(one) for one in cover.inputs], new(cover.output), cover.rows, cover.value) for cover in model.covers]
    model.submodels = [SubModel(use.model, {formal: new(actual) for formal, actual in use.ties.items()}) for use in model.submodels]
    for latch in model.latches:
        latch.source, latch.control = new(latch.source), latch.control and new(latch.control)


def keeps(design, model):
    """Whether a model, or one in it, has a latch."""
    return bool(model.latches) or any(keeps(design, design.models[use.model]) for use in model.submodels)


def free_where_wrong(random, design, model):
    """Turns an output of the model where a function is 1, and frees it there, or at another function. A signal that may name a latch stays."""
    fixed = set(model.inputs).union(elements_of(model) if keeps(design, model) else ())
    outputs = [name for name in model.outputs if name not in fixed and model.outputs.count(name) == 1]
    if not outputs or not model.inputs:
        return
    output = random.choice(outputs)
    renamed(model, output, "right=")
    function = some_function(random, model, "freed=")
    model.covers += [function, Cover(["right=", "freed="], output, ["01", "10"])]
    freed = copy.deepcopy(function)
    freed.output = output
    model.network.append(freed if random.random() < 0.8 else some_function(random, model, output))


def free_at_random(random, design, model):
    """Frees outputs at functions of inputs, or at one of another name in the network."""
    for output in model.outputs:
        if output not in model.inputs and model.inputs and random.random() < 0.6:
            model.network.append(some_function(random, model, output))
    if model.network and random.random() < 0.4:
        cover = model.network[-1]
        inner = some_function(random, model, "inner=")
        value = random.choice(["0", "1"])
        model.network.append(inner)
        model.network[-2] = Cover([*cover.inputs, "inner="], cover.output, [row + value for row in cover.rows], cover.value)


def ring(random, design, model):
    """A cover of the network that reads itself."""
    if model.outputs and model.outputs[0] not in model.inputs:
        model.network.append(Cover([model.outputs[0]], model.outputs[0], ["1"]))


def nothing(random, design, model):
    """A network that frees no output."""
    if model.inputs and random.random() < 0.5:
        model.network.append(some_function(random, model, "inner="))


KINDS = [free_where_wrong] * 5 + [free_at_random] * 4 + [nothing] + [ring]


def add_networks(random, design):
    """Gives two thirds of the models a network. The rings are few, since nothing else is then told of the cell."""
    for model in design.models.values():
        if random.random() < 2 / 3:
            model.network = []
            kind = random.choice(KINDS)
            (kind if kind is not ring or random.random() < 0.4 else free_at_random)(random, design, model)


def without_networks(design):
    """The design without its networks."""
    design = copy.deepcopy(design)
    for model in design.models.values():
        model.network = None
    return design
