"""Scale 16: designs of scale 8 carried to it by levels and sizes that keep their order and the defaults, and designs with more levels than scale 8 has."""

import copy

# The levels of devices and the sizes of charges at scale 16.
LEVELS = range(6, 15)
SIZES = range(1, 6)


def rising(random, numbers, kept, choices):
    """A number among the choices for each of these, in the same order, where one is kept as another."""
    below = [number for number in numbers if number < min(kept)]
    above = [number for number in numbers if number > min(kept)]
    least, most = [at for at in choices if at < kept[min(kept)]], [at for at in choices if at > kept[min(kept)]]
    taken = sorted(random.sample(least, len(below))) + sorted(random.sample(most, len(above)))
    return {**kept, **dict(zip(below + above, taken))}


def carried(random, design):
    """A design of scale 8 with `scale 16` in front, and other levels and sizes in the same order: 6 and 1, which need no word, become 10 and 1."""
    design = copy.deepcopy(design)
    levels = rising(random, [4, 5, 6, 7], {6: 10}, LEVELS)
    sizes = rising(random, [1, 2, 3], {1: 1}, SIZES)
    design.rules.scale = 16
    for cell in design.cells.values():
        for device in cell.devices:
            device.level = levels[device.level]
    design.rules.holds = {key: sizes[size] for key, size in design.rules.holds.items()}
    return design


def spread(random, design):
    """The same with some levels and sizes drawn anew, from all that there are."""
    design = carried(random, design)
    for cell in design.cells.values():
        for device in cell.devices:
            if device.level != 10 and random.random() < 0.5:
                device.level = random.choice(LEVELS)
    for key in design.rules.holds:
        if random.random() < 0.4:
            design.rules.holds[key] = random.choice(SIZES)
    return design
