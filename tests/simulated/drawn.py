"""The random designs, and with which words the program is run for them. The same seed and number give the same design and words."""

from random import Random

from circuits import Maker
from hierarchies import RightMaker
from named import rename
from networks import add_networks
from scales import spread
from wide import wide_design


def random_design(seed, number):
    """The design of a number among those of a seed: of twenty one has a wide cell, and of the others two thirds are right but for changes.

    Of these, half have don't-care networks in two thirds of their models, and a quarter are of scale 16.
    """
    random = Random(f"{seed} {number}")
    if number % 20 == 7:
        return wide_design(random)
    design = (RightMaker if number % 3 else Maker)(random).make()
    rename(random, design)
    if random.random() < 0.5:
        add_networks(random, design)
    return spread(random, design) if random.random() < 0.25 else design


class Words:
    """How the program is run: the budget of a check, and which cell, phase and bits a replay is of."""

    def __init__(self, seed, number, design):
        random = Random(f"{seed} {number} words")
        self.budget = random.choice([None, None, 65536, 70000, 100000])
        if "wide" in design.cells:
            self.budget = random.choice([65536, 66000, 70000])
        self.cell = random.choice(list(design.cells)) if random.random() < 0.5 else None
        self.has_classes = self.cell is None and random.random() < 0.4
        self.phase = random.choice(design.rules.phases)
        self.random = random

    def check(self):
        """The words of a check before the files."""
        return [] if self.budget is None else ["--budget", str(self.budget)]

    def bits(self, names):
        """Bits for some of the variables of these names, for a replay; of two of one name the first has it."""
        return {name: self.random.choice([0, 1]) for name in dict.fromkeys(names) if self.random.random() < 0.8}

    def replay(self, bits):
        """The words of a replay before the files."""
        items = ",".join(f"{name}={bit}" for name, bit in bits.items())
        return ["--do", "replay", "--cell", self.cell, "--phase", self.phase.name, "--at", items]
