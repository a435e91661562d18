"""The lines of a rules file, and what they say of supplies, kinds, levels, holds and keepers, as docs/FORMATS.md says.

    rules = read_rules("r.txt")
    rules.supplies["vdd"], rules.holds("latch"), rules.level("latch", device)

Names are lowered as the program lowers them, but for models, signals and latches; the words of a line stand as they were written.
"""

import re
from typing import List, NamedTuple

from lib import tool
from lib.netlist import lowered


class Line(NamedTuple):
    """A line of the rules: its number and its words as written."""

    number: int
    words: List[str]

    @property
    def text(self):
        """The line, with one blank between its words."""
        return " ".join(self.words)


# The lines that name a cell behind their first word.
OF_A_CELL = {"strength", "clockport", "pair", "port", "hold", "keeper", "match", "enter", "observe", "assume"}


class Rules:
    """The lines of a rules file, with `supplies` (net: "0" or "1"), `kinds` (model: "n" or "p"), `clocks` and `phases` (name: bits), the `scale`,
    the `source_level` and the `usual_level` of a transistor."""

    def __init__(self, file, lines):
        self.file = file
        self.lines: List[Line] = lines
        self.scale, self.source_level, self.usual_level = 8, 8, 6
        self.supplies = {"0": "0"}
        self.kinds = {}
        self.levels = {}
        self.strengths = {}
        self.clocks = []
        self.phases = {}
        for line in lines:
            self._take(line, [lowered(word) for word in line.words])

    def _take(self, line, words):
        word = line.words[0]
        if word == "scale" and words[1:] == ["16"]:
            self.scale, self.source_level, self.usual_level = 16, 15, 10
        elif word == "supply":
            for net in words[2:]:
                self.supplies[net] = words[1]
        elif word == "device" and len(words) > 2:
            self.kinds[words[1]] = words[2]
            self.levels[words[1]] = int(words[3]) if words[3:] and words[3].isdigit() else self.usual_level
        elif word == "strength" and len(words) == 4 and words[3].isdigit():
            self.strengths[words[1], words[2]] = int(words[3])
        elif word == "clock":
            self.clocks += words[1:]
        elif word == "phase":
            self.phases[words[1]] = dict(bit.split("=", 1) for bit in words[2:] if "=" in bit)

    def of(self, word, cell):
        """The lines with this first word that name the cell."""
        return [line for line in self.lines if line.words[0] == word and len(line.words) > 1 and lowered(line.words[1]) == cell]

    def about(self, cell):
        """All lines that name the cell behind their first word."""
        return [line for line in self.lines if line.words[0] in OF_A_CELL and len(line.words) > 1 and lowered(line.words[1]) == cell]

    def kind(self, device, netlist):
        """The kind of a transistor, "n" or "p", by a `device` line or a `.model` card; None where neither says it."""
        return self.kinds.get(device.model) or netlist.kinds.get(device.model)

    def level(self, cell, device):
        """The level of a transistor of a cell, by name and model."""
        return self.strengths.get((cell, device.name), self.levels.get(device.model, self.usual_level))

    def holds(self, cell):
        """The held nets of a cell with their sizes."""
        return {lowered(line.words[2]): int((line.words + ["1"])[3]) for line in self.of("hold", cell) if len(line.words) > 2}

    def keepers(self, cell):
        """The keepers of a cell."""
        return {lowered(name) for line in self.of("keeper", cell) for name in line.words[2:]}

    def matches(self, cell):
        """What each held net of a cell is matched with, as written: net, or INST:LATCH, and then [!]LATCH."""
        found = {}
        for line in self.of("match", cell):
            if len(line.words) > 3:
                head, colon, latch = line.words[2].partition(":")
                found[lowered(head) + colon + latch] = line.words[3]
        return found

    def clock_ports(self, cell):
        """The ports of a cell that carry a clock, with the clock or its inverse, as [!]CLOCK."""
        return {lowered(line.words[2]): lowered(line.words[3]) for line in self.of("clockport", cell) if len(line.words) > 3}

    def signals(self, cell):
        """The signals of ports by `port` lines, as written."""
        return {lowered(line.words[2]): line.words[3] for line in self.of("port", cell) if len(line.words) > 3}

    def model(self, cell):
        """The model that a `pair` line gives a cell, as written; None where there is no such line."""
        return next((line.words[2] for line in self.of("pair", cell) if len(line.words) > 2), None)


def rules_of(text, file="-"):
    """The rules of a text."""
    lines = []
    for number, raw in enumerate(tool.lines_of(text), 1):
        words = [word for word in re.split("[ \t]+", raw) if word]
        if words and not words[0].startswith("#"):
            lines.append(Line(number, words))
    return Rules(file, lines)


def read_rules(path):
    """The rules of a file; one that cannot be read is refused with status 3."""
    return rules_of(tool.read(path), path)
