"""Counts of what is in the designs that are compared: kinds of lines of rules, and how holds meet in their cells."""

from collections import Counter

from designs import models_text, netlist_text, rules_text
from verdicts import Comparison, constant


def words_in(design):
    """The kinds of lines in the three files of a design."""
    kinds = set()
    for line in rules_text(design).splitlines():
        words = line.split()
        kind = words[0]
        if kind == "pair":
            kind += " -" if words[2] == "-" else " model"
        elif kind == "match":
            kind += " of an instance" if ":" in words[2] else " of a net"
        elif kind == "assume":
            kind += " in all phases" if words[2] == "*" else " in a phase"
        kinds.add(kind)
    kinds.update(line.split()[0] for line in netlist_text(design).splitlines() if line.startswith(".global"))
    for line in models_text(design).splitlines():
        words = line.split()
        if words[0] in (".clock", ".exdc"):
            kinds.add(words[0])
        elif words[0] == ".latch":
            is_controlled = len(words) == 6 and words[4] != "NIL"
            kinds.add(f".latch {words[3]}" if is_controlled else ".latch without a control")
    return kinds


def named_clocks(design):
    """Whether some cell assumes something of a clock port."""
    return any((cell, port) in design.rules.clock_ports for cell, _, expression in design.rules.assumes for port in expression.ports())


def rules_on_nets(design, comparison):
    """For each net on which `hold` lines fall the depths of these lines, in the order of the places."""
    found = {}
    for path, cell, nets in places(design, comparison):
        for (name, local), _ in design.rules.holds.items():
            if name == cell:
                found.setdefault(nets(local), []).append(len(path))
    return found


def places(design, comparison):
    """The cell and its instances: the path of each, its cell, and the flat net of a net there."""

    def nets_at(prefix, ports):
        """The flat net of a local name: of a port that to which it is tied, else the one with the path name."""
        names = {name: number for number, name in enumerate(comparison.circuit.names)}
        return lambda local: ports.get(local, names.get(local if local in design.globals else prefix + local))

    yield [], comparison.cell, nets_at("", comparison.circuit.ports)
    for instance in comparison.circuit.instances:
        yield instance.path.split("/"), instance.cell, nets_at(instance.path + "/", instance.ports)


def features_of(design, comparison):
    """How the holds of a cell meet."""
    features = set()
    several = [group for group in comparison.groups if group.element is None and len(group.holds) > 1]
    for group in several:
        features.add("several nets of one charge")
        if len({hold.is_inverted for hold in group.holds}) > 1:
            features.add("several nets of one charge, two polarities")
        for phase in comparison.rules.phases:
            if sum(constant(hold, phase) is not None for hold in group.holds) > 1:
                features.add("several nets of one charge, two enter lines")
    elements = comparison.model.elements()
    if any(group.holds[0].end[0] == "element" and group.element is None and group.holds[0].end[2] in elements for group in comparison.groups):
        features.add("inner latch of the name of a latch")
    for depths in rules_on_nets(design, comparison).values():
        if len(depths) > 1:
            features.add("several hold lines on a net")
            features |= {"hold lines of several depths on a net"} if len(set(depths)) > 1 else set()
            features |= {"hold lines on a net, the outermost not the first"} if depths[0] > min(depths) else set()
    return features


class Counts:
    """The counts, by designs."""

    def __init__(self):
        self.lines = Counter()
        self.features = Counter()

    def add(self, design, lines):
        """Counts a design, with the lines of its cells."""
        self.lines.update(words_in(design))
        found = {"assume of a clock port"} if named_clocks(design) else set()
        for line in lines:
            words = line.split()
            if words[2] not in ("skipped", "unsupported", "budget"):
                found |= features_of(design, Comparison(design, words[1]))
        self.features.update(found)

    def print(self):
        """Prints the tables, three counts on a line."""
        for title, counter in (("designs with lines", self.lines), ("designs with cells of", self.features)):
            print(f"{title}:")
            cells = [f"{times:6} {kind:36}" for kind, times in sorted(counter.items())]
            for at in range(0, len(cells), 3):
                print("".join(cells[at : at + 3]).rstrip())
