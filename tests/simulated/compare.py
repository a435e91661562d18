"""Compares what the program prints for random designs with what the simulator says, line by line.

usage: compare.py COUNT SEED [PROGRAM]     (without a program the definitions alone are compared with each other)
"""

import os
import subprocess
import sys
import tempfile
from collections import Counter
from itertools import zip_longest
from pathlib import Path
from random import Random

from budgets import USUAL_BUDGET
from cases import compare_cases
from counts import Counts
from designs import models_text, netlist_text, rules_text
from drawn import Words, random_design
from modes import class_lines, replay_lines
from modules import has_modules, modules_text
from networks import without_networks
from report import Report
from scales import carried
from verdicts import Comparison, PhaseCheck

FILES = ("c.sp", "m.blif", "r.txt")
MODULES = ("c.sp", "m.v", "r.txt")

# Words of lines that go by the form of the models: how many rows they have, and which of their signals comes first in a cycle.
FORMED = {"budget", "modelcycle"}

# For trials of the simulator alone: with this set to `flat` no instance is left whole, with `gates` those alone whose outputs meet gates
# alone; the program leaves also such whole whose outputs meet channels.
LEAVES_WHOLE = os.environ.get("SIMULATED") != "flat"
TELLS_LEVELS = os.environ.get("SIMULATED") != "gates"


def write_files(design, folder):
    """Writes the three files of a design."""
    for name, text in zip(FILES, (netlist_text(design), models_text(design), rules_text(design))):
        (folder / name).write_text(text, encoding="ascii")


def printed(program, words, folder, files=FILES):
    """The lines that the program prints for the files of a folder, and its exit status behind them."""
    run = subprocess.run([program, *words, *files], cwd=folder, capture_output=True, text=True, check=False)
    return run.stdout.splitlines() + [f"status {run.returncode}"]


def with_status(lines):
    """Lines of verdicts, and behind them the status: 1 where a cell has a fault, else 4 where one was not decided."""
    kinds = {line.split()[2] for line in lines}
    if kinds - {"equal", "skipped", "unsupported", "vacuous", "budget"}:
        return lines + ["status 1"]
    return lines + ["status 4" if kinds & {"unsupported", "vacuous", "budget"} else "status 0"]


def kind_of(line):
    """The verdict of a line, as it is counted: its word, and the cause behind `unsupported`."""
    words = line.split()
    return " ".join(words[2:4]) if words[2] == "unsupported" else words[2]


def keep_files(design, name):
    """Keeps the files of a design at which the lines differ, and returns their place."""
    kept = Path(tempfile.gettempdir()) / name
    kept.mkdir(exist_ok=True)
    write_files(design, kept)
    return kept


class Comparing:
    """Compares designs, and counts what was found."""

    def __init__(self, program):
        self.program = program
        self.counts = Counts()
        self.verdicts = Counter()
        self.wholes = Counter()
        self.replays = 0
        self.classed = 0  # designs of which the classes were compared
        self.written = 0  # designs whose models were written as modules too
        self.carried = 0  # designs that were carried to scale 16
        self.freed = 0  # cells that are equal by their networks alone
        self.wrong = 0  # designs for which the program prints other lines
        self.disagreeing = 0  # designs of which flat circuits and circuits with whole instances say different things

    def design(self, design, words, name, folder):
        """Compares what is printed for a design with what is simulated."""
        report = Report(design, LEAVES_WHOLE, TELLS_LEVELS, words.budget or USUAL_BUDGET)
        differences = []
        if self.program:
            write_files(design, folder)
            differences = self.differences(words.check(), with_status(report.lines), folder)
            if words.cell is not None:
                differences += self.replay(design, words, report, folder)
            if words.has_classes:
                differences += self.classes(design, report, folder)
            if has_modules(design):
                differences += self.modules(design, words, name, folder)
            if design.rules.scale == 8:
                differences += self.by_scale(design, words, name, folder)
            if any(model.network is not None for model in design.models.values()):
                differences += self.by_networks(design, words, folder)
        self.verdicts.update(kind_of(line) for line in report.lines)
        self.counts.add(design, report.lines)
        self.wholes.update(designs=report.with_wholes > 0, cells=report.with_wholes, exposed=report.exposed, moved=report.moved)
        if differences or report.wrong:
            print(f"design {name}, files in {keep_files(design, f'simulated-{name}')}")
            print("\n".join(differences + [f"    THE DEFINITIONS DISAGREE: {text}" for text in report.wrong]))
        self.wrong += bool(differences)
        self.disagreeing += bool(report.wrong)

    def differences(self, words, wanted, folder):
        """Where the program prints other lines than are wanted, or has another status; behind them the words that it was given."""
        pairs = zip_longest(printed(self.program, words, folder), wanted, fillvalue="")
        found = [f"    printed:   {line}\n    simulated: {other}" for line, other in pairs if line != other]
        return found + [f"    words: {' '.join(words)}"] if found and words else found

    def replay(self, design, words, report, folder):
        """The differences of a replay; of a cell that cannot be checked it prints the line of its verdict."""
        self.replays += 1
        line = next(line for line in report.lines if line.split()[1] == words.cell)
        if line.split()[2] in ("skipped", "unsupported"):
            return self.differences(words.replay({}), with_status([line]), folder)
        comparison = Comparison(design, words.cell)
        bits = words.bits(PhaseCheck(comparison, words.phase, words.phase).variable_names())
        wanted = replay_lines(comparison, words.phase, bits) + ["status 0"]
        return self.differences(words.replay(bits), wanted, folder)

    def classes(self, design, report, folder):
        """The differences of the classes of all parts; of a cell that cannot be checked the line of its verdict is printed."""
        self.classed += 1
        wanted, undecided = [], []
        for line in report.lines:
            _, cell, verdict = line.split()[:3]
            undecided += [line] if verdict in ("skipped", "unsupported") else []
            wanted += [line] if verdict in ("skipped", "unsupported") else class_lines(Comparison(design, cell))
        return self.differences(["--do", "classes"], wanted + with_status(undecided)[-1:], folder)

    def modules(self, design, words, name, folder):
        """The differences of a check by modules in Verilog from one by BLIF, where no line goes by the form of the models."""
        text = modules_text(design, Random(f"{name} modules"))
        (folder / MODULES[1]).write_text(text, encoding="ascii")
        lines, wanted = (printed(self.program, words.check(), folder, files) for files in (MODULES, FILES))
        if any(FORMED & set(line.split()) for line in lines + wanted):
            return []
        self.written += 1
        if lines == wanted:
            return []
        kept = Path(tempfile.gettempdir()) / f"simulated-{name}.v"
        kept.write_text(text, encoding="ascii")
        pairs = zip_longest(lines, wanted, fillvalue="")
        return [f"    by {kept}: {line}\n    by BLIF: {other}" for line, other in pairs if line != other]

    def by_scale(self, design, words, name, folder):
        """The differences of a check of the design carried to scale 16."""
        self.carried += 1
        other = carried(Random(f"{name} scale"), design)
        wanted = printed(self.program, words.check(), folder)
        write_files(other, folder)
        lines = printed(self.program, words.check(), folder)
        write_files(design, folder)
        if lines == wanted:
            return []
        pairs = zip_longest(lines, wanted, fillvalue="")
        kept = keep_files(other, f"simulated-{name}-16")
        return [f"    by {kept}: {line}\n    at scale 8: {other}" for line, other in pairs if line != other]

    def by_networks(self, design, words, folder):
        """Where the lines with networks are not those without as they may be: what is equal without is equal with, and of a cell without
        instances only a line that tells of an output may be another one."""
        lines = printed(self.program, words.check(), folder)
        write_files(without_networks(design), folder)
        others = printed(self.program, words.check(), folder)
        write_files(design, folder)
        pairs = [(line, other) for line, other in zip(lines[:-1], others[:-1]) if line != other and not FORMED & set(line.split())]
        self.freed += sum(kind_of(line) == "equal" for line, _ in pairs)
        wrong = [pair for pair in pairs if kind_of(pair[1]) == "equal" or self.is_flat(design, pair[1]) and kind_of(pair[1]) != "differs"]
        return [f"    with networks: {line}\n    without: {other}" for line, other in wrong]

    def is_flat(self, design, line):
        """Whether the cell of a line has no instances."""
        return not design.cells[line.split()[1]].instances

    def by_modules(self, design, words, name, folder):
        """Compares what is printed by modules with what is printed by BLIF alone, of a design that is not simulated."""
        write_files(design, folder)
        differences = self.modules(design, words, name, folder)
        if differences:
            print(f"design {name}, files in {keep_files(design, f'simulated-{name}')}")
            print("\n".join(differences))
        self.wrong += bool(differences)

    def print_counts(self, count):
        """Prints the counts; the last line says how many designs were compared."""
        self.counts.print()
        print("cells:")
        for verdict, times in sorted(self.verdicts.items()):
            print(f"{times:6} {verdict}")
        counts = [self.wholes[name] for name in ("designs", "cells", "exposed", "moved")]
        print("whole instances: {} designs, {} cells, {} of them with outputs at channels, {} with another first fault than the flat circuit".format(*counts))
        print(f"modules: {self.written} designs with the models in Verilog too")
        print(f"scales: {self.carried} designs carried to scale 16; networks: {self.freed} cells that are equal by them alone")
        if self.disagreeing:
            print(f"simulated: THE DEFINITIONS DISAGREE on flat circuits and whole instances in {self.disagreeing} designs")
        told = f"{self.wrong} of them not as simulated" if self.wrong else "all as simulated"
        print(f"simulated: {count} designs, {self.verdicts.total()} cells, {self.replays} replays, {self.classed} of classes, {told}")


def compare(count, seed, program):
    """Compares the designs of a seed; the exit status: 2 where the definitions disagree, 1 where other lines are printed."""
    comparing = Comparing(program)
    are_cases_right = compare_cases()
    with tempfile.TemporaryDirectory() as place:
        for number in range(count):
            design = random_design(seed, number)
            comparing.design(design, Words(seed, number, design), f"{seed}-{number}", Path(place))
        number = count
        while program and 3 * comparing.written < count and number < 4 * count:
            design = random_design(seed, number)
            if has_modules(design):
                comparing.by_modules(design, Words(seed, number, design), f"{seed}-{number}", Path(place))
            number += 1
    comparing.print_counts(count)
    if comparing.disagreeing:
        return 2
    return 1 if comparing.wrong or not comparing.verdicts or not are_cases_right else 0


if __name__ == "__main__":
    sys.exit(compare(int(sys.argv[1]), int(sys.argv[2]), sys.argv[3] if len(sys.argv) > 3 else None))
