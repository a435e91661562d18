"""Compares what the program writes of equal cells of random designs as BLIF models with what is to hold of it: the text is that of the definition, where
all valuations can be tried; it is read again, and with it in place of the models the cell is equal, by the program and by the simulator; and a cell is
refused for the first cause that there is.

usage: writing.py COUNT SEED PROGRAM
"""

import copy
import sys
import tempfile
from collections import Counter
from pathlib import Path

from compare import keep_files, printed, write_files
from drawn import random_design
from read import Reader
from report import Report
from verdicts import Comparison
from written import is_small, model_lines

WRITTEN = ("c.sp", "w.blif", "r.txt")


def models_of(text):
    """The models of a text."""
    reader = Reader.__new__(Reader)
    reader.design = copy.copy(Reader("t\n", "", "").design)
    reader.read_models(text)
    return reader.design.models


def is_refused(name):
    """Whether a name cannot be written."""
    return not name or name[0] == "=" or name[-1] == "\\" or any(sign == "#" or not "!" <= sign <= "~" for sign in name)


def cause_of(comparison):
    """Why a cell is not written, as far as its circuit and its names tell: none where neither stands in the way."""
    if comparison.circuit.holds:
        return "hold"
    if comparison.clock_nets:
        return "clock"
    model = comparison.design.model_of(comparison.cell)
    return "name" if any(map(is_refused, [model.name, *model.inputs, *model.clocks, *model.outputs])) else None


def differences(design, cell, program, folder, kinds):
    """What does not hold of the text of an equal cell, or of the line of its refusal."""
    lines = printed(program, ["--do", "blif", "--cell", cell], folder)
    comparison = Comparison(design, cell)
    cause = cause_of(comparison)
    told = lines[0].split()[2] if lines[0].startswith("blif ") else None
    kinds[told or "written"] += 1
    if told in ("budget", "large", "long") and cause is None:  # by counts of nodes and bytes, which are not simulated
        return [] if lines[-1] == "status 4" else [f"    printed: {lines}"]
    if told or cause:
        return [] if told == cause and lines[-1] == "status 4" else [f"    printed: {lines}, where the cause is {cause}"]
    wanted = model_lines(comparison) + ["status 0"] if is_small(comparison) else lines
    if lines != wanted:
        return [f"    printed: {lines}\n    wanted:  {wanted}"]
    text = "\n".join(lines[:-1]) + "\n"
    (folder / WRITTEN[1]).write_text(text, encoding="ascii")
    again = printed(program, ["--cell", cell], folder, WRITTEN)[-2]
    other = copy.copy(design)
    other.models = models_of(text)
    line = next(line for line in Report(other).lines if line.split()[1] == cell)
    wanted = f"cell {cell} equal"
    return [f"    read again: {found}" for found in (again, line) if found != wanted]


def writing(count, seed, program):
    """Compares so many cells; the exit status is 1 where something does not hold."""
    kinds, wrong, number = Counter(), 0, 0
    with tempfile.TemporaryDirectory() as place:
        folder = Path(place)
        while kinds.total() < count:
            design = random_design(seed, number)
            write_files(design, folder)
            equal = [line.split()[1] for line in printed(program, [], folder) if line.endswith(" equal")]
            for cell in equal:
                found = differences(design, cell, program, folder, kinds)
                if found:
                    wrong += 1
                    print(f"design {seed}-{number}, files in {keep_files(design, f'writing-{seed}-{number}')}, cell {cell}")
                    print("\n".join(found))
            number += 1
    print("cells written: " + ", ".join(f"{times} {kind}" for kind, times in sorted(kinds.items())))
    print(f"simulated: {kinds.total()} cells written, {f'{wrong} of them not' if wrong else 'all'} equal again or refused by their cause")
    return 1 if wrong else 0


if __name__ == "__main__":
    sys.exit(writing(int(sys.argv[1]), int(sys.argv[2]), sys.argv[3]))
