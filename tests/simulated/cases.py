"""The acceptance cases, simulated: what is wanted of the program there is to be what the definitions say.

Those with other words than a check, a replay, arrival orders or the classes of all cells, with a refusal or with more variables than are tried are left out.
"""

from pathlib import Path

from arrivals import Arrivals
from budgets import MOST_TRIED
from modes import class_lines, replay_lines
from read import NotRead, read_design
from report import Report
from verdicts import Comparison, PhaseCheck

CASES = Path(__file__).parent.parent / "acceptance" / "cases"

FILES = ["c.sp", "m.blif", "r.txt"]

# The options before the files of a case that is simulated, in order.
OPTIONS = [[], ["--do"], ["--do", "--cell", "--phase"], ["--do", "--cell", "--phase", "--at"], ["--do", "--cell", "--phase", "--rise"]]


def options_of(folder):
    """The options of a case by their names, or None where it is not of the kind that is simulated."""
    words = [part for word in (folder / "words").read_text().split() for part in (word.split("=", 1) if word.startswith("--") else [word])]
    options = dict(zip(words[:-3:2], words[1:-3:2]))
    if words[-3:] != FILES or list(options) not in OPTIONS or (folder / "make").exists() or (folder / "output").exists():
        return None
    return options


def is_small(design, line):
    """Whether the cell of a line can be tried at all valuations, or need not be."""
    _, cell, verdict, *rest = line.split()
    if verdict in ("skipped", "unsupported"):
        return rest[:1] not in (["variables"], ["large"])
    comparison = Comparison(design, cell)
    return all(PhaseCheck(comparison, phase, phase).variable_count() <= MOST_TRIED for phase in design.rules.phases)


def other_lines(design, options):
    """The lines of a replay, or of the classes of all cells, each of which can be checked."""
    if options["--do"] == "classes":
        return [line for cell in design.order() for line in class_lines(Comparison(design, cell))]
    phase = next(phase for phase in design.rules.phases if phase.name == options["--phase"])
    items = [item.rsplit("=", 1) for item in options.get("--at", "").split(",") if item]
    return replay_lines(Comparison(design, options["--cell"]), phase, {name: int(bit) for name, bit in items})


def arrival_lines(design, options):
    """The line of arrival orders of an equal cell, where all orders can be tried, else None."""
    phase = next(phase for phase in design.rules.phases if phase.name == options["--phase"])
    arrivals = Arrivals(Comparison(design, options["--cell"]), phase, options["--rise"].lower().split(","))
    return [arrivals.line()] if arrivals.is_small() else None


def simulated(design, options, wanted):
    """The lines of a case, with what is wrong behind them; None where it is not simulated."""
    if wanted[0].startswith("arrive "):
        return arrival_lines(design, options)
    if all(line.startswith(("replay ", "net ", "class ")) for line in wanted):
        return other_lines(design, options)
    if options or not all(line.startswith("cell ") and is_small(design, line) for line in wanted):
        return None
    report = Report(design, tells_levels=True)
    return report.lines + report.wrong


def compare_cases():
    """Simulates the cases, prints where other lines are wanted and how many there are; whether all are right."""
    count = wrong = 0
    for folder in sorted(CASES.iterdir()):
        options, wanted = options_of(folder), (folder / "stdout").read_text().splitlines()
        if options is None or not wanted or wanted[0].startswith("verity"):
            continue
        try:
            lines = simulated(read_design(folder), options, wanted)
        except NotRead:
            continue
        count += lines is not None
        if lines not in (None, wanted):
            wrong += 1
            print("\n".join([f"case {folder.name}:"] + [f"    simulated: {line}" for line in lines]))
    print(f"simulated: {count} acceptance cases, {f'{wrong} of them not' if wrong else 'all'} as simulated")
    return not wrong
