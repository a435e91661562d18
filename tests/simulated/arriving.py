"""Compares what the program prints of arrival orders in random domino stages with what the simulator says, which tries all orders.

usage: arriving.py COUNT SEED PROGRAM
"""

import sys
import tempfile
from collections import Counter
from pathlib import Path
from random import Random

from arrivals import Arrivals
from compare import keep_files, printed, with_status, write_files
from report import Report
from stages import stage_design
from verdicts import Comparison

STATUSES = {"yes": "status 0", "no": "status 1"}


def wanted_lines(design, phase, ports):
    """What is to be printed: the line of the verdict where the cell is not equal, else that of the arrival orders."""
    verdict = Report(design).lines[-1]
    if not verdict.endswith(" equal"):
        return with_status([verdict])
    line = Arrivals(Comparison(design, "stage"), phase, ports).line()
    return [line, STATUSES.get(line.split()[4] if line.startswith("arrive") else "", "status ?")]


def arriving(count, seed, program):
    """Compares so many designs; the exit status is 1 where another line is printed."""
    kinds, wrong = Counter(), 0
    with tempfile.TemporaryDirectory() as place:
        for number in range(count):
            random = Random(f"{seed} {number} arrivals")
            design = stage_design(random)
            phase = random.choice([design.rules.phases[1]] * 9 + [design.rules.phases[0]])
            inputs = [port for port in design.cells["stage"].ports if port not in ("clk", "out")]
            ports = random.sample(inputs, random.randint(1, len(inputs)))
            wanted = wanted_lines(design, phase, ports)
            kinds[wanted[0].split()[4] if wanted[0].startswith("arrive") else wanted[0].split()[2]] += 1
            write_files(design, Path(place))
            words = ["--do", "arrive", "--cell", "stage", "--phase", phase.name, "--rise", ",".join(ports)]
            lines = printed(program, words, Path(place))
            if lines != wanted:
                wrong += 1
                print(f"design {seed}-{number}, files in {keep_files(design, f'arriving-{seed}-{number}')}")
                print(f"    printed:   {lines}\n    simulated: {wanted}\n    words: {' '.join(words)}")
    print("arrival orders: " + ", ".join(f"{times} {kind}" for kind, times in sorted(kinds.items())))
    print(f"simulated: {count} stages, {f'{wrong} of them not' if wrong else 'all'} as simulated")
    return 1 if wrong else 0


if __name__ == "__main__":
    sys.exit(arriving(int(sys.argv[1]), int(sys.argv[2]), sys.argv[3]))
