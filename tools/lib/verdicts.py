"""The lines that the program prints: verdicts on cells, and refusals of files and words, as docs/FORMATS.md says.

    verdict = verdict_of("cell nor2 differs y phase all circuit 1 model 0 at a=0 b=1")
    verdict.kind, verdict.place, verdict.at["b"]
    refusal_of("verity: r.txt line 3: line does not fit").number

A line of another form is None: a word that is missing, or one too many, is not passed over.
"""

import re
from typing import Dict, List, NamedTuple, Optional, Tuple

# What a verdict stands for: the cell is right, wrong, or was not decided.
RIGHT = {"equal", "skipped"}
UNDECIDED = {"vacuous", "budget", "unsupported"}
WRONG = {"fight", "float", "constraint", "fightkept", "unsettled", "differs", "next", "apart", "enter"}

# The faults whose lines have two bits, with the word before the second.
VALUES = {"differs": "model", "unsettled": "wanted", "next": "wanted", "apart": "wanted", "enter": "wanted"}

# The causes of `unsupported`, with the number of the words behind each.
CAUSES = {
    "nomodel": 0, "large": 1, "device": 1, "supplytie": 1, "ports": 1, "outputisinput": 1, "noclock": 1, "unmatched": 1,
    "variables": 1, "cycle": 3, "modelcycle": 3,
}  # fmt: skip

# The statuses of the program, that which says most first: words or files that were not understood, not read, not written, or want of
# memory; then a fault, then a cell that was not decided.
STATUSES = (2, 3, 5, 6, 7, 1, 4, 0)


class Verdict(NamedTuple):
    """A verdict: `place`, `phase`, `circuit`, `wanted` (of the model too), `cause` and `at` are None where the line has none.

    `file` is the netlist that `check_cells -l` puts before a line. `place` is the word behind the kind, or behind the cause of
    `unsupported`; `cause` of `budget` is its number. `at` is empty where the line says `at -`.
    """

    text: str
    file: Optional[str]
    cell: str
    kind: str
    place: Optional[str] = None
    phase: Optional[str] = None
    circuit: Optional[str] = None
    wanted: Optional[str] = None
    cause: Optional[str] = None
    at: Optional[Dict[str, str]] = None

    @property
    def status(self):
        """The status that a run with this line alone has."""
        return 0 if self.kind in RIGHT else 1 if self.kind in WRONG else 4


class Refusal(NamedTuple):
    """A line that says why nothing was checked; `name` is the file, or None for the usage, `number` its line where it was read."""

    text: str
    file: Optional[str]
    name: Optional[str]
    number: Optional[int]
    cause: str

    @property
    def status(self):
        """The status of a run that prints this line."""
        return 2 if self.name is None else 5 if self.number is None else 3


def pairs_of(words) -> List[Tuple[str, str]]:
    """The names and bits of the words of a valuation, each cut at its last `=`; None where one of them is of another form."""
    pairs = [(word.rpartition("=")[0], word.rpartition("=")[2]) for word in words]
    return pairs if all(name and bit in ("0", "1") for name, bit in pairs) else None


def bits_of(text):
    """The bits of a list such as `a=0 b=1`, with blanks or commas between them; of two of one name the first counts."""
    bits = {}
    for item in re.split("[ \t,]+", text):
        if "=" in item:
            bits.setdefault(item.rpartition("=")[0], item.rpartition("=")[2])
    return bits


def _fault_of(text, file, cell, kind, words):
    """The verdict of a fault, of the words behind its kind."""
    if len(words) < 4 or words[1] != "phase":
        return None
    place, phase, rest, values = words[0], words[2], words[3:], (None, None)
    if kind in VALUES:
        if len(rest) < 4 or (rest[0], rest[2]) != ("circuit", VALUES[kind]) or not {rest[1], rest[3]} <= {"0", "1"}:
            return None
        values, rest = (rest[1], rest[3]), rest[4:]
    if rest[:1] != ["at"] or len(rest) < 2:
        return None
    pairs = [] if rest[1:] == ["-"] else pairs_of(rest[1:])
    if pairs is None:
        return None
    bits = bits_of(" ".join(rest[1:]))
    return Verdict(text, file, cell, kind, place, phase, *values, at=bits)


def verdict_of(line):
    """The verdict of a line, or None for a line that is none."""
    found = re.fullmatch(r"(?:(.*): )?cell ([^ ]+) ([a-z]+)((?: [^ ]+)*)", line.rstrip("\r\n"))
    if not found:
        return None
    file, cell, kind, rest = found.groups()
    words = rest.split(" ")[1:]
    if kind in RIGHT and not words:
        return Verdict(line, file, cell, kind)
    if kind in WRONG:
        return _fault_of(line, file, cell, kind, words)
    if kind == "vacuous" and words[:1] == ["phase"] and len(words) == 2:
        return Verdict(line, file, cell, kind, phase=words[1])
    if kind == "budget" and words[1:2] == ["phase"] and len(words) == 3 and words[0].isdigit():
        return Verdict(line, file, cell, kind, phase=words[2], cause=words[0])
    if kind == "unsupported" and words and CAUSES.get(words[0]) == len(words) - 1 and words[2:3] in ([], ["phase"]):
        place, phase = (words + [None, None, None])[1], (words + [None, None, None])[3]
        return Verdict(line, file, cell, kind, place, phase, cause=words[0])
    return None


def refusal_of(line):
    """The refusal of a line, or None for a line that is none."""
    found = re.fullmatch(r"(?:(.*?): )?verity: (.*)", line.rstrip("\r\n"))
    if not found:
        return None
    file, told = found.groups()
    if told.startswith("usage: "):
        return Refusal(line, file, None, None, told)
    if told.endswith(": read failed"):
        return Refusal(line, file, told[: -len(": read failed")], None, "read failed")
    found = re.fullmatch(r"(.*?) line ([0-9]+): (.+)", told)
    return Refusal(line, file, found[1], int(found[2]), found[3]) if found else None


def status_of(statuses):
    """The status of several runs together, as one run over all would have it: first what could not be read, written or held."""
    return next((status for status in STATUSES if status in statuses), 0)
