"""A netlist with the files that its `.include` and `.inc` cards name in their places.

    for line in joined("top.sp"): print(line.text)
"""

import os
import re
from typing import NamedTuple

from lib import tool

INCLUDE = re.compile(r"[ \t]*\.inc(?:lude)?[ \t]+(.*)", re.IGNORECASE)


class Line(NamedTuple):
    """A line of a netlist, with the file and the line where it stands."""

    file: str
    number: int
    text: str


def path_named(file, words):
    """The path that a card of a file names: without quotes, and meant from the folder of the file."""
    path = re.sub("[\"']", "", words.strip(" \t\r"))
    return os.path.join(os.path.dirname(file), path)


def joined(file, depth=0):
    """The lines of a file, with the lines of other files in place of the cards that include them."""
    if depth > 32:
        raise tool.Refused(f"includes form a loop: {file}")
    for number, text in enumerate(tool.lines_of(tool.read(file)), 1):
        found = INCLUDE.match(text)
        if found:
            yield from joined(path_named(file, found[1]), depth + 1)
        else:
            yield Line(file, number, text)
