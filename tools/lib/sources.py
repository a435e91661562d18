"""The lines of netlists as other tools write them: included files and library sections in their places, cells out of comments, and
the blocks and bytes that no reader takes left out.

    source = Sources(told)
    source.add("top.spice")
    cards = source.cards()

`told` is called with what is said of a line: its place and the text.
"""

import gzip
import os
import re
from typing import List, NamedTuple

from lib import tool
from lib.includes import INCLUDE, path_named
from lib.netlist import Card, lowered, uncommented, words_of

LIB = re.compile(r"[ \t]*\.lib[ \t]+(\"[^\"]*\"|'[^']*'|[^ \t]+)(?:[ \t]+([^ \t\r]+))?", re.IGNORECASE)
END_OF_SECTION = re.compile(r"[ \t]*\.endl\b", re.IGNORECASE)
COMMENTED = re.compile(r"[ \t]*\*+[ \t]*(\.(?:subckt|ends)\b.*)", re.IGNORECASE)
SPECTRE = re.compile(r"[ \t]*(simulator[ \t]+lang[ \t]*=[ \t]*spectre|(inline[ \t]+)?subckt[ \t]+\S)", re.IGNORECASE)
DOLLAR = re.compile(r"(?<=[ \t])\$(?=[0-9])")
PINS = re.compile(r"([ \t])\$PINS(?=[ \t]|$)", re.IGNORECASE)


class Line(NamedTuple):
    """A line, with its file and number, and whether it comes from a section of a library."""

    file: str
    number: int
    text: str
    is_library: bool

    @property
    def place(self):
        """The file and the line, as messages say them."""
        return f"{self.file} line {self.number}"


def text_of(path):
    """The text of a file, unpacked where it is compressed."""
    text = tool.read(path)
    if text.startswith("\x1f\udc8b"):
        try:
            text = gzip.decompress(text.encode("ascii", "surrogateescape")).decode("ascii", "surrogateescape")
        except (OSError, EOFError):
            raise tool.Refused(f"{path}: compressed, and cannot be unpacked") from None
    if text.startswith(("\udcff\udcfe", "\udcfe\udcff")):
        text = text.encode("ascii", "surrogateescape").decode("utf-16", "replace").encode("utf-8").decode("ascii", "surrogateescape")
    if text.startswith("\udcef\udcbb\udcbf"):
        text = text[3:]
    return text if "\n" in text else text.replace("\r", "\n")


def lines_in(path):
    """The lines of a file; one that is written for Spectre is refused."""
    lines = tool.lines_of(text_of(path))
    for number, text in enumerate(lines, 1):
        if SPECTRE.match(text):
            raise tool.Refused(f"{path} line {number}: written for Spectre; ask the editor for a SPICE or CDL netlist")
    return lines


class Sources:
    """The lines of several files. `is_whole` is false where an included file is not there."""

    def __init__(self, told):
        self.told = told
        self.lines: List[Line] = []
        self.is_whole = True

    def add(self, path):
        """Adds a file: its first line is a title, unless it begins with `.` or is a cell in a comment."""
        lines = lines_in(path)
        if lines and not re.match(r"[ \t]*\.", lines[0]) and not COMMENTED.match(lines[0]):
            lines[0] = "*"
        self._take(path, enumerate(lines, 1), 0, False)

    def _take(self, path, lines, depth, is_library):
        if depth > 32:
            raise tool.Refused(f"includes form a loop: {path}")
        for number, text in lines:
            include, library = INCLUDE.match(text), LIB.match(text)
            if include:
                self._include(Line(path, number, text, is_library), include[1], None, depth, is_library)
            elif library:
                self._include(Line(path, number, text, is_library), library[1], library[2], depth, True)
            elif re.match(r"[ \t]*\.end[ \t\r]*$", text, re.IGNORECASE):
                return
            else:
                self.lines.append(Line(path, number, text, is_library))

    def _include(self, line, words, section, depth, is_library):
        path = path_named(line.file, uncommented(words))
        if not os.path.isfile(path):
            cost = "the kinds of device models are named by `device` lines" if is_library else "what it has is missing"
            self.told(line.place, f"{line.text.strip()}: left out, no such file: {cost}")
            self.is_whole = self.is_whole and is_library
            return
        lines = list(enumerate(lines_in(path), 1))
        self._take(path, list(in_section(lines, section)) if section else lines, depth + 1, is_library)

    def cards(self):
        """The cards of all lines."""
        lines = self._without_blocks(self._uncommented())
        cards, whole, first, has_dollar = [], "", None, False

        def put():
            words = words_of(whole)
            if words:
                cards.append(SourceCard(Card(first.file, first.number, words), first.is_library))

        for line in lines:
            text = re.sub(r"[\f\v]", " ", PINS.sub(r"\1PINS:", line.text)).rstrip("\r")
            if DOLLAR.search(text) and re.match(r"[ \t]*([a-z]|\.subckt|\+)", text, re.IGNORECASE):
                text = DOLLAR.sub("n$", text)
                if not has_dollar:
                    self.told(line.place, "nets such as $1 are named n$1")
                has_dollar = True
            if re.match(r"[ \t]*\*", text):
                continue
            more = re.match(r"[ \t]*\+", text)
            if more and whole:
                whole += " " + uncommented(text[more.end():])
                continue
            text = uncommented(text)
            if text.strip(" \t"):
                put()
                whole, first = text, line
        put()
        return cards

    def _without_blocks(self, lines):
        """The lines without what stands from .control to .endc."""
        start = None
        for line in lines:
            word = lowered(line.text.strip(" \t\r").split(" ")[0])
            if word == ".control":
                start = line
            if not start:
                yield line
            if word == ".endc" and start:
                self.told(start.place, ".control: left out, to .endc: it costs nothing")
                start = None
        if start:
            raise tool.Refused(f"{start.place}: .control without .endc")

    def _uncommented(self):
        """The lines, with the cells whose first and last card stand in comments, where transistors or instances stand between."""
        named = {cell_of(line.text) for line in self.lines} - {None}
        opened, lines = None, list(self.lines)
        for at, line in enumerate(self.lines):
            found = COMMENTED.match(line.text)
            if cell_of(line.text):
                opened = None
            if not found:
                continue
            name = cell_of(found[1])
            if name and name not in named and not inside(self.lines, at):
                opened = at
            elif not name and opened is not None:
                if any(re.match(r"[ \t]*[mx]", between.text, re.IGNORECASE) for between in self.lines[opened:at]):
                    self.told(lines[opened].place, f"the cell {cell_of(COMMENTED.match(lines[opened].text)[1])} is taken out of a comment")
                    for k in (opened, at):
                        lines[k] = lines[k]._replace(text=COMMENTED.match(lines[k].text)[1])
                    after = opened + 1
                    while re.match(r"[ \t]*\*+[ \t]*\+", lines[after].text):
                        lines[after] = lines[after]._replace(text=lines[after].text.lstrip(" \t*"))
                        after += 1
                opened = None
        return lines


class SourceCard(NamedTuple):
    """A card, and whether it comes from a section of a library."""

    card: Card
    is_library: bool


def cell_of(text):
    """The name of the cell that a line begins; None where it begins none."""
    found = re.match(r"[ \t]*\.(?:subckt|macro)[ \t]+([^ \t\r]+)", text, re.IGNORECASE)
    return lowered(found[1]) if found else None


def inside(lines, at):
    """Whether a line stands inside a cell."""
    for line in reversed(lines[:at]):
        if cell_of(line.text):
            return True
        if re.match(r"[ \t]*\.(ends|eom)\b", line.text, re.IGNORECASE):
            return False
    return False


def in_section(lines, section):
    """The lines of a library's section."""
    is_open = False
    for number, text in lines:
        begins = re.match(r"[ \t]*\.lib[ \t]+([^ \t\r]+)[ \t\r]*$", text, re.IGNORECASE)
        if begins and not is_open:
            is_open = lowered(begins[1]) == lowered(section)
        elif END_OF_SECTION.match(text):
            is_open = False
        elif is_open:
            yield number, text
