"""The cards of a netlist with their lines, its cells, their transistors and instances, as docs/FORMATS.md says.

    netlist = read_netlist("c.sp")
    for cell in netlist.cells.values():
        for device in cell.devices: print(device.name, device.gate, device.card.line)

Names are lowered as the program lowers them; the words of a card stand as they were written. A card that the program refuses stays
among the cards of its cell (`other_cards`).
"""

import re
from typing import Dict, List, NamedTuple, Optional

from lib import tool


class Card(NamedTuple):
    """A card: the file and the line where it begins, and its words as written, comments cut."""

    file: str
    line: int
    words: List[str]

    @property
    def word(self):
        """The first word, lowered."""
        return lowered(self.words[0])

    @property
    def text(self):
        """The card on one line."""
        return " ".join(self.words)

    @property
    def place(self):
        """The file and the line, as messages say them."""
        return f"{self.file} line {self.line}"


class Device(NamedTuple):
    """A transistor, with its lowered names; `rest` are the words behind the model, as written."""

    name: str
    drain: str
    gate: str
    source: str
    bulk: str
    model: str
    rest: List[str]
    card: Card


class Instance(NamedTuple):
    """An instance of a cell, with its lowered names; `rest` are the words behind the name of the cell, as written."""

    name: str
    nets: List[str]
    cell: str
    rest: List[str]
    card: Card


class Cell:
    """A cell: its lowered name and ports, its `.subckt` card, and the cards inside, each in the order of the file."""

    def __init__(self, name, ports, card):
        self.name = name
        self.ports = ports
        self.card = card
        self.cards: List[Card] = []
        self.devices: List[Device] = []
        self.instances: List[Instance] = []
        self.other_cards: List[Card] = []
        self.end: Optional[Card] = None


class Netlist:
    """The cells by lowered names, the global nets, the kinds of `.model` cards, and the cards outside cells."""

    def __init__(self, file, title, cards):
        self.file = file
        self.title = title
        self.cards: List[Card] = cards
        self.cells: Dict[str, Cell] = {}
        self.global_nets: List[str] = []
        self.kinds: Dict[str, str] = {}
        self.outside: List[Card] = []


# What no reader asks of: the cards that are passed over inside a cell too.
PASSED_OVER = {".param", ".option", ".options", ".temp"}


def lowered(name):
    """A name in small letters, as the program reads it: of ASCII letters alone."""
    return name.lower()


def words_of(text):
    """The words of a card's text: blanks around `=` are dropped."""
    return [word for word in re.split("[ \t]+", re.sub("[ \t]*=[ \t]*", "=", text)) if word]


def uncommented(line):
    """A line without its comment."""
    return re.sub(r"(^|[ \t])\$.*", r"\1", line.partition(";")[0])


def cut(text, file="-"):
    """The title of a netlist, or None, and its cards up to `.end`."""
    title, cards, line, whole = None, [], 0, ""

    def put():
        words = words_of(whole)
        if words:
            cards.append(Card(file, line, words))

    for number, raw in enumerate(tool.lines_of(text), 1):
        if number == 1 and not re.match(r"[ \t]*\.", raw):
            title = raw
            continue
        if re.match(r"[ \t]*\*", raw):
            continue
        more = re.match(r"[ \t]*\+", raw)
        if more and whole:
            whole += " " + uncommented(raw)[more.end():]
            continue
        raw = uncommented(raw)
        if not raw.strip(" \t"):
            continue
        put()
        line, whole = number, raw
    put()
    for at, card in enumerate(cards):
        if card.word == ".end":
            return title, cards[:at]
    return title, cards


def parted(words):
    """Words in two parts: the names, and the parameters from the first word that holds `=` or is `params:`."""
    at = next((i for i, word in enumerate(words) if "=" in word or lowered(word) == "params:"), len(words))
    return words[:at], words[at:]


def too_short(card):
    """Refuses a card with too few words."""
    raise tool.Refused(f"{card.place}: too few words")


def device_of(card):
    """The transistor of an `m` card."""
    if len(card.words) < 6:
        too_short(card)
    return Device(*map(lowered, card.words[:6]), card.words[6:], card)


def instance_of(card):
    """The instance of an `x` card."""
    names, rest = parted(card.words)
    if len(names) < 2:
        too_short(card)
    nets = [lowered(net) for net in names[1:-1]]
    if nets and nets[-1] == "/":
        nets.pop()
    return Instance(lowered(names[0]), nets, lowered(names[-1]), rest, card)


def fill(netlist, cell, card):
    """Takes a card of a cell (None outside), and gives the cell in which the next card stands."""
    word, words = card.word, [lowered(w) for w in card.words]
    if word == ".subckt":
        names, _ = parted(words)
        if len(names) < 2:
            too_short(card)
        if cell:
            raise tool.Refused(f"{card.place}: cell within a cell")
        if names[1] in netlist.cells:
            raise tool.Refused(f"{card.place}: cell twice: {names[1]}")
        cell = netlist.cells[names[1]] = Cell(names[1], names[2:], card)
        return cell
    if word == ".ends":
        if not cell:
            raise tool.Refused(f"{card.place}: .ends outside a cell")
        cell.end = card
        return None
    if word == ".global":
        netlist.global_nets += [net for net in words[1:] if net not in netlist.global_nets]
    if word == ".model" and len(words) > 2:
        kind = {"nmos": "n", "pmos": "p"}.get(words[2].partition("(")[0])
        if kind:
            netlist.kinds.setdefault(words[1], kind)
    if not cell:
        netlist.outside.append(card)
        return None
    cell.cards.append(card)
    if word[0] == "m":
        cell.devices.append(device_of(card))
    elif word[0] == "x":
        cell.instances.append(instance_of(card))
    elif word[0] != "c" and word not in PASSED_OVER | {".global", ".model"}:
        cell.other_cards.append(card)
    return cell


def netlist_of(text, file="-"):
    """The netlist of a text."""
    title, cards = cut(text, file)
    netlist, cell = Netlist(file, title, cards), None
    for card in cards:
        cell = fill(netlist, cell, card)
    if cell:
        raise tool.Refused(f"{cell.card.place}: cell not ended")
    return netlist


def read_netlist(path):
    """The netlist of a file; a file that cannot be read, or whose cells are not in order, is refused with status 3."""
    return netlist_of(tool.read(path), path)


def cell_named(netlist, name):
    """The cell of a name, lowered; one that is not there is refused with status 3."""
    if lowered(name) not in netlist.cells:
        raise tool.Refused(f"{netlist.file}: no cell {name}")
    return netlist.cells[lowered(name)]


def below(netlist, names):
    """The cells of these names and all that they use, in the order of the file."""
    wanted, todo = set(), [cell_named(netlist, name).name for name in names]
    while todo:
        name = todo.pop()
        if name in wanted or name not in netlist.cells:
            continue
        wanted.add(name)
        todo += [instance.cell for instance in netlist.cells[name].instances]
    return [cell for cell in netlist.cells.values() if cell.name in wanted]


def written(netlist, cards_of=lambda cell: cell.cards):
    """The lines of a netlist with the cards that `cards_of` gives for each cell in place of the cell's own; none for None."""
    lines, cell = ["* cards" if netlist.title is None else netlist.title], None
    for card in netlist.cards:
        if cell:
            cell = None if card is cell.end else cell
            continue
        if card.word != ".subckt":
            lines.append(card.text)
            continue
        cell = cell_named(netlist, card.words[1])
        cards = cards_of(cell)
        if cards is not None:
            lines += [card.text, *(inner.text for inner in cards), cell.end.text]
    return lines


def hint(text):
    """What a text without cells may be, as a hint; None where nothing is known of it."""
    if text[:2] == "\x1f\udc8b":
        return "it is compressed: unpack it by `gunzip`"
    if text[:2] in ("\udcff\udcfe", "\udcfe\udcff"):
        return "it is UTF-16: `iconv -f UTF-16 -t ASCII//TRANSLIT` makes plain text of it"
    if "\n" not in text.rstrip("\r\n") and "\r" in text:
        return "its lines end with a carriage return alone: `tr '\\r' '\\n'` mends them"
    if re.search(r"(?mi)^[ \t]*\*+[ \t]*\.subckt[ \t]", text):
        return "its cell stands in a comment, as schematic editors write the topmost one (`**.subckt`): tools/netlist takes it"
    if re.search(r"(?mi)^[ \t]*(simulator[ \t]+lang|subckt[ \t])", text):
        return "it is written for Spectre: ask the editor for a SPICE or CDL netlist"
    if any(card.word[0] in "mx" for card in cut(text)[1]):
        return "its cards stand outside cells: give them a .subckt and an .ends card"
    return None


def fold(words, width=130):
    """Words as the lines of one card, the further ones behind `+`."""
    lines = [words[0]]
    for word in words[1:]:
        if len(lines[-1]) + 1 + len(word) > width:
            lines.append("+")
        lines[-1] += " " + word
    return "\n".join(lines)
