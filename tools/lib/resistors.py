"""Resistors as wires: the two nets of each become one net of a cell.

    cards = shorted(cell, kept)
"""

import re

from lib import tool
from lib.netlist import Card, lowered, parted

# Names that are supplies by common use, asked where no rules say what is one.
USUAL_1 = re.compile(r"(vdd|vcc|vpwr|vpp)[a-z0-9_]*!?")
USUAL_0 = re.compile(r"(gnd|vss|vgnd|vee|agnd|dgnd)[a-z0-9_]*!?")


def kept_nets(netlist, rules):
    """What a net is that keeps its name: the value "0" or "1" of a supply, by the rules or else by its usual name, "?" for another
    global net, and None for a net without such a name."""
    global_nets = set(netlist.global_nets)

    def value(net):
        if net == "0" or rules and net in rules.supplies:
            return rules.supplies[net] if rules else "0"
        if not rules and (USUAL_1.fullmatch(net) or USUAL_0.fullmatch(net)):
            return "1" if USUAL_1.fullmatch(net) else "0"
        return "?" if net in global_nets or not rules and net.endswith("!") else None

    return value


def renamed(card, name):
    """A transistor, capacitor or instance with its nets renamed, in small letters; other cards as they are."""
    words, rest = parted(card.words)
    if card.word[0] == "m":
        count = 5
    elif card.word[0] == "x":
        count = len(words) - 1
    elif card.word[0] == "c":
        count = 3
    else:
        return card
    nets = [word if word == "/" else name(lowered(word)) for word in words[1:count]]
    return Card(card.file, card.line, words[:1] + nets + words[count:] + rest)


def shorted(cell, kept, wires="r"):
    """The cards of a cell without its resistors, or other cards that begin with a letter of `wires`. A net has the name of the port,
    supply or global net among those that are one net, or else of the first. Where two such names would be one net the cell is
    refused with status 3, but for supplies of one value."""
    joined = {}

    def root(net):
        while net in joined:
            net = joined[net]
        return net

    for card in cell.cards:
        if card.word[0] not in wires:
            continue
        if len(card.words) < 3:
            raise tool.Refused(f"{card.place}: too few words")
        a, b = root(lowered(card.words[1])), root(lowered(card.words[2]))
        if a == b or kept(a) in ("0", "1") and kept(a) == kept(b):
            continue
        if (a in cell.ports or kept(a)) and (b in cell.ports or kept(b)):
            raise tool.Refused(f"{card.place}: {card.words[0]}: cell {cell.name}: joined: {a} {b}")
        if b in cell.ports or kept(b):
            joined[a] = b
        else:
            joined[b] = a
    return [renamed(card, root) for card in cell.cards if card.word[0] not in wires]
