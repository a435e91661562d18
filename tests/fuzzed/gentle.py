"""Changes after which the readers mostly take a file: a net, a level, a kind, a bit, a card or a line of rules is another that fits.

What no reader takes never comes to the checks behind it, so most runs are changed in this way alone.
"""

import re

RULES = """strength C D 4|strength C D 5|strength C D 7|hold C N|hold C N 1|hold C N 2|hold C N 3|keeper C D|keeper C D D|match C N S|match C N !S|match C I:S S|match C I:S !S|
enter C P N 0|enter C P N 1|observe C O P|observe C O P P|assume C P N|assume C * N|assume C * N ^ N|assume C P !N \\| N|assume C * !(N & N)|clockport C O K|clockport C O !K|
pair C -|pair C M|port C O S|supply 0 N|supply 1 N|device p p|device n n|device p n|device n p 4|device n n 5|clock k9|phase p9 K=1|phase p8 K=0|supply 0 gnd|# N""".replace("\n", "").split("|")
# Each form cut at the letters that stand for names.
FORMS = [re.split("([A-Z])", form) for form in RULES]


class Parts:
    """The names that stand in the files of a case, by what they name; those of transistors, nets and instances are of one cell that is drawn."""

    def __init__(self, texts, draw):
        cards = [line.split() for line in re.sub(rb"\n\+", b" ", texts[0]).lower().split(b"\n") if line.split()]
        models = [line.split() for line in texts[1].split(b"\n") if len(line.split()) > 1]
        rules = [line.split() for line in texts[2].split(b"\n") if len(line.split()) > 1]
        begins = [at for at, card in enumerate(cards) if card[0] == b".subckt" and len(card) > 1]
        self.cells = [cards[at][1] for at in begins]
        start = draw.choice(begins) if begins else 0
        inside = cards[start : min([at for at in begins if at > start] or [len(cards)])]
        self.cell = [inside[0][1]] if begins else []
        self.ports = inside[0][2:] if begins else []
        self.devices = [card[0] for card in inside if card[0][:1] == b"m"]
        self.instances = [card[0] for card in inside if card[0][:1] == b"x"]
        tied = [word for card in inside for word in (card[1:4] if card[0][:1] == b"m" else card[1:-1] if card[0][:1] == b"x" else [])]
        self.nets = tied + self.ports
        self.signals = [word for card in models if card[0] in (b".names", b".inputs", b".outputs", b".clock") for word in card[1:]]
        self.latches = [card[2] for card in models if len(card) > 2 and card[0] == b".latch"]
        self.models = [card[1] for card in models if card[0] == b".model"]
        self.phases = [card[1] for card in rules if card[0] == b"phase"] or [b"all"]
        self.clocks = [card[1] for card in rules if card[0] == b"clock"]

        stored = self.latches + [name + b"#m" for name in self.latches]
        self.named = {
            "C": self.cell, "D": self.devices, "N": self.nets, "S": stored or self.signals, "I": self.instances, "O": self.ports, "P": self.phases,
            "K": self.clocks, "M": self.models,
        }  # fmt: skip


def changed_line(lines, wanted, draw, change):
    """Changes one of the lines that are wanted, by a function of its words."""
    places = [at for at, line in enumerate(lines) if wanted(line.lower())]
    if places:
        at = draw.choice(places)
        lines[at] = b" ".join(change(lines[at].split()))
    return lines


def other_word(words, first, end, names, draw):
    """Words of which one of a range is another name."""
    if len(words[first:end]) and names:
        words[draw.randrange(first, len(words[:end]))] = draw.choice(names)
    return words


def inside(lines, draw):
    """Where a card may be put into a cell: behind some card of a transistor or an instance."""
    return 1 + draw.choice([at for at, line in enumerate(lines) if line[:1].lower() in (b"m", b"x")] or [0])


def netlist(text, parts, draw):
    """A netlist with another net, kind or device at some place."""
    lines = text.split(b"\n")
    kind = draw.randrange(8)
    if kind <= 2:
        return b"\n".join(changed_line(lines, lambda line: line[:1] == b"m", draw, lambda words: other_word(words, 1, 4, parts.nets, draw)))
    if kind == 3:
        return b"\n".join(changed_line(lines, lambda line: line[:1] == b"x", draw, lambda words: other_word(words, 1, -1, parts.nets, draw)))
    if kind == 4:
        swap = {b"n": b"p", b"p": b"n", b"nch": b"pch", b"pch": b"nch"}
        return b"\n".join(changed_line(lines, lambda line: line[:1] == b"m", draw, lambda words: [*words[:5], *(swap.get(word, word) for word in words[5:])]))
    if kind == 5:
        places = [at for at, line in enumerate(lines) if line[:1].lower() in (b"m", b"x")]
        if places:
            del lines[draw.choice(places)]
    elif kind == 6:
        model, high = draw.choice(((b"n", b"gnd"), (b"p", b"vdd")))
        nets = [draw.choice(parts.nets or [b"a"]) for _ in range(3)]
        lines.insert(inside(lines, draw), b" ".join([b"m%d" % draw.randrange(100, 999), *nets, high, model]))
    else:
        places = [line for line in lines if line[:1].lower() == b"x"]
        if places:
            words = draw.choice(places).split()
            lines.insert(inside(lines, draw), b" ".join(other_word([b"x%d" % draw.randrange(100, 999), *words[1:]], 1, -1, parts.nets, draw)))
    return b"\n".join(lines)


def models(text, parts, draw):
    """Models with another bit, signal, latch or cover at some place."""
    lines = text.split(b"\n")
    kind = draw.randrange(6)
    if kind <= 1:
        bits = lambda word: re.sub(rb"[01-]", lambda it: draw.choice((it.group(), b"0", b"1", b"-")), word)
        flip = lambda words: [bits(words[0]), draw.choice((*words[1:] * 9, b"0", b"1"))]
        return b"\n".join(changed_line(lines, lambda line: re.fullmatch(rb"[01-]+ [01]", line), draw, flip))
    if kind == 2:
        return b"\n".join(changed_line(lines, lambda line: line.startswith(b".names "), draw, lambda words: other_word(words, 1, -1, parts.signals, draw)))
    if kind == 3:
        type_of = lambda words: [draw.choice((b"re", b"fe", b"ah", b"al")) if word in (b"re", b"fe", b"ah", b"al") else word for word in words]
        return b"\n".join(changed_line(lines, lambda line: line.startswith(b".latch "), draw, type_of))
    if kind == 4:
        return b"\n".join(changed_line(lines, lambda line: line.startswith(b".inputs"), draw, lambda words: [*words, draw.choice(parts.nets or [b"z"])]))
    places = [at for at, line in enumerate(lines) if re.fullmatch(rb"[01-]+ [01]", line)]
    if places:
        at = draw.choice(places)
        lines[at : at + 1] = [lines[at]] * draw.choice((0, 2))
    return b"\n".join(lines)


# Of how many words the key of a line is, which may not stand twice; and the values at the ends of lines.
KEYS = {b"device": 2, b"strength": 3, b"clock": 2, b"phase": 2, b"clockport": 3, b"pair": 2, b"port": 3, b"hold": 3, b"match": 3, b"enter": 4, b"observe": 3}
VALUES = {b"device": b"4567", b"strength": b"4567", b"hold": b"123", b"enter": b"01", b"supply": b"01"}


def rules(text, parts, draw):
    """Rules with one line more, one less, another value in one, or a scale."""
    lines = text.split(b"\n")
    kind = draw.randrange(9)
    if kind == 8:
        lines.insert(0, draw.choice((b"scale 16", b"scale 16", b"scale 8")))
    elif kind <= 5:
        form = draw.choice([form for form in FORMS if all(parts.named[letter] for letter in form[1::2])])
        line = b"".join(draw.choice(parts.named[word]) if word in parts.named else word.encode() for word in form)
        key = line.split()[: KEYS.get(line.split()[0], 99)]
        lines = [it for it in lines if it.split()[: len(key)] != key] or [b""]
        first = line.startswith((b"clock ", b"phase "))
        lines.insert(draw.choice((len(lines), draw.randrange(len(lines) + 1))) if not first else draw.randrange(min(5, len(lines))), line)
    elif kind == 6:
        del lines[draw.randrange(len(lines))]
    else:
        valued = lambda line: line.split()[:1] and line.split()[0] in VALUES and line[-1:].isdigit()
        return b"\n".join(changed_line(lines, valued, draw, lambda words: [*words[:-1], bytes([draw.choice(VALUES[words[0].lower()])])]))
    return b"\n".join(lines)


def gentle(texts, draw):
    """The texts with one change in one of them."""
    parts = Parts(texts, draw)
    place = draw.choice((0, 0, 0, 1, 2, 2, 2))
    made = list(texts)
    made[place] = (netlist, models, rules)[place](texts[place], parts, draw)
    return made
