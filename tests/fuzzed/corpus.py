"""The repository's own cases, as three texts and the words of a run, and the names that stand in them."""

import re
from pathlib import Path
from typing import List, NamedTuple

TOP = Path(__file__).resolve().parent.parent.parent
FILES = ["c.sp", "m.blif", "r.txt"]
MODULES = "m.v"
LARGEST = 100_000


class Case(NamedTuple):
    """A run: the words of its command line, and its netlist, models and rules."""

    words: List[str]
    texts: List[bytes]


def read(path):
    """The bytes of a file, or none where it is not there."""
    return path.read_bytes() if path.is_file() else b""


def files_of(texts):
    """The names of three texts: models that are modules of Verilog have one that says so."""
    return [FILES[0], MODULES if re.search(rb"\b(end)?module\b", texts[1]) else FILES[1], FILES[2]]


def by_name(texts):
    """The texts by all names that words give them."""
    return dict(zip(FILES, texts)) | {MODULES: texts[1]}


def cases():
    """The acceptance cases and the examples that name three files, in the order of their names; what a script makes is left out."""
    found = []
    for folder in sorted(TOP.glob("tests/acceptance/cases/*")) + sorted(TOP.glob("examples/*")):
        texts = [read(folder / name) for name in FILES]
        texts[1] = texts[1] or read(folder / MODULES)
        if any(texts) and all(len(text) < LARGEST for text in texts):
            words = read(folder / "words").decode().split("\n")[:-1]
            found.append(Case(words or files_of(texts), texts))
    return found


def names(texts):
    """The words of texts, whole and cut at what joins names, each once."""
    text = b" ".join(texts)
    return sorted({word for word in text.split() + re.findall(rb"[^\s=:!/&|^()]+", text) if len(word) < 60})


def named(text, card):
    """The words that stand behind a first word, in any letters."""
    return [line.split()[1] for line in text.split(b"\n") if line.lower().startswith(card) and len(line.split()) > 1]


def ports(text, cell):
    """The words behind the name of a cell where it begins."""
    lines = [line.split() for line in text.split(b"\n")]
    return next((words[2:] for words in lines if words[:1] and words[0].lower() == b".subckt" and words[1:2] == [cell]), [])
