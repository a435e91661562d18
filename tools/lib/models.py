"""The models of a BLIF file, or of one in gate-level Verilog, as docs/FORMATS.md says.

    models = read_models("m.blif")
    model_of(models, rules, "nand2").outputs

Names stand as they were written, since letters count in a model.
"""

import re
from typing import Dict, List, NamedTuple, Optional, Tuple

from lib import tool
from lib.netlist import lowered


class Cover(NamedTuple):
    """A cover: its inputs, its output, and its rows as pairs of the bits of the inputs and of the output."""

    inputs: List[str]
    output: str
    rows: List[Tuple[str, str]]
    line: int


class Latch(NamedTuple):
    """A latch: its input and output, and its type and control, which are None where the card has none."""

    input: str
    output: str
    type: Optional[str]
    control: Optional[str]
    line: int

    @property
    def elements(self):
        """The names of its storage elements."""
        return [self.output + "#m", self.output] if self.type in ("re", "fe", None) else [self.output]


class SubModel(NamedTuple):
    """A sub-model with its ties, from formal to actual signals."""

    model: str
    ties: Dict[str, str]
    line: int


class Model:
    """A model, each list in the order of the file."""

    def __init__(self, name, line):
        self.name = name
        self.line = line
        self.inputs: List[str] = []
        self.clocks: List[str] = []
        self.outputs: List[str] = []
        self.covers: List[Cover] = []
        self.latches: List[Latch] = []
        self.subs: List[SubModel] = []
        self.network: Optional[List[Cover]] = None  # the covers behind `.exdc`


def cards_of(text):
    """The cards of a BLIF text with their lines: comments cut, lines with `\\` at their end joined."""
    whole, at = None, 0
    for number, raw in enumerate(tool.lines_of(text), 1):
        raw = raw.partition("#")[0]
        if whole is None:
            whole, at = "", number
        whole += raw
        if whole.endswith("\\"):
            whole = whole[:-1]
            continue
        words = [word for word in re.split("[ \t]+", whole) if word]
        whole = None
        if words:
            yield at, words


def latch_of(line, words):
    """The latch of a `.latch` card."""
    kind, control = (words[3], words[4]) if len(words) > 4 else (None, None)
    return Latch(words[1], words[2], kind, None if control == "NIL" else control, line)


def models_of(text, file="-"):
    """The models of a text, by name."""
    models, model, cover = {}, None, None
    for line, words in cards_of(text):
        word = words[0]
        if word == ".end":
            model = None
            continue
        if word.startswith("."):
            cover = None
        if word in (".model", ".names", ".subckt", ".gate") and len(words) < 2 or word == ".latch" and len(words) < 3:
            raise tool.Refused(f"{file} line {line}: too few words")
        if word == ".model":
            model = models[words[1]] = Model(words[1], line)
        elif model is None:
            raise tool.Refused(f"{file} line {line}: outside a model")
        elif word == ".exdc":
            model.network = []
        elif word in (".inputs", ".outputs") and model.network is not None:
            continue
        elif word in (".inputs", ".clock", ".outputs"):
            names = {".inputs": model.inputs, ".clock": model.clocks, ".outputs": model.outputs}[word]
            names += [name for name in dict.fromkeys(words[1:]) if name not in names]
        elif word == ".names":
            cover = Cover(words[1:-1], words[-1], [], line)
            (model.covers if model.network is None else model.network).append(cover)
        elif word == ".latch":
            model.latches.append(latch_of(line, words))
        elif word == ".subckt":
            model.subs.append(SubModel(words[1], dict(tie.split("=", 1) for tie in words[2:] if "=" in tie), line))
        elif not word.startswith(".") and cover:
            cover.rows.append((words[0], words[1]) if len(words) > 1 else ("", words[0]))
    return models


def read_models(path):
    """The models of a file; one that cannot be read is refused with status 3."""
    if path.endswith(".v"):
        from lib.modules import models_of_modules  # pylint: disable=import-outside-toplevel,cyclic-import

        return models_of_modules(tool.read(path), path)
    return models_of(tool.read(path), path)


def is_models(path):
    """Whether a file has models, and so is no file of rules."""
    return path.endswith(".v") or bool(re.search(r"(?m)^[ \t]*\.model[ \t]", tool.read(path)))


def inputs_of(models, rules, cell, devices):
    """The ports of a cell that are inputs, clocks among them. Where there are no models (None) they are the ports that no transistors
    join with a supply by way of nets that are no gates."""
    if models is not None:
        model = model_of(models, rules, cell.name)
        signals = model.inputs + model.clocks if model else []
        return {port_of(rules, cell.name, signal) for signal in signals} - set(rules.supplies)
    gates, at, inputs = {d.gate for d in devices}, {}, set()
    for d in devices:
        at.setdefault(d.drain, []).append(d.source)
        at.setdefault(d.source, []).append(d.drain)
    for port in cell.ports:
        seen, todo = {port}, [port]
        while todo:
            for net in at.get(todo.pop(), []):
                if net not in seen and (net in rules.supplies or net not in gates):
                    seen.add(net)
                    todo += [net] * (net not in rules.supplies)
        if not any(net in rules.supplies for net in seen):
            inputs.add(port)
    return inputs


def model_of(models, rules, cell):
    """The model with which a cell pairs, by a `pair` line or by its name; None where it has none."""
    said = rules.model(cell)
    if said is not None:
        return models.get(said)
    fitting = [model for model in models.values() if lowered(model.name) == cell]
    return fitting[0] if len(fitting) == 1 else None


def port_of(rules, cell, signal):
    """The port that pairs with a signal, by a `port` line or by its name."""
    said = [port for port, name in rules.signals(cell).items() if name == signal]
    return said[0] if said else lowered(signal)


def unrolled_model(models, model):
    """The drivers of a model with its sub-models unrolled: of each signal, by its path, its cover or latch and the signals that this reads."""
    drivers, todo = {}, [(model, "", {}, 0)]
    while todo:
        inner, path, ties, depth = todo.pop()
        flat = {name: ties.get(name) or path + name for name in signals_of(inner)}
        for driver in inner.covers + inner.latches:
            own = driver.inputs if isinstance(driver, Cover) else [driver.input] + [driver.control] * bool(driver.control)
            drivers[flat[driver.output]] = (driver, [flat[name] for name in own])
        for number, sub in enumerate(inner.subs):
            if sub.model in models and depth < 32:
                todo.append((models[sub.model], f"{path}{number}/", {formal: flat[name] for formal, name in sub.ties.items()}, depth + 1))
    return drivers


def signals_of(model):
    """The names of the signals of a model, each once."""
    names = dict.fromkeys(model.inputs + model.clocks + model.outputs)
    for cover in model.covers:
        names.update(dict.fromkeys(cover.inputs + [cover.output]))
    for latch in model.latches:
        names.update(dict.fromkeys([latch.input, latch.output] + [latch.control] * bool(latch.control)))
    for sub in model.subs:
        names.update(dict.fromkeys(sub.ties.values()))
    return names
