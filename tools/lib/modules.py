"""Models that are modules of gate-level Verilog, as docs/FORMATS.md says: they become covers and sub-models as it says there.

    models = models_of_modules(text, "m.v")

What does not fit is refused; a text that the program takes is taken.
"""

import re

from lib import tool
from lib.models import Cover, Model, SubModel

PASSED = re.compile(
    r"[ \t\r\n]+|//[^\n]*|/\*.*?\*/|\(\*.*?\*\)|(?m:^[ \t\r]*`(?:timescale|celldefine|endcelldefine|default_nettype)(?![A-Za-z0-9_$])[^\n]*)", re.S
)
TOKEN = re.compile(r"(?P<escaped>\\[^ \t\r\n]*)|(?P<name>[A-Za-z_][A-Za-z0-9_$]*)|(?P<constant>1'b[01])(?![A-Za-z0-9_$'])|(?P<sign>[(),;.=?:~&^|])")
GATES = {"and": "1", "nand": "1", "or": "0", "nor": "0"}
CHAINS = {"xor", "xnor"}
ONE_INPUT = {"buf": "1", "not": "0"}
OPERATORS = [("|", [("00", "0")]), ("^", [("01", "1"), ("10", "1")]), ("&", [("11", "1")])]


class Reader:
    """Reads a text token by token. A token is its kind and its text: an escaped name has the kind `name`, words of the language `word`."""

    WORDS = {"module", "endmodule", "input", "output", "wire", "assign", *GATES, *CHAINS, *ONE_INPUT}

    def __init__(self, text, file):
        self.file, self.tokens, self.at = file, [], 0
        place, line = 0, 1
        while place < len(text):
            found = PASSED.match(text, place) or TOKEN.match(text, place)
            if not found:
                raise tool.Refused(f"{file} line {line}: not supported: {text[place]}")
            kind, piece = found.lastgroup, found.group()
            if kind == "escaped":
                self.tokens.append(("name", piece[1:], line))
            elif kind:
                self.tokens.append(("word" if piece in self.WORDS else kind, piece, line))
            place, line = found.end(), line + piece.count("\n")
        self.tokens.append(("end", "", line))

    def refuse(self):
        """Refuses the text at this token."""
        raise tool.Refused(f"{self.file} line {self.tokens[self.at][2]}: statement does not fit")

    def is_next(self, *texts):
        """Whether the next token is one of these words and signs."""
        kind, text, _ = self.tokens[self.at]
        return kind in ("word", "sign") and text in texts

    def take(self, *texts):
        """Takes the next token if it is one of these; whether it is."""
        here = self.is_next(*texts)
        self.at += here
        return here

    def want(self, text):
        """Takes a sign or a word that has to be here."""
        if not self.take(text):
            self.refuse()

    def name(self):
        """Takes a name."""
        kind, text, _ = self.tokens[self.at]
        if kind != "name":
            self.refuse()
        self.at += 1
        return text

    def line(self):
        """The line of the next token."""
        return self.tokens[self.at][2]


class Builder:
    """Makes the models of a text."""

    def __init__(self, text, file):
        self.reader, self.models, self.model, self.count, self.statement = Reader(text, file), {}, None, 0, 0

    def add(self, inputs, rows, output=None):
        """Adds a cover of the open statement, to a signal without a name where none is told; its signal."""
        if output is None:
            output, self.count = f"expr {self.count}", self.count + 1
        self.model.covers.append(Cover(inputs, output, rows, self.statement))
        return output

    def primary(self):
        """A name, a constant or an expression in parentheses, complemented or not."""
        reader, turns = self.reader, 0
        while reader.take("~"):
            turns += 1
        if reader.take("("):
            signal = self.expression()
            reader.want(")")
        elif reader.tokens[reader.at][0] == "constant":
            signal = self.constant()
        else:
            signal = reader.name()
        for _ in range(turns):
            signal = self.add([signal], [("0", "1")])
        return signal

    def constant(self):
        """A constant, as a signal."""
        self.reader.at += 1
        return self.add([], [("", "1")] if self.reader.tokens[self.reader.at - 1][1] == "1'b1" else [])

    def level(self, number):
        """An expression of the operators of a level and those that bind closer."""
        if number == len(OPERATORS):
            return self.primary()
        sign, rows = OPERATORS[number]
        signal = self.level(number + 1)
        while self.reader.take(sign):
            signal = self.add([signal, self.level(number + 1)], rows)
        return signal

    def expression(self):
        """An expression; `?:` binds from the right."""
        waiting = []
        while True:
            signal = self.level(0)
            if not self.reader.take("?"):
                break
            waiting.append((signal, self.expression()))
            self.reader.want(":")
        for condition, chosen in reversed(waiting):
            signal = self.add([condition, chosen, signal], [("11-", "1"), ("0-1", "1")])
        return signal

    def assign(self):
        """A name with the value of an expression: the last cover drives it, or it is a copy of a name."""
        name = self.reader.name()
        self.reader.want("=")
        signal = self.expression()
        if signal.startswith("expr "):
            self.count -= 1
            self.model.covers[-1] = self.model.covers[-1]._replace(output=name)
        else:
            self.add([signal], [("1", "1")], name)

    def gate(self, kind):
        """A gate with its terminals."""
        reader = self.reader
        if not reader.is_next("("):
            reader.name()
        reader.want("(")
        outputs, inputs = [reader.name()], []
        while reader.take(","):
            plain = reader.tokens[reader.at][0] == "name" and reader.tokens[reader.at + 1][1] == ","
            if kind in ONE_INPUT and plain:
                outputs.append(reader.name())
            else:
                inputs.append(self.expression())
        reader.want(")")
        if kind in GATES:
            self.add(inputs, [(GATES[kind] * len(inputs), "1" if kind in ("and", "nor") else "0")], outputs[0])
        elif kind in ONE_INPUT or len(inputs) == 1:
            for output in outputs:
                self.add(inputs, [("0" if kind in ("not", "xnor") else "1", "1")], output)
        else:
            signal = inputs[0]
            for other in inputs[1:-1]:
                signal = self.add([signal, other], OPERATORS[1][1])
            self.add([signal, inputs[-1]], OPERATORS[1][1] if kind == "xor" else [("00", "1"), ("11", "1")], outputs[0])

    def instance(self, model):
        """An instance with its ties."""
        reader, ties = self.reader, {}
        reader.name()
        reader.want("(")
        while True:
            reader.want(".")
            formal = reader.name()
            reader.want("(")
            if not reader.is_next(")"):
                ties[formal] = self.constant() if reader.tokens[reader.at][0] == "constant" else reader.name()
            reader.want(")")
            if not reader.take(","):
                break
        reader.want(")")
        self.model.subs.append(SubModel(model, ties, self.statement))

    def listed(self, one):
        """Items up to the `;`."""
        one()
        while self.reader.take(","):
            one()
        self.reader.want(";")

    def statements(self, ports, directions):
        """The statements of a module."""
        reader = self.reader
        while not reader.take("endmodule"):
            self.statement = reader.line()
            kind, text, _ = reader.tokens[reader.at]
            reader.at += 1
            if kind == "name":
                self.listed(lambda: self.instance(text))
            elif text in ("input", "output"):
                reader.take("wire")
                self.listed(lambda: directions.__setitem__(reader.name(), text))
            elif text == "wire":
                self.listed(reader.name)
            elif text == "assign":
                self.listed(self.assign)
            elif text in GATES or text in CHAINS or text in ONE_INPUT:
                self.listed(lambda: self.gate(text))
            else:
                reader.at -= 1
                reader.refuse()
        self.model.inputs += [port for port in ports if directions.get(port) == "input"]
        self.model.outputs += [port for port in ports if directions.get(port) == "output"]

    def module(self):
        """A module."""
        reader, ports, directions, direction = self.reader, [], {}, None
        line = reader.line()
        reader.want("module")
        name = reader.name()
        self.model, self.count = Model(name, line), 0
        self.models[name] = self.model
        if reader.take("("):
            while True:
                for word in ("input", "output"):
                    if reader.take(word):
                        direction = word
                        reader.take("wire")
                ports.append(reader.name())
                if direction:
                    directions[ports[-1]] = direction
                if not reader.take(","):
                    break
            reader.want(")")
        reader.want(";")
        self.statements(ports, directions)


def models_of_modules(text, file="-"):
    """The models of the modules of a text, by name."""
    builder = Builder(text, file)
    while builder.reader.tokens[builder.reader.at][0] != "end":
        builder.module()
    return builder.models
