"""Models of covers alone as modules of gate-level Verilog, in forms that differ from cover to cover.

Each input of a cover stands in what it becomes, also where no row asks for it, so that what an output follows from is the same in both files.
"""

import re

from designs import Cover

# Words that are no names unless they are escaped.
WORDS = "module endmodule input output wire assign and nand or nor xor xnor buf not".split()
REFUSED = (
    "reg inout tri tri0 tri1 wand wor supply0 supply1 integer parameter localparam defparam always initial function task generate"
    " specify primitive bufif0 bufif1 notif0 notif1 nmos pmos cmos tran"
).split()


# The most literals of a cover that is written as one expression, which may have 1,000 operators.
MOST_LITERALS = 200


def has_modules(design):
    """Whether the models of a design can be written as modules: without latches, clocks and don't-care networks, and with no input that is an output too."""
    return all(
        not model.latches and not model.clocks and model.network is None and len({*model.inputs, *model.outputs}) == len(model.inputs) + len(model.outputs)
        for model in design.models.values()
    )


def value_of(cover, bits):
    """The bit of a cover for those of its inputs."""
    fits = any(all(sign in ("-", bit) for sign, bit in zip(row, bits)) for row in cover.rows)
    return int(fits) if cover.value == 1 or not cover.rows else int(not fits)


class Writer:
    """Writes the modules of a design, each form drawn."""

    def __init__(self, random):
        self.random = random
        self.lines = []
        self.taken = set()
        self.count = 0

    def name(self, name):
        """A name as it is written; it may be escaped where it need not be."""
        plain = re.fullmatch(r"[A-Za-z_][A-Za-z0-9_$]*", name) and name not in WORDS + REFUSED
        return name if plain and self.random.random() < 0.9 else f"\\{name} "

    def new_name(self):
        """A name that no signal of the model has."""
        while True:
            self.count += 1
            name = f"w${self.count}"
            if name not in self.taken:
                self.taken.add(name)
                return name

    def literal(self, name, sign):
        """An input as a row has it; where no bit is asked, something that is always 1."""
        written = self.name(name)
        if sign == "-":
            return self.random.choice([f"({written} | ~{written})", f"(~({written} & ~{written}))", f"({written} ? {written} : 1'b1)"])
        return written if sign == "1" else self.random.choice([f"~{written}", f"(~{written})", f"{written} ^ 1'b1"])

    def product(self, cover, row):
        """The terms of a row."""
        terms = [self.literal(name, sign) for name, sign in zip(cover.inputs, row)]
        return [f"({term})" if "^" in term else term for term in terms] or ["1'b1"]

    def choice(self, cover):
        """The function of a cover by its inputs one after the other."""
        if not cover.inputs:
            return f"1'b{value_of(cover, '')}"
        first, rest = cover.inputs[0], cover.inputs[1:]
        cases = []
        for bit in "10":
            rows = [row[1:] for row in cover.rows if row[0] in ("-", bit)]
            # Without rows it is 0 for either value: a row of the off-set that always fits.
            value = cover.value if rows or cover.value == 1 or not cover.rows else None
            inner = Cover(rest, cover.output, rows, cover.value) if value is not None else Cover(rest, cover.output, ["-" * len(rest)], 1)
            cases.append(self.choice(inner))
        return f"{self.name(first)} ? {self.grouped(cases[0])} : {cases[1]}"

    def grouped(self, text):
        """An expression, in parentheses now and then, and where it is a choice."""
        return f"({text})" if "?" in text or self.random.random() < 0.1 else text

    def sum_of(self, cover):
        """The function of a cover as a sum of its rows."""
        rows = [" & ".join(self.product(cover, row)) for row in cover.rows]
        rows = rows or [" & ".join(f"{self.name(name)} & ~{self.name(name)}" for name in cover.inputs) or "1'b0"]
        text = " | ".join(rows)
        return text if cover.value == 1 or not cover.rows else f"~({text})"

    def gates(self, cover):
        """The statements of a cover as gates: one for each row, and one for all of them; without rows one that is always 0."""
        if not cover.rows:
            terms = [term for name in cover.inputs for term in (self.name(name), f"~{self.name(name)}")] or ["1'b0"]
            return self.statement(f"and {self.gate_name()}({', '.join([self.name(cover.output)] + terms)})")
        outputs = []
        for row in cover.rows:
            outputs.append(self.new_name())
            kind, turned = self.random.choice([("and", False), ("nor", True)])
            terms = [f"~({term})" if turned else term for term in self.product(cover, row)]
            self.statement(f"{kind} {self.gate_name()}({', '.join([self.name(outputs[-1])] + terms)})")
        kind = "or" if cover.value == 1 else "nor"
        return self.statement(f"{kind} {self.gate_name()}({', '.join([self.name(cover.output)] + [self.name(one) for one in outputs])})")

    def gate_name(self):
        """The name of a gate, or none."""
        return self.random.choice(["", "", "g ", "\\g[0] "])

    def statement(self, text):
        """A statement, which may go on over lines, with a comment now and then."""
        comment = self.random.choice(["", "", "", " // a comment", " /* and\n one of two lines */", " (* keep = 1 *)"])
        self.lines.append(f"  {text};{comment}")

    def parity(self, cover):
        """The kind of gate that a cover is, where it is 1 for an odd, or for an even, number of its inputs."""
        count = len(cover.inputs)
        if not 1 <= count <= 4:
            return None
        bits = [format(number, f"0{count}b") for number in range(2**count)]
        odd = [value_of(cover, one) == one.count("1") % 2 for one in bits]
        kinds = ("xor", "xnor") if count > 1 else ("buf", "not")
        return kinds[0] if all(odd) else kinds[1] if not any(odd) else None

    def cover(self, cover):
        """The statements of a cover."""
        kind = self.parity(cover)
        if kind and self.random.random() < 0.7:
            names = [self.name(one) for one in [cover.output] + cover.inputs]
            self.statement(f"{kind} {self.gate_name()}({', '.join(names)})")
        elif len(cover.rows) * len(cover.inputs) > MOST_LITERALS or self.random.random() < 0.3:
            self.gates(cover)
        elif len(cover.inputs) <= 4 and self.random.random() < 0.4:
            self.statement(f"assign {self.name(cover.output)} = {self.choice(cover)}")
        else:
            self.statement(f"assign {self.name(cover.output)} = {self.sum_of(cover)}")

    def header(self, model):
        """The beginning of a module, with directions in its list or behind it."""
        ports = [("input", name) for name in model.inputs] + [("output", name) for name in model.outputs]
        if not ports:
            self.lines.append(f"module {self.name(model.name)};")
        elif self.random.random() < 0.5:
            wire = self.random.choice(["", "wire "])
            listed = ", ".join(f"{direction} {wire}{self.name(name)}" for direction, name in ports)
            self.lines.append(f"module {self.name(model.name)} ({listed});")
        else:
            self.lines.append(f"module {self.name(model.name)} ({', '.join(self.name(name) for _, name in ports)});")
            self.lines += [f"  {direction} {self.name(name)};" for direction, name in self.random.sample(ports, len(ports))]

    def module(self, model):
        """The module of a model."""
        self.taken = {*model.inputs, *model.outputs} | {name for cover in model.covers for name in [*cover.inputs, cover.output]}
        self.taken |= {actual for use in model.submodels for actual in use.ties.values()}
        self.header(model)
        for number, use in enumerate(model.submodels):
            ties = ", ".join(f".{self.name(formal)}({self.name(actual)})" for formal, actual in use.ties.items())
            self.statement(f"{self.name(use.model)} u{number} ({ties})")
        for cover in model.covers:
            self.cover(cover)
        self.lines.append("endmodule")


def modules_text(design, random):
    """The Verilog file of a design."""
    writer = Writer(random)
    for model in design.models.values():
        if random.random() < 0.2:
            writer.lines.append("`celldefine")
        writer.module(model)
    return "\n".join(writer.lines) + random.choice(["\n", "", " // the end"])
