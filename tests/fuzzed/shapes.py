"""Cases that are grown to a size: chains, trees, rings and grids of devices, instances, covers and sub-models, deep expressions, many
ports, phases, latches, lines of rules, and each limit with the numbers next to it.

A shape is a function of a source of numbers; it gives the netlist, the models and the rules as text.
"""

RULES = "supply 1 vdd\nsupply 0 gnd\ndevice p p\ndevice n n\n"
INVERTER = ".subckt inv a y\nm1 y a vdd vdd p\nm2 y a gnd gnd n\n.ends\n"
NOT = ".model inv\n.inputs a\n.outputs y\n.names a y\n0 1\n.end\n"


def near(draw, *limits):
    """A number at one of some limits, next to it, or below it."""
    limit = draw.choice(limits)
    return max(1, draw.choice((limit - 1, limit, limit + 1, draw.randrange(1, limit + 1))))


def cells_inside_each_other(draw):
    """Cells of some instances of the one before, with models of sub-models, to a depth about the limit."""
    depth, width = near(draw, 5, 16, 32, 40), draw.choice((1, 1, 1, 2, 3, 9))
    net, model = ["t\n", INVERTER.replace("inv", "c0")], [NOT.replace("inv", "c0")]
    for at in range(1, depth):
        wires = ["a", *(f"w{i}" for i in range(1, width)), "y"]
        net.append(f".subckt c{at} a y\n" + "".join(f"x{i} {wires[i]} {wires[i + 1]} c{at - 1}\n" for i in range(width)) + ".ends\n")
        ties = "".join(f".subckt c{at - 1} a={wires[i]} y={wires[i + 1]}\n" for i in range(width))
        model.append(f".model c{at}\n.inputs a\n.outputs y\n{ties}.end\n")
    skipped = "".join(f"pair c{at} -\n" for at in range(depth - 1)) if draw.random() < 0.3 else ""
    return "".join(net), "".join(model[: draw.choice((1, depth, depth, depth))]), RULES + skipped


def row(draw):
    """A row of pass devices from an input to an output, in some order, with one gate or one for each."""
    count, gates = near(draw, 10, 100, 1000), draw.choice((1, 1, 3, 40))
    lines = [f"m{i} n{i} {draw.choice(('vdd', 'g%d' % draw.randrange(gates)))} n{i + 1} gnd n\n" for i in range(count)]
    draw.choice((lines.reverse, lambda: draw.shuffle(lines), lambda: None))()
    inputs = " ".join(f"g{i}" for i in range(gates))
    return f"t\n.subckt row n0 {inputs} n{count}\n{''.join(lines)}.ends\n", f".model row\n.inputs n0 {inputs}\n.outputs n{count}\n.names n0 n{count}\n1 1\n.end\n", RULES


def grid(draw):
    """A grid of pass devices, with supplies at some nets, keepers and holds at others."""
    side, gates = near(draw, 3, 8, 20, 30), draw.choice((1, 4, 12))
    lines = []
    for i in range(side):
        for j in range(side):
            for to in (f"n{i}_{j + 1}", f"n{i + 1}_{j}"):
                lines.append(f"m{len(lines)} n{i}_{j} g{draw.randrange(gates)} {draw.choice((to, to, to, 'vdd', 'gnd'))} gnd {draw.choice('np')}\n")
    draw.choice((lines.reverse, lambda: draw.shuffle(lines), lambda: None))()
    inputs = " ".join(f"g{i}" for i in range(gates))
    rules = "".join(f"hold grid n{draw.randrange(side)}_{draw.randrange(side)} {draw.choice('123')}\n" for _ in range(draw.choice((0, 1, 1)))) + "".join(
        f"strength grid m{i} {draw.choice('4567')}\n" for i in range(draw.choice((0, side)))
    )
    keepers = f"keeper grid m{draw.randrange(len(lines))}\n" if draw.random() < 0.3 else ""
    return f"t\n.subckt grid {inputs} n{side}_{side}\n{''.join(lines)}.ends\n", f".model grid\n.inputs {inputs}\n.outputs n{side}_{side}\n.names n{side}_{side}\n.end\n", RULES + rules + keepers


def wide_gate(draw):
    """A NAND gate of many inputs, with one of its rows in some order."""
    count = near(draw, 8, 100, 205, 400)
    names = [f"i{i}" for i in range(count)]
    high = [f"m{i} y i{i} vdd vdd p\n" for i in range(count)]
    low = [f"m{count + i} {f'u{i}' if i else 'y'} i{i} {f'u{i + 1}' if i + 1 < count else 'gnd'} gnd n\n" for i in range(count)]
    if draw.random() < 0.5:
        draw.shuffle(low)
    rows = "".join("-" * i + "0" + "-" * (count - 1 - i) + " 1\n" for i in range(count)) if count < 200 else "1" * count + " 0\n"
    inputs = " ".join(names)
    return f"t\n.subckt nand {inputs} y\n{''.join(high + low)}.ends\n", f".model nand\n.inputs {inputs}\n.outputs y\n.names {inputs} y\n{rows}.end\n", RULES


def ring(draw):
    """Inverters one behind the other, in one cell or as instances, open or as a ring."""
    count, closed, whole = near(draw, 3, 100, 1500), draw.random() < 0.5, draw.random() < 0.5
    nets = [f"n{i}" for i in range(count)] + ["n0" if closed else f"n{count}"]
    if whole:
        lines = [f"x{i} {nets[i]} {nets[i + 1]} inv\n" for i in range(count)]
    else:
        lines = [f"m{i}p {nets[i + 1]} {nets[i]} vdd vdd p\nm{i}n {nets[i + 1]} {nets[i]} gnd gnd n\n" for i in range(count)]
    if draw.random() < 0.3:
        draw.shuffle(lines)
    covers = [f".names {nets[i]} {nets[i + 1]}\n0 1\n" for i in range(count)]
    draw.choice((covers.reverse, lambda: None))()
    ports = nets[-1] if closed else f"n0 n{count}"
    inputs = "" if closed else ".inputs n0\n"
    return f"t\n{INVERTER}.subckt ring {ports}\n{''.join(lines)}.ends\n", f"{NOT}.model ring\n{inputs}.outputs {nets[-1]}\n{''.join(covers)}.end\n", RULES


def expression(draw):
    """Constraints with parentheses, operators and inverses to about each limit."""
    depth, count = near(draw, 3, 64, 64, 300), near(draw, 3, 100, 1000)
    forms = [
        "(" * depth + "a" + ")" * depth,
        "(" * depth + "a" + ")" * draw.randrange(depth + 1),
        "!" * count + "a",
        draw.choice(("&", " | ", "^")).join(["a"] + [draw.choice("ab") for _ in range(count)]),
        "".join("!(a" + draw.choice("&|^") for _ in range(depth)) + "b" + ")" * depth,
        "(a&" * depth + "b" + ")" * depth + "|a" * (count % 700),
    ]
    lines = "".join(f"assume inv {draw.choice(('all', '*'))} {draw.choice(forms)}\n" for _ in range(near(draw, 1, 3)))
    return "t\n" + INVERTER, NOT, RULES + lines


def many_ports(draw):
    """A cell with ports about the limit, whose model has as many inputs, and which is used in another."""
    count = near(draw, 10, 999, 1000, 4096)
    ports = " ".join(f"p{i}" for i in range(count))
    above = f".subckt top {ports} y\nx1 {ports} y wide\n.ends\n" if count < 3000 and draw.random() < 0.5 else ""
    net = f"t\n.subckt wide {ports} y\nm1 y p0 vdd vdd p\nm2 y p0 gnd gnd n\n.ends\n{above}"
    return net, "".join(f".model {name}\n.inputs {ports}\n.outputs y\n.names p0 y\n0 1\n.end\n" for name in ("wide", "top")), RULES


def many_cells(draw):
    """Many small cells, with a model each or none, and rules for each."""
    count = near(draw, 10, 500, 1500)
    net = "t\n" + "".join(INVERTER.replace("inv", f"c{i}") for i in range(count))
    model = "".join(NOT.replace("inv", f"c{i}") for i in range(count) if draw.random() < 0.9)
    return net, model, RULES + "".join(f"pair c{draw.randrange(count + 1)} {draw.choice(('-', 'c0', 'c1'))}\n" for _ in range(draw.choice((0, 9))))


def many_phases(draw):
    """Clocks and phases about the limit, with constraints, observed phases and entered constants in each."""
    clocks, phases = near(draw, 1, 4, 16), near(draw, 2, 16)
    lines = [f"clock k{i}\n" for i in range(clocks)]
    lines += [f"phase f{i} " + " ".join(f"k{j}={draw.choice('01')}" for j in range(clocks)) + "\n" for i in range(phases)]
    lines += ["clockport lat c k0\nhold lat s\nmatch lat s q\nkeeper lat m7 m8\n"]
    lines += [f"{draw.choice(('assume lat', 'observe lat q', 'enter lat'))} f{i} {draw.choice(('d', 's 0', 's 1', ''))}\n" for i in range(draw.choice((0, phases)))]
    net = "t\n.subckt lat d c q\nm1 d c s gnd n\nm2 q s vdd vdd p\nm3 q s gnd gnd n\nm7 s q vdd vdd p\nm8 s q gnd gnd n\n.ends\n"
    return net, f".model lat\n.inputs d\n.clock c\n.outputs q\n.latch d q {draw.choice(('ah', 'al', 're', 'fe'))} c 3\n.end\n", RULES + "".join(lines)


def many_latches(draw):
    """A register of latches in one cell or as instances, each with its hold and its match."""
    count = near(draw, 2, 50, 300)
    latch = ".subckt lat d c q\nm1 d c s gnd n\nm2 q s vdd vdd p\nm3 q s gnd gnd n\n.ends\n"
    nets = " ".join(f"d{i} q{i}" for i in range(count))
    lines = "".join(f"x{i} d{i} c q{i} lat\n" for i in range(count))
    latches = "".join(f".latch d{i} b{i} ah c 3\n.names b{i} q{i}\n0 1\n" for i in range(count))
    model = f".model reg\n.inputs c {' '.join(f'd{i}' for i in range(count))}\n.outputs {' '.join(f'q{i}' for i in range(count))}\n{latches}.end\n"
    matches = "".join(f"match reg x{i}:b {draw.choice(('', '', '', '!'))}b{i}\n" for i in range(count) if draw.random() < 0.95)
    rules = RULES + "hold lat s\nmatch lat s b\n" + matches
    return f"t\n{latch}.subckt reg c {nets}\n{lines}.ends\n", ".model lat\n.inputs d c\n.outputs q\n.latch d b ah c 3\n.names b q\n0 1\n.end\n" + model, rules


def covers(draw):
    """Covers one behind the other, in a ring, as trees of sub-models that double, and one with many rows or inputs."""
    kind, count = draw.randrange(4), near(draw, 3, 100, 2000)
    if kind == 0:
        inner = [f".names w{i} w{i + 1}\n{draw.choice('01')} 1\n" for i in range(count)]
        draw.choice((inner.reverse, lambda: draw.shuffle(inner), lambda: None))()
        text = f".names {draw.choice(('a', 'w%d' % draw.randrange(count), ''))} w0\n1 1\n".replace("  ", " ") + "".join(inner) + f".names w{count} y\n0 1\n"
    elif kind == 1:
        inputs = min(count, 1001)
        text = f".names {' '.join(['a'] * inputs)} y\n" + "".join("".join(draw.choice("01--") for _ in range(inputs)) + " 0\n" for _ in range(max(1, 60000 // inputs // 2)))
    elif kind == 2:
        depth, width = near(draw, 4, 16, 31, 32), draw.choice((1, 2, 3, 9))
        models = [NOT.replace("inv", "g0")]
        for at in range(1, depth):
            ties = "".join(f".subckt g{at - 1} a={'a' if i == 0 else f'w{i}'} y={'y' if i == width - 1 else f'w{i + 1}'}\n" for i in range(width))
            models.append(f".model g{at}\n.inputs a\n.outputs y\n{ties}.end\n")
        return "t\n" + INVERTER, "".join(models) + f".model inv\n.inputs a\n.outputs y\n.subckt g{depth - 1} a=a y=y\n.end\n", RULES
    else:
        text = "".join(f".latch w{i} w{i + 1} {draw.choice(('', 're a 0', 'ah NIL', 'al a'))}\n" for i in range(count)) + f".names a w0\n1 1\n.names w{count} y\n0 1\n"
    return "t\n" + INVERTER, f".model inv\n.inputs a\n.outputs y\n{text}.end\n", RULES


def random_circuit(draw):
    """Devices between nets that are drawn, of several levels, with holds, keepers and constraints that are drawn too."""
    nets, count = near(draw, 3, 8, 20), near(draw, 4, 30, 200)
    names = [f"n{i}" for i in range(nets)] + ["a", "b", "y", "vdd", "gnd"]
    lines = "".join(f"m{i} {draw.choice(names)} {draw.choice(names + ['a', 'b', 'a', 'b'])} {draw.choice(names)} gnd {draw.choice('np')}\n" for i in range(count))
    rules = "".join(f"strength mix m{i} {draw.choice('4567')}\n" for i in range(0, count, draw.choice((1, 3, 1000))))
    rules += "".join(f"hold mix n{i} {draw.choice('123')}\n" for i in range(draw.choice((0, 0, 1, 3))))
    rules += "".join(f"keeper mix m{i}\n" for i in range(draw.choice((0, 0, 1, 3))))
    above = ".subckt top a b y z\nx1 a b y mix\nx2 b y z mix\n.ends\n"
    model = ".model mix\n.inputs a b\n.outputs y\n.names a b y\n11 0\n.end\n.model top\n.inputs a b\n.outputs y z\n.subckt mix a=a b=b y=y\n.subckt mix a=b b=y y=z\n.end\n"
    return f"t\n.subckt mix a b y\n{lines}.ends\n{above}", model, RULES + rules


def long_texts(draw):
    """Words, lines, comments and lists that are about as long as a file may be here, and lines that go on many times."""
    long, many = "n" * near(draw, 15, 5000, 60000), near(draw, 3, 1000, 15000)
    net = draw.choice((f".subckt {long} a y\nm1 y a vdd vdd p\n.ends\n", ".subckt inv a\n+ y\n" + "+\n" * many + "m1 y a\n+\n+ vdd vdd p\n.ends\n", "* " + long + "\n" + INVERTER, f".subckt inv a {long}\n.ends\n"))
    model = draw.choice((NOT, NOT.replace(".inputs a", ".inputs a\\\n" + "\\\n" * many), NOT.replace("inv", long), "#" + long + "\n" + NOT, NOT.replace(".names a y", ".names a " + "a " * many + "y")))
    rules = draw.choice(("", f"supply 1 {long}\n", "supply 0" + " gnd" * many, "\n" * many, "#" * many + "\n", f"assume inv all {long}\n", f"pair {long} {long}\n"))
    return "t\n" + net, model, RULES + rules


SHAPES = [
    cells_inside_each_other, row, grid, wide_gate, ring, expression, many_ports, many_cells, many_phases, many_latches, covers, random_circuit, random_circuit, long_texts,
]  # fmt: skip


def shape(draw):
    """A shape that is drawn, as three texts of bytes."""
    return [text.encode() for text in draw.choice(SHAPES)(draw)]
