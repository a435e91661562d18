"""One thing turned: a change to a cell, to its model or to its rules, after which circuit and model may differ."""

from designs import SUPPLIES, Device, Expression, Reference


def turn_device(random, drawing):
    """Another gate, end, kind or level of a device, or no such device."""
    devices = drawing.cell.devices
    nets = drawing.cell.ports + drawing.cell.inner_nets() + list(SUPPLIES)
    if not devices:
        return
    device = random.choice(devices)
    change = random.choice(["gate", "drain", "source", "kind", "level", "gone"])
    if change == "gone":
        devices.remove(device)
    elif change == "kind":
        device.kind = "n" if device.kind == "p" else "p"
    elif change == "level":
        device.level = random.choice([4, 5, 7])
    else:
        setattr(device, change, random.choice(nets))


def turn_extra(random, drawing):
    """One device more."""
    nets = drawing.cell.ports + drawing.cell.inner_nets() + list(SUPPLIES)
    ends = [random.choice(nets) for _ in range(3)]
    name = f"mx{len(drawing.cell.devices)}"
    drawing.cell.devices.append(Device(name, *ends, random.choice(["n", "p"]), random.choice([4, 5, 6, 6, 7])))


def turn_instance(random, drawing):
    """Another net at a port of an instance."""
    if drawing.cell.instances:
        instance = random.choice(drawing.cell.instances)
        nets = drawing.cell.ports + drawing.cell.inner_nets() + list(SUPPLIES)
        instance.nets[random.randrange(len(instance.nets))] = random.choice(nets)


def turn_hold(random, drawing):
    """A net more or less that keeps its charge, or another size; now and then an input or a clock port, which has its value anyway."""
    nets = drawing.outputs + drawing.cell.inner_nets()
    if random.random() < 0.3:
        nets = drawing.inputs + list(drawing.clocks)
    if not nets:
        return
    net = random.choice(nets)
    if net in drawing.holds and random.random() < 0.4:
        del drawing.holds[net]
    else:
        drawing.holds[net] = random.choice([1, 2, 3])


def turn_enter(random, drawing):
    """Another constant of an `enter` line, one less, or one more at another net."""
    lines = sorted(drawing.enters)
    if lines and random.random() < 0.3:
        del drawing.enters[random.choice(lines)]
    elif lines and random.random() < 0.5:
        key = random.choice(lines)
        drawing.enters[key] = 1 - drawing.enters[key]
    elif lines and drawing.holds:
        phase, _ = random.choice(lines)
        drawing.enters[(phase, random.choice(sorted(drawing.holds)))] = random.choice([0, 1])


def turn_write(random, drawing):
    """Another gate or source of a device that writes a net that keeps its charge, mostly not the first one, or another level."""
    behind = list(drawing.holds)[1:] if len(drawing.holds) > 1 and random.random() < 0.7 else list(drawing.holds)
    writing = [device for device in drawing.cell.devices if device.drain in behind or device.source in behind]
    if not writing:
        return
    device = random.choice(writing)
    change = random.choice(["gate", "other end", "level", "keeper"])
    if change == "level":
        device.level = random.choice([4, 5, 7])
    elif change == "gate":
        device.gate = random.choice(drawing.inputs + list(drawing.clocks) + list(SUPPLIES))
    elif change == "keeper":
        drawing.keepers.append(device.name)
    elif device.drain in drawing.holds:
        device.source = random.choice(drawing.inputs + list(SUPPLIES))
    else:
        device.drain = random.choice(drawing.inputs + list(SUPPLIES))


def turn_keeper(random, drawing):
    """A device more or less that is called a keeper, or another level or gate of a keeper."""
    keepers = [device for device in drawing.cell.devices if device.name in drawing.keepers]
    if keepers and random.random() < 0.6:
        random.choice(keepers).level = random.choice([5, 6, 7])
        if random.random() < 0.5:
            random.choice(keepers).gate = random.choice(drawing.outputs + drawing.cell.inner_nets() + list(SUPPLIES))
    elif keepers and random.random() < 0.6:
        drawing.keepers.remove(random.choice(keepers).name)
    elif drawing.cell.devices:
        drawing.keepers.append(random.choice(drawing.cell.devices).name)


def turn_match(random, drawing):
    """The inverse of an element at a net or an instance, or no `match` line there."""
    table = random.choice([drawing.matches, drawing.instance_matches])
    if table:
        key = random.choice(sorted(table))
        if random.random() < 0.3:
            del table[key]
        else:
            table[key] = Reference(table[key].name, not table[key].inverted)


def turn_phase(random, drawing):
    """Another constant of an `enter` line, an output that is observed in all phases, or the inverse of a clock."""
    if drawing.enters and random.random() < 0.5:
        key = random.choice(sorted(drawing.enters))
        drawing.enters[key] = 1 - drawing.enters[key]
    elif drawing.observed and random.random() < 0.6:
        drawing.observed.clear()
    elif drawing.clocks:
        clock = random.choice(sorted(drawing.clocks))
        drawing.clocks[clock] = Reference(drawing.clocks[clock].name, not drawing.clocks[clock].inverted)


def turn_assume(random, drawing):
    """The inverse of what the cell assumes, or none, or one more."""
    if drawing.assumes and random.random() < 0.7:
        phase, expression = drawing.assumes.pop()
        if random.random() < 0.4:
            drawing.assumes.append((phase, Expression("!", (expression,))))
    elif drawing.inputs:
        names = drawing.inputs + list(drawing.clocks) + [port for port in drawing.cell.ports if port in SUPPLIES]
        left, right = (Expression("port", (random.choice(names),)) for _ in range(2))
        right = Expression("!", (right,)) if random.random() < 0.5 else right
        drawing.assumes.append((None, Expression(random.choice("&^||"), (left, right))))


def turn_feedback(random, drawing):
    """A keeper that always conducts, or a weaker one."""
    keepers = [device for device in drawing.cell.devices if device.name in drawing.keepers]
    if keepers:
        device = random.choice(keepers)
        device.gate = "gnd" if device.kind == "p" else "vdd"
        device.level = random.choice([4, 6, 6, 6, 7])


def turn_supply(random, drawing):
    """Another net at a port of an instance that is named as a supply."""
    tied = [(instance, at) for instance in drawing.cell.instances for at, net in enumerate(instance.nets) if net in SUPPLIES]
    if tied:
        instance, at = random.choice(tied)
        instance.nets[at] = random.choice([*SUPPLIES, *drawing.inputs])


def turn_model(random, drawing):
    """A row less, the other value of a cover, or another kind of latch."""
    if drawing.model and drawing.model.latches and random.random() < 0.5:
        other = {"ah": "al", "al": "ah", "re": "fe", "fe": "re"}
        latch = random.choice(drawing.model.latches)
        latch.kind = other[latch.kind]
    elif drawing.model and drawing.model.covers:
        cover = random.choice(drawing.model.covers)
        if cover.rows and random.random() < 0.7:
            cover.rows.remove(random.choice(cover.rows))
        else:
            cover.value = 1 - cover.value


TURNS = [turn_device] * 5 + [turn_extra, turn_instance, turn_instance, turn_hold, turn_keeper, turn_keeper]
TURNS += [turn_match, turn_phase, turn_phase, turn_assume, turn_model, turn_model]


def tidy(drawing):
    """Leaves out of the rules what names a device or a net that the cell has no more."""
    devices = {device.name for device in drawing.cell.devices}
    nets = set(drawing.cell.ports) | set(drawing.cell.mentioned_nets())
    drawing.keepers = [name for name in dict.fromkeys(drawing.keepers) if name in devices]
    drawing.holds = {net: size for net, size in drawing.holds.items() if net in nets and net not in SUPPLIES}
    drawing.matches = {net: element for net, element in drawing.matches.items() if net in drawing.holds}
    drawing.enters = {(phase, net): bit for (phase, net), bit in drawing.enters.items() if net in drawing.holds}
