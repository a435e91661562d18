"""What a replay prints, the nets of a cell's flat circuit at one valuation, and the classes of its parts, as docs/FORMATS.md has them."""

from simulator import joined
from verdicts import PhaseCheck

# What is shown where a gate at the part of a net has no bit.
BLOCKED = "-"


def seen(in_phase, part, bits, held):
    """What the nets of a part show, or that a gate at it has no bit."""
    if any(gate not in bits for gate in part.gates):
        return dict.fromkeys(part.nets, BLOCKED)
    return in_phase.part_responses(part, bits, held)


def setting_at(check, given):
    """What a valuation gives that a list of bits by the names of variables tells: 0 where it has none, or another one has that name."""
    names = check.variable_names()
    bits = [given.get(name, 0) if name not in names[:at] else 0 for at, name in enumerate(names)]
    return next(setting for valuation, setting in check.settings_of([bits]))


def replay_lines(comparison, phase, given):
    """The lines for a cell that can be checked."""
    check = PhaseCheck(comparison, phase, phase)
    setting = setting_at(check, given)
    in_phase = check.in_phase
    bits = {**in_phase.fixed, **setting.inputs, **in_phase.known}
    bare = {}
    for part in sorted(in_phase.parts, key=lambda part: part.rank):
        shown = seen(in_phase, part, bits, setting.held)
        bare.update(shown)
        bits.update({net: bit for net, bit in shown.items() if bit in (0, 1)})
    kept = {}
    for region in in_phase.kept_regions:
        kept.update(seen(in_phase, region, bits, setting.held))
    lines = [f"replay {comparison.cell} phase {phase.name} meets {'yes' if check.meets(setting) else 'no'}"]
    return lines + [f"net {comparison.circuit.names[net]} {bare[net]} {kept[net]}" for net in in_phase.plain]


def class_of(comparison, tables, nets):
    """The class of a part of all devices, by what is known in each phase.

    It is a domino stage where a p-device to supply 1 or an n-device to supply 0 joins a net with a hold, and the device's gate is known in
    every phase and not the same in all; else it passes where a device joins an input to it or a net of it has a hold.
    """
    devices = [device for device in comparison.circuit.devices if not nets.isdisjoint(device.ends)]
    held = nets & set(comparison.circuit.holds)
    for device in devices:
        gates = [known.get(device.gate) for known in tables]
        supply = 1 if device.kind == "p" else 0
        is_precharge = supply in device.ends and not held.isdisjoint(device.ends)
        if is_precharge and None not in gates and len(set(gates)) > 1:
            return "domino"
    passes = any(end in comparison.inputs for device in devices for end in device.ends)
    return "pass" if passes or held else "static"


def class_lines(comparison):
    """The lines of the parts of a cell that can be checked, by their least nets."""
    circuits = [comparison.in_phase(phase) for phase in comparison.rules.phases]
    tables = [circuit.known for circuit in circuits]
    parts = joined(circuits[0].plain, [device.ends for device in comparison.circuit.devices])
    names = comparison.circuit.names
    return [f"class {comparison.cell} {names[nets[0]]} {class_of(comparison, tables, set(nets))}" for nets in parts]
