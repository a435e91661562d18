"""How strongly the outputs of a cell that was found equal drive, as `Facts` of crates/vrt_model/specs defines it: a level of each, or soft."""

from verdicts import PhaseCheck

# The drive of an output of which no level is told.
SOFT = "soft"


def is_alone(comparison, port):
    """Whether, in each phase of its flat circuit, the net of an output port is not known, and in its part with the keepers is that of no other."""
    net = comparison.outputs[port]
    others = [other for name, other in comparison.outputs.items() if name != port]
    for phase in comparison.rules.phases:
        circuit = comparison.in_phase(phase)
        if net in circuit.known or any(net in part.nets and not set(part.nets).isdisjoint(others) for part in circuit.kept_regions):
            return False
    return True


def levels_at(comparison, net):
    """The strengths of a net in all phases, at all valuations that meet the constraints, without and with the keepers; nothing is wrong there."""
    levels = set()
    for phase, after in comparison.rules.turns():
        check = PhaseCheck(comparison, phase, after)
        for _, setting in check.settings():
            if check.meets(setting) and next(check.faults(setting), None) is None:
                circuit = check.in_phase
                levels.add(circuit.part_strengths(circuit.part_of[net], check.bits, setting.held).get(net, 0))
                levels.add(circuit.kept_strengths(check.bits, setting.held).get(net, 0))
    return levels


def drives_of(flat, checked):
    """The drive of each output port: where it is alone in the flat circuit, the level that its net always has in the checked one, if it has one."""
    drives = {}
    for port, net in checked.outputs.items():
        levels = levels_at(checked, net) if is_alone(flat, port) else set()
        drives[port] = levels.pop() if len(levels) == 1 else SOFT
    return drives
