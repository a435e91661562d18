"""A switch-level simulator, after R. E. Bryant, "A switch-level model and simulator for MOS digital systems" (IEEE
Transactions on Computers C-33, 1984), as docs/MODEL.md tells it. It speaks of one valuation at a time, and searches: it
has no diagrams, and shares no code with the program that it is compared with.

Left out: `.model` cards, supplies of other names than `vdd` and `gnd`, and the mode `gen`. Of the causes of `unsupported`
there are `nomodel`, `supplytie`, `ports`, `outputisinput`, `noclock`, `unmatched`, `cycle` and `modelcycle`; what else may be wrong in the
files is not judged. Of a budget it says that it suffices where all valuations can be tried, and else whether it need not suffice.
"""

from dataclasses import dataclass

FIGHT = "fight"
FLOAT = "float"


def strengths(roots, channels):
    """The greatest level of a path that ends at each net.

    A path begins at a root with its level, and has the least level of its root and its devices. Roots are
    (net, level, value), channels (net, net, level) of conducting devices. Each channel passes on what its ends have, in both
    directions, until nothing grows: a way that passes a net twice is no stronger than the path that leaves out what is between.
    """
    strength = {}
    for net, level, _ in roots:
        strength[net] = max(level, strength.get(net, 0))
    changed = True
    while changed:
        changed = False
        for left, right, level in channels:
            for here, there in ((left, right), (right, left)):
                passed = min(strength.get(here, 0), level)
                if passed > strength.get(there, 0):
                    strength[there] = passed
                    changed = True
    return strength


def reached(value, roots, channels, strength):
    """The nets at which a clear path from a root of this value ends.

    A path is clear if each of its prefixes has the strength of the net at which it ends: else a stronger signal blocks it there.
    """
    marked = {net for net, level, bit in roots if bit == value and level == strength[net]}
    changed = True
    while changed:
        changed = False
        for left, right, level in channels:
            for here, there in ((left, right), (right, left)):
                if here in marked and there not in marked and min(strength[here], level) == strength[there]:
                    marked.add(there)
                    changed = True
    return marked


def responses(nets, roots, channels):
    """What each net shows: a fight where both values reach it, float where neither does, and else the one that does."""
    strength = strengths(roots, channels)
    zeros = reached(0, roots, channels, strength)
    ones = reached(1, roots, channels, strength)
    shown = {}
    for net in nets:
        if net in zeros and net in ones:
            shown[net] = FIGHT
        elif net in zeros or net in ones:
            shown[net] = 1 if net in ones else 0
        else:
            shown[net] = FLOAT
    return shown


def conducting(devices, bits):
    """The channels of the devices that conduct, where each gate has a bit."""
    return [device.ends + (device.level,) for device in devices if device.conducts(bits[device.gate])]


def joined(nets, channels):
    """The nets in groups that channels join, each group in order, and the groups by their least nets."""
    group = {net: [net] for net in nets}
    for left, right in channels:
        if left in group and right in group and group[left] is not group[right]:
            merged = group[left] + group[right]
            for net in merged:
                group[net] = merged
    return sorted(sorted(nets) for nets in {id(nets): nets for nets in group.values()}.values())


@dataclass(eq=False)
class Part:
    """Plain nets that channels join, with the devices whose channels meet them, and how deep it hangs at other nets."""

    nets: list
    devices: list
    sources: set  # the nets from which arcs lead to it: gates that are not known, and ports of whole instances
    counted: set  # those of them that count for ranks
    rank: int = 0
    given: list = ()  # the given nets that its channels meet
    held: list = ()  # the nets of holds there, with their sizes
    wholes: list = ()  # the whole instances with an output there

    def __post_init__(self):
        """The nets of the part, and those at which the channels of its devices end: only roots there matter to it."""
        self.touched = set(self.nets).union(*(device.ends for device in self.devices))
        self.gates = list({device.gate: None for device in self.devices})
        self.shown = {}  # what was found before, by the bits of the gates and the roots


class Cycle(Exception):
    """The gates of a circuit lead around; the least net on any such cycle."""

    def __init__(self, net):
        super().__init__(net)
        self.net = net


class PhaseCircuit:
    """A circuit in a phase: its known nets, its parts and their ranks. The bits of clock ports are those of the phase.

    Instances that are left whole say at which nets their outputs are, to which ports these are linked, and what they show.
    """

    def __init__(self, circuit, inputs, clock_bits, wholes=()):
        self.circuit = circuit
        self.wholes = wholes
        self.driven = {net for whole in wholes for net in whole.driven()}
        self.fixed = {0: 0, 1: 1, **clock_bits}
        self.plain = [net for net in range(len(circuit.names)) if net not in self.fixed and net not in inputs]
        self.inputs = inputs
        self.given = list(self.fixed) + inputs
        self.bare = [device for device in circuit.devices if not device.is_keeper]
        self.known = dict(self.fixed)
        while self.learn():
            pass
        self.parts = self.make_parts()
        self.part_of = {net: part for part in self.parts for net in part.nets}
        self.rank_parts()
        self.kept_regions = self.make_kept_regions()
        for part in self.parts + self.kept_regions:
            part.given = [net for net in self.given if net in part.touched]
            part.held = [(net, hold.size) for net, hold in circuit.holds.items() if net in part.touched]
            part.wholes = [whole for whole in wholes if not part.touched.isdisjoint(whole.driven())]

    def learn(self):
        """Learns what the nets of a shut region show; whether a net was learned. With it regions may become larger.

        The region of a net is the plain nets that devices known to conduct join to it. It is shut where all gates at it are
        known, it has no hold and no output of a whole instance, and no such device joins it to an input: then what it shows hangs
        on nothing else.
        """
        channels = [device for device in self.bare if device.gate in self.known and device.conducts(self.known[device.gate])]
        for region in joined(self.plain, [device.ends for device in channels]):
            if any(net not in self.known for net in region) and self.is_shut(set(region)):
                shown = self.shown_in(region)
                if any(net not in self.known for net in shown):
                    self.known.update(shown)
                    return True
        return False

    def devices_at(self, nets):
        """The devices of the bare circuit whose channels meet one of the nets."""
        return [device for device in self.bare if not nets.isdisjoint(device.ends)]

    def is_shut(self, region):
        """Whether all gates at a region are known, it has no hold and no whole output, and no input is joined to it."""
        at_region = self.devices_at(region)
        if any(device.gate not in self.known for device in at_region):
            return False
        if not region.isdisjoint(self.circuit.holds) or not region.isdisjoint(self.driven):
            return False
        return all(end not in self.inputs for left, right, _ in conducting(at_region, self.known) for end in (left, right))

    def shown_in(self, region):
        """The bits that the nets of a shut region show."""
        roots = [(net, self.circuit.source, bit) for net, bit in self.fixed.items()]
        shown = responses(region, roots, conducting(self.devices_at(set(region)), self.known))
        return {net: bit for net, bit in shown.items() if bit in (0, 1)}

    def make_parts(self):
        """The channel-connected parts of the bare circuit. A device that is known not to conduct joins nothing."""
        channels = [
            device for device in self.bare if device.gate not in self.known or device.conducts(self.known[device.gate])
        ]
        links = [link for whole in self.wholes for link in whole.links()]
        parts = []
        for nets in joined(self.plain, [device.ends for device in channels]):
            devices = [device for device in channels if not set(nets).isdisjoint(device.ends)]
            gates = {device.gate for device in devices} - set(self.known)
            leading = [link for link in links if link.output in nets]
            counted = {link.source for link in leading if link.is_named or link.source not in self.known}
            parts.append(Part(nets, devices, gates | {link.source for link in leading}, gates | counted))
        return parts

    def rank(self, net):
        """The rank of a net: 0 of given nets, and of a plain net that of its part."""
        return self.part_of[net].rank if net in self.part_of else 0

    def rank_parts(self):
        """Gives each part a rank of one more than those of the sources that count. Where that ends, the arcs lead around."""
        waiting = self.parts
        while waiting:
            ready = [part for part in waiting if all(self.part_of[net].rank for net in part.sources if net in self.part_of)]
            if not ready:
                raise Cycle(self.least_on_cycle())
            for part in ready:
                part.rank = 1 + max((self.rank(net) for net in part.counted), default=0)
            waiting = [part for part in waiting if not part.rank]

    def least_on_cycle(self):
        """The least net from which arcs lead back to it: an arc leads from a source of a part to each net of the part."""
        return next(net for net in self.plain if self.part_of[net] in self.parts_behind(net))

    def parts_behind(self, net):
        """The parts to which arcs lead from a net, over any number of parts."""
        further = {part for part in self.parts if net in part.sources}
        found = set()
        while further:
            found |= further
            further = {part for part in self.parts if any(self.part_of.get(source) in found for source in part.sources)} - found
        return found

    def roots(self, bits, held):
        """Where paths begin: given nets with their bits, holds with what they hold, and outputs of whole instances."""
        given = [(net, self.circuit.source, bits[net]) for net in self.given]
        given += [(net, hold.size, held[net]) for net, hold in self.circuit.holds.items()]
        for whole in self.wholes:
            given += whole.roots(set(self.plain), bits)
        return given

    def part_roots(self, part, bits, held):
        """Where paths begin that matter to a part."""
        roots = [(net, self.circuit.source, bits[net]) for net in part.given]
        roots += [(net, size, held[net]) for net, size in part.held]
        for whole in part.wholes:
            roots += whole.roots(part.touched, bits)
        return roots

    def part_strengths(self, part, bits, held):
        """The strength of each net of a part, where each gate of its devices has a bit."""
        return strengths(self.part_roots(part, bits, held), conducting(part.devices, bits))

    def kept_strengths(self, bits, held):
        """The strength of each net with the keepers."""
        return strengths(self.roots(bits, held), conducting(self.circuit.devices, bits))

    def make_kept_regions(self):
        """The parts with the keepers. A device that is known not to conduct joins nothing."""
        channels = [device for device in self.circuit.devices if device.gate not in self.known or device.conducts(self.known[device.gate])]
        regions = joined(self.plain, [device.ends for device in channels])
        return [Part(nets, [device for device in channels if not set(nets).isdisjoint(device.ends)], set(), set()) for nets in regions]

    def part_responses(self, part, bits, held):
        """What the nets of a part show, where each gate of its devices has a bit. It hangs on these bits and the roots alone."""
        roots = self.part_roots(part, bits, held)
        key = (tuple(bits[gate] for gate in part.gates), tuple(roots))
        if key not in part.shown:
            part.shown[key] = responses(part.nets, roots, conducting(part.devices, bits))
        return part.shown[key]

    def kept_responses(self, bits, held):
        """What all plain nets show with the keepers."""
        shown = {}
        for region in self.kept_regions:
            shown.update(self.part_responses(region, bits, held))
        return shown
