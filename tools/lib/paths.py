"""The conducting paths of a circuit at one valuation: their levels, which are clear and which are blocked, as docs/MODEL.md says.

    channels = Channels(moment, circuit, has_keepers=False)
    for path in channels.paths("y"): print(path.value, path.level, path.is_clear, path.text(channels))
    channels.joined("y"), channels.off_at({"y"})

Gates have the bits without the keepers, with the keepers too, as replay takes them.
"""

import heapq
from typing import List, NamedTuple, Optional

from lib.flat import FlatDevice

# The most paths that are told of a net.
MOST_PATHS = 12


class Root(NamedTuple):
    """Where a signal begins: a given net, or a held one, with its bit (None where it is not known)."""

    net: str
    level: int
    bit: Optional[str]
    is_held: bool

    @property
    def text(self):
        """The root as it is told."""
        return f"charge of {self.net}={self.bit or '?'} (size {self.level})" if self.is_held else f"{self.net}={self.bit}"


class Hop(NamedTuple):
    """A step from a net to another, by the conducting transistors between them."""

    devices: List[FlatDevice]
    net: str

    @property
    def level(self):
        """The level of the strongest of them."""
        return max(device.level for device in self.devices)


class Path(NamedTuple):
    """A path told from its end, with the net, the hops and the root; `is_clear` where no stronger signal blocks it."""

    net: str
    hops: List[Hop]
    root: Root
    is_clear: bool

    @property
    def value(self):
        """The bit that it brings."""
        return self.root.bit

    @property
    def level(self):
        """Its level."""
        return min([self.root.level] + [hop.level for hop in self.hops])

    def nets(self):
        """The nets on it, from its end to its root."""
        return [self.net] + [hop.net for hop in self.hops]

    def text(self, channels):
        """The path in one line."""
        words = [self.net]
        for number, hop in enumerate(self.hops):
            words.append(" or ".join(channels.told(device) for device in hop.devices))
            if number < len(self.hops) - 1:
                words.append(hop.net)
        return " <- ".join(words + [self.root.text])


class Channels:
    """The channels of a circuit at a moment, bare or with its keepers."""

    def __init__(self, moment, circuit, has_keepers):
        self.moment = moment
        self.has_keepers = has_keepers
        self.devices = [device for device in circuit.devices if has_keepers or not device.is_keeper]
        self.at = {}  # of each net the devices whose channel meets it
        for device in self.devices:
            for net in {device.drain, device.source}:
                self.at.setdefault(net, []).append(device)
        self.roots = {net: [Root(net, circuit.source_level, bit, False)] for net, bit in moment.given.items()}
        for net, held in moment.held.items():
            self.roots.setdefault(net, []).append(Root(net, held.size, held.bit, True))
        self.strength = self._strengths()
        self.reached = {bit: self._reached(bit) for bit in ("0", "1", None)}

    def conducts(self, device):
        """Whether a device conducts; None where its gate has no bit."""
        bit = self.moment.bit(device.gate)
        return (bit == "1") == (device.kind == "n") if bit in ("0", "1") else None

    def told(self, device):
        """A device as it is told."""
        words = [f"line {device.card.line}", device.kind, f"gate {device.gate}={self.moment.bit(device.gate)}", f"level {device.level}"]
        return f"{device.name} ({', '.join(words + ['keeper'] * device.is_keeper)})"

    def is_given(self, net):
        """Whether a net is a supply, an input or a clock port."""
        return net in self.moment.given

    def value(self, net):
        """What a net shows, as replay has it."""
        return self.moment.given.get(net) or (self.moment.kept if self.has_keepers else self.moment.bare).get(net, "-")

    def hops(self, net):
        """The steps from a net over conducting devices, those between the same nets together."""
        ends = {}
        for device in self.at.get(net, []):
            if device.drain != device.source and self.conducts(device):
                ends.setdefault(device.across(net), []).append(device)
        return [Hop(sorted(devices, key=lambda device: -device.level), end) for end, devices in ends.items()]

    def _strengths(self):
        found, todo = {}, [(-root.level, root.net) for roots in self.roots.values() for root in roots]
        heapq.heapify(todo)
        while todo:
            level, net = heapq.heappop(todo)
            if net in found:
                continue
            found[net] = -level
            for hop in self.hops(net):
                if hop.net not in found:
                    heapq.heappush(todo, (max(level, -hop.level), hop.net))
        return found

    def _reached(self, bit):
        """The nets that a value reaches by clear paths."""
        todo = [net for net, roots in self.roots.items() if any(r.bit == bit and r.level == self.strength[net] for r in roots)]
        found = set(todo)
        while todo:
            net = todo.pop()
            for hop in self.hops(net):
                if hop.net not in found and not self.is_given(hop.net) and self._is_clear_step(hop.net, hop, net):
                    found.add(hop.net)
                    todo.append(hop.net)
        return found

    def _is_clear_step(self, net, hop, before):
        return min(self.strength[before], hop.level) == self.strength[net]

    def shown(self, net):
        """What a net shows by these paths: a bit, `fight`, `float`, or `-` where a charge of unknown bit reaches it."""
        if net in self.reached[None]:
            return "-"
        bits = [bit for bit in ("0", "1") if net in self.reached[bit]]
        return "fight" if len(bits) > 1 else bits[0] if bits else "float"

    def paths(self, net):
        """Paths that end at a net, the clear ones first, at most MOST_PATHS of each kind, and whether there are more."""
        clear, more = [], False
        for bit in ("0", "1", None):
            found, cut = self._search(net, lambda root, b=bit: root.bit == b and root.level == self.strength[root.net], bit)
            clear += [Path(net, hops, root, True) for hops, root in found]
            more |= cut
        found, cut = self._search(net, lambda root: True)
        known = {(tuple(path.nets()), path.root) for path in clear}
        paths = [Path(net, hops, root, False) for hops, root in found]
        blocked = [path for path in paths if (tuple(path.nets()), path.root) not in known and not self._is_clear(path)]
        return clear + blocked, more or cut

    def _is_clear(self, path):
        level = path.root.level
        nets = path.nets()
        if level != self.strength[nets[-1]]:
            return False
        for hop, net in zip(reversed(path.hops), reversed(nets[:-1])):
            level = min(level, hop.level)
            if level != self.strength[net]:
                return False
        return True

    def _search(self, net, is_root, bit=0):
        """Paths from a net back to roots that are asked for, by clear steps alone where a bit is given."""

        def steps(at):
            if self.is_given(at):
                return []
            hops = self.hops(at)
            if bit == 0:
                return hops
            return [hop for hop in hops if hop.net in self.reached[bit] and self._is_clear_step(at, hop, hop.net)]

        edges, todo = {}, [net]
        while todo:
            at = todo.pop()
            if at not in edges:
                edges[at] = steps(at)
                todo += [hop.net for hop in edges[at]]
        distance = self._distances(edges, is_root)

        def leads(start, passed):
            """Whether a root that is asked for can be had from a net without passing some nets."""
            seen, todo = {start}, [start]
            while todo:
                at = todo.pop()
                if distance.get(at) == 0:
                    return True
                for hop in edges[at]:
                    if hop.net in distance and hop.net not in seen and hop.net not in passed:
                        seen.add(hop.net)
                        todo.append(hop.net)
            return False

        found, todo = [], [(net, [])]
        while todo and len(found) <= MOST_PATHS:
            at, hops = todo.pop()
            passed = {net} | {hop.net for hop in hops}
            found += [(hops, root) for root in self.roots.get(at, []) if is_root(root)]
            for hop in reversed(sorted(edges[at], key=lambda hop: distance.get(hop.net, 0))):
                if hop.net not in passed and leads(hop.net, passed):
                    todo.append((hop.net, hops + [hop]))
        return sorted(found[:MOST_PATHS], key=lambda pair: len(pair[0])), len(found) > MOST_PATHS

    def _distances(self, edges, is_root):
        """How many steps lie between each net and the nearest root that is asked for, where there is one."""
        back = {}
        for at, hops in edges.items():
            for hop in hops:
                back.setdefault(hop.net, []).append(at)
        found = {at: 0 for at in edges if any(is_root(root) for root in self.roots.get(at, []))}
        todo = list(found)
        for at in todo:
            for before in back.get(at, []):
                if before not in found:
                    found[before] = found[at] + 1
                    todo.append(before)
        return found

    def joined(self, net):
        """The nets that conducting channels join to a net, no given net among them, in the order in which they are found."""
        found, todo = {net: True}, [net]
        while todo:
            for hop in self.hops(todo.pop()):
                if hop.net not in found and not self.is_given(hop.net):
                    found[hop.net] = True
                    todo.append(hop.net)
        return list(found)

    def off_at(self, nets):
        """The devices with one end at these nets that do not conduct, or whose gates have no bit."""
        nets = set(nets)
        return [d for d in self.devices if len({d.drain, d.source} & nets) == 1 and d.drain != d.source and not self.conducts(d)]
