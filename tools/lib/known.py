"""The nets whose bits are known before anything is solved, and the parts of nets that channels join, as docs/MODEL.md says.

    known = Known(devices, holds, inputs, {**rules.supplies, "clk": "0"})
    known.bits["clkb"], known.parts["s"]
"""


class Known:
    """The circuit of a cell in a phase, of devices as `flat.FlatDevice`, with the bits of the nets that are fixed: `bits` by net, of
    those and of the nets that these settle, and `parts`, which gives each other net a net of its part."""

    def __init__(self, devices, holds, inputs, fixed):
        self.devices, self.holds, self.inputs = devices, holds, inputs
        self.fixed = fixed
        self.bits = dict(fixed)
        self.at = {}
        for d in devices:
            for net in {d.drain, d.source}:
                self.at.setdefault(net, []).append(d)
        while self.learn():
            pass
        self.parts = {}
        for net in self.at:
            if self.is_plain(net) and net not in self.parts:
                self.parts.update(dict.fromkeys(self.spread(net, self.may_conduct), net))

    def is_plain(self, net):
        """Whether a net has no given value."""
        return net not in self.fixed and net not in self.inputs

    def bit(self, device):
        """The bit at which a transistor conducts."""
        return {"n": "1", "p": "0"}.get(device.kind)

    def conducts(self, device):
        """Whether it is known to conduct."""
        return device.kind is not None and self.bits.get(device.gate) == self.bit(device)

    def may_conduct(self, device):
        """Whether it is not known to be off."""
        return device.gate not in self.bits or device.kind is None or self.conducts(device)

    def spread(self, net, test):
        """The plain nets that transistors which meet the test join with a net."""
        found, todo = {net: None}, [net]
        while todo:
            here = todo.pop()
            for d in self.at.get(here, []):
                other = d.across(here)
                if test(d) and self.is_plain(other) and other not in found:
                    found[other] = None
                    todo.append(other)
        return list(found)

    def learn(self):
        """Learns the bits of regions whose gates are all known; whether there was one."""
        seen, has_learned = set(), False
        for net in self.at:
            if net in seen or net in self.bits or not self.is_plain(net):
                continue
            region = self.spread(net, self.conducts)
            seen.update(region)
            near = {d.name: d for inside in region for d in self.at[inside]}.values()
            if any(d.gate not in self.bits or d.kind is None for d in near) or any(n in self.holds for n in region):
                continue
            if any(self.conducts(d) and end in self.inputs for d in near for end in (d.drain, d.source)):
                continue
            for inside, value in self.shown(region, [d for d in near if self.conducts(d)]).items():
                if inside not in self.bits:
                    self.bits[inside] = value
                    has_learned = True
        return has_learned

    def shown(self, region, devices):
        """The bits that the nets of a region show, where fixed nets alone drive it: those of one value alone that reach them by
        signals which no stronger one blocks."""
        level = {net: 8 for net in self.fixed}
        for _ in region + [None]:
            for d in devices:
                for net in region:
                    if net in (d.drain, d.source):
                        level[net] = max(level.get(net, 0), min(d.level, level.get(d.across(net), 0)))
        reached = {net: {value} for net, value in self.fixed.items()}
        for _ in region + [None]:
            for d in devices:
                for net in region:
                    other = d.across(net) if net in (d.drain, d.source) else None
                    if other and min(d.level, level.get(other, 0)) == level[net]:
                        reached.setdefault(net, set()).update(reached.get(other, ()))
        return {net: next(iter(reached[net])) for net in region if len(reached.get(net, ())) == 1}
