"""Whether the covers and latches of a model lead around in a phase, as docs/FORMATS.md says under `modelcycle`."""

from flat import Assignment


def known_signals(model, carried):
    """The bits of the signals that carry clocks, and of the covers of known signals."""
    known = dict(carried)
    changed = True
    while changed:
        changed = False
        for output, cover in model.covers.items():
            if output not in known and all(signal in known for signal in cover.inputs):
                known[output] = Assignment(model, known, {}).covered(cover)
                changed = True
    return known


def is_closed(kind, part, control):
    """Whether a known bit of the control keeps an element closed: a master is open where its slave is not."""
    opens_at = {"ah": 1, "al": 0, "re": 1, "fe": 0}[kind]
    return control != (1 - opens_at if part == "master" else opens_at)


def arcs(model, known):
    """For each signal and element those from which arcs lead to it. Elements are pairs of a part and a signal."""
    sources = {output: list(cover.inputs) for output, cover in model.covers.items()}
    for output, latch in model.latches.items():
        chain = [("master", latch.source), ("slave", ("master", output))] if latch.kind in ("re", "fe") else [("slave", latch.source)]
        for part, source in chain:
            closed = latch.control in known and is_closed(latch.kind, part, known[latch.control])
            sources[(part, output)] = [latch.control] + ([] if closed else [source])
        sources[output] = [("slave", output)]
    return sources


def on_a_ring(model, carried):
    """The first signal on any ring of arcs, or None."""
    sources = arcs(model, known_signals(model, carried))
    waiting = set(sources)
    while True:
        ready = {node for node in waiting if not any(source in waiting for source in sources[node])}
        if not ready:
            break
        waiting -= ready
    return next((signal for signal in model.signals if signal in waiting and leads_back(signal, sources)), None)


def leads_back(start, sources):
    """Whether arcs lead from a node back to it."""
    further, found = {start}, set()
    while further:
        further = {source for node in further for source in sources.get(node, [])} - found
        found |= further
    return start in found
