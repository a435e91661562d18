"""A picture of the transistors about a net at one valuation: SVG, by Graphviz (`dot`, or what DOT names) where it is there, and else by a
layout of its own.

    picture.draw("y.svg", channels, "y", "cell nor2 fight y phase all at a=0 b=1")

In the layout of its own each net is a line across, and each transistor stands between the lines of its two nets, in a column of its own.
"""

import os
import shutil
import subprocess
from typing import List, NamedTuple
from xml.sax.saxutils import escape

from lib import tool
from lib.flat import FlatDevice

# A part with more transistors is drawn only as far as its conducting transistors join it, and one with more of these only along the paths.
MOST_DEVICES = 60

COLORS = {"0": "#b35c00", "1": "#0b5fa5", "fight": "#c00000", "float": "#7a3fa0", "-": "#7a3fa0", "off": "#999999", "on": "#000000"}
LEGEND = [("1", "brings 1"), ("0", "brings 0"), ("on", "conducts"), ("off", "is off (dashed), or its gate has no bit (dotted)")]

LEFT, COLUMN, TOP, ROW = 190, 120, 60, 90


class Part(NamedTuple):
    """What is drawn: the transistors, their nets from the top to the bottom, and for each transistor how it is drawn."""

    devices: List[FlatDevice]
    nets: List[str]
    marks: List[str]  # "0" or "1" on a path that brings this bit, else "on", "off" or "-"


def part_of(channels, net):
    """The part about a net."""
    nets, todo = {net}, [net]
    while todo:
        at = todo.pop()
        for device in channels.at.get(at, []):
            end = device.across(at)
            if end not in nets and not channels.is_given(end):
                nets.add(end)
                todo.append(end)
    devices = [device for device in channels.devices if {device.drain, device.source} & nets]
    if len(devices) > MOST_DEVICES:
        nets = set(channels.joined(net))
        devices = [device for device in channels.devices if {device.drain, device.source} & nets]
    marks = path_marks(channels, net)
    if len(devices) > MOST_DEVICES:
        devices = [device for device in devices if device.name in marks or net in (device.drain, device.source)]
    order = ordered_nets(channels, devices, net)
    return Part(devices, order, [marks.get(device.name) or {True: "on", False: "off", None: "-"}[channels.conducts(device)] for device in devices])


def path_marks(channels, net):
    """The devices on clear paths that end at the net, with the bit that these bring."""
    marks = {}
    if not channels.is_given(net):
        for path in channels.paths(net)[0]:
            for hop in path.hops if path.is_clear else []:
                marks.update((device.name, path.value) for device in hop.devices)
    return marks


def ordered_nets(channels, devices, net):
    """The nets of devices by how near they are to a given 1 and to a given 0, those at a 1 first."""
    nets = list(dict.fromkeys([net] + [end for device in devices for end in (device.drain, device.source)]))
    far = len(nets)

    def distances(bit):
        found = {end: 0 for end in nets if channels.is_given(end) and channels.moment.given[end] == bit}
        todo = list(found)
        for at in todo:
            for device in devices:
                if at in (device.drain, device.source) and device.across(at) not in found:
                    found[device.across(at)] = found[at] + 1
                    todo.append(device.across(at))
        return found

    high, low = distances("1"), distances("0")

    def height(end):
        above, below = high.get(end, far), low.get(end, far)
        if channels.is_given(end):
            return 0 if channels.moment.given[end] == "1" else 1
        return (above + 0.5) / (above + below + 1)

    return sorted(nets, key=lambda end: (height(end), nets.index(end)))


def told(channels, device):
    """The words beside a transistor."""
    words = [f"gate {device.gate}={channels.moment.bit(device.gate)}", f"{device.kind}, level {device.level}", f"line {device.card.line}"]
    return words + ["keeper"] * device.is_keeper


def as_dot(channels, part, net, title):
    """The part as a text for Graphviz."""

    def quoted(text):
        return '"' + text.replace("\\", "\\\\").replace('"', '\\"').replace("\n", "\\n") + '"'

    lines = ["graph part {", f"    label={quoted(title)}; labelloc=t; fontname=monospace", "    node [fontname=monospace, fontsize=11]"]
    for end in part.nets:
        form = "plaintext" if channels.is_given(end) else "ellipse"
        label, color = f"{end} {channels.value(end)}", quoted(COLORS[channels.value(end)])
        width = 3 if end == net else 1
        lines.append(f"    {quoted('net ' + end)} [shape={form}, penwidth={width}, label={quoted(label)}, color={color}, fontcolor={color}]")
    for device, mark in zip(part.devices, part.marks):
        ends = sorted((device.drain, device.source), key=part.nets.index)
        look = f"color={quoted(COLORS[mark])}, penwidth={3 if mark in '01' else 1}, style={ {'off': 'dashed', '-': 'dotted'}.get(mark, 'solid')}"
        own, label = quoted("device " + device.name), quoted("\n".join([device.name] + told(channels, device)))
        lines.append(f"    {own} [shape=box, label={label}, fontcolor={quoted(COLORS[mark])}, {look}]")
        lines.append(f"    {quoted('net ' + ends[0])} -- {own} [{look}]")
        lines.append(f"    {own} -- {quoted('net ' + ends[1])} [{look}]")
    return "\n".join(lines + ["}", ""])


def text_at(x, y, text, **words):
    """A text in SVG."""
    more = "".join(f' {name.replace("_", "-")}="{value}"' for name, value in words.items())
    return f'<text x="{x}" y="{y}"{more}>{escape(text)}</text>'


def line_of(x, y, other_x, other_y, color, width, dashes=""):
    """A line in SVG."""
    more = f' stroke-dasharray="{dashes}"' if dashes else ""
    return f'<line x1="{x}" y1="{y}" x2="{other_x}" y2="{other_y}" stroke="{color}" stroke-width="{width}"{more}/>'


def as_svg(channels, part, net, title):
    """The part as SVG: a line across for each net, a column for each transistor."""
    rows = {end: TOP + ROW * number for number, end in enumerate(part.nets)}
    order = sorted(zip(part.devices, part.marks), key=lambda pair: sorted(map(rows.get, (pair[0].drain, pair[0].source))))
    columns = {pair[0].name: LEFT + COLUMN * number + COLUMN // 2 for number, pair in enumerate(order)}
    wide = max(LEFT + COLUMN * len(order), 20 + 8 * len(title), 850)
    high = TOP + ROW * len(part.nets)
    lines = ['<?xml version="1.0" encoding="UTF-8"?>']
    lines.append(f'<svg xmlns="http://www.w3.org/2000/svg" width="{wide}" height="{high}" font-family="monospace" font-size="12">')
    lines += [f'<rect width="{wide}" height="{high}" fill="white"/>', text_at(10, 24, title, font_size=14)]
    for end in part.nets:
        ends = [columns[device.name] for device in part.devices if end in (device.drain, device.source)]
        color, y = COLORS[channels.value(end)], rows[end]
        lines.append(line_of(LEFT, y, max(ends, default=LEFT + COLUMN), y, color, 4 if end == net else 2))
        lines.append(text_at(LEFT - 8, y + 4, f"{end} {channels.value(end)}", fill=color, text_anchor="end", font_size=14 if end == net else 12))
    for device, mark in order:
        lines += device_in_svg(channels, device, mark, columns[device.name], rows)
    for number, (mark, text) in enumerate(LEGEND):
        lines.append(line_of(10 + 150 * number, high - 14, 34 + 150 * number, high - 14, COLORS[mark], 3, "5 4" if mark == "off" else ""))
        lines.append(text_at(40 + 150 * number, high - 10, text))
    return "\n".join(lines + ["</svg>", ""])


def device_in_svg(channels, device, mark, x, rows):
    """The lines of a transistor in its column."""
    top, bottom = sorted((rows[device.drain], rows[device.source]))
    color, width, dashes = COLORS[mark], 4 if mark in "01" else 1.5, {"off": "5 4", "-": "1 4"}.get(mark, "")
    lines = [line_of(x, top, x, bottom, color, width, dashes)]
    lines += [f'<circle cx="{x}" cy="{y}" r="4" fill="{color}"/>' for y in (top, bottom)]
    look = f'fill="white" stroke="{color}" stroke-width="{width}"' + f' stroke-dasharray="{dashes}"' * bool(dashes)
    lines.append(f'<rect x="{x - 52}" y="{top + 9}" width="104" height="{ROW - 18}" {look}/>')
    for number, text in enumerate([device.name] + told(channels, device)):
        lines.append(text_at(x, top + 23 + 13 * number, text, text_anchor="middle", fill=color, **({"font_weight": "bold"} if number == 0 else {})))
    return lines


def draw(path, channels, net, title):
    """Writes the picture of the part about a net into a file."""
    part = part_of(channels, net)
    text = as_dot(channels, part, net, title)
    if not path.endswith(".dot"):
        text = by_graphviz(text) or as_svg(channels, part, net, title)
    tool.write(path, text)


def by_graphviz(text):
    """The SVG that Graphviz makes of a text; None where it is not there, or fails."""
    program = shutil.which(os.environ.get("DOT", "dot"))
    if program is None:
        return None
    try:
        done = subprocess.run([program, "-Tsvg"], input=text.encode("utf-8", "replace"), stdout=subprocess.PIPE, stderr=subprocess.DEVNULL, check=False)
    except OSError:
        return None
    return done.stdout.decode("ascii", "surrogateescape") if done.returncode == 0 and done.stdout else None
