"""Pictures of a bound and of the loads of schedules over the words of fast memory, as SVG."""

import json
import math
import os
import sys
from html import escape

from iolb.command import Fault

COLOURS = ["#c0392b", "#2471a3", "#1e8449", "#b9770e", "#7d3c98", "#117a65", "#a04000", "#5d6d7e"]
WIDTH, HEIGHT = 640, 420
LEFT, RIGHT, TOP, BOTTOM = 78, 18, 40, 54


def read_rows(lines):
    """The bound at each S, and for each schedule its loads at each S."""
    bound, loads = {}, {}
    for line in lines:
        if line.startswith("{"):
            row = json.loads(line)
            if not {"S", "bound", "loads", "schedule"} <= set(row):
                raise Fault("%s isn't a row of `iolb-explain compare json`" % line.strip())
            bound[row["S"]] = row["bound"]
            name = os.path.splitext(os.path.basename(row["schedule"]))[0]
            loads.setdefault(name, {})
            if row["loads"] is not None:
                loads[name][row["S"]] = row["loads"]
        elif line.strip():
            print(line.rstrip(), file=sys.stderr)
    return bound, loads


def short(number):
    """A number of an axis, with a unit of thousands."""
    for unit, size in (("E", 10**18), ("P", 10**15), ("T", 10**12), ("G", 10**9), ("M", 10**6), ("k", 10**3)):
        if number >= size:
            return "%g%s" % (float("%.3g" % (number / size)), unit)
    return "%g" % number


class Axis:
    """An axis by powers of two, from one place of the picture to another."""

    def __init__(self, least, most, start, end):
        self.low, self.high = math.log2(least), math.log2(most)
        if self.high - self.low < 1:
            self.low, self.high = self.low - 0.5, self.high + 0.5
        self.start, self.end = start, end

    def at(self, number):
        part = (math.log2(max(number, 1)) - self.low) / (self.high - self.low)
        return round(self.start + part * (self.end - self.start), 1)

    def ticks(self):
        """Powers of two on the axis, at most nine."""
        powers = range(math.ceil(self.low - 1e-9), math.floor(self.high + 1e-9) + 1)
        step = -(-len(powers) // 9)
        return [2**power for power in powers if power % step == 0]


def text(x, y, words, more=""):
    return '<text x="%s" y="%s"%s>%s</text>' % (x, y, more, escape(words))


def line_of(points, colour, width):
    places = " ".join("%s,%s" % point for point in points)
    return '<polyline points="%s" fill="none" stroke="%s" stroke-width="%s"/>' % (places, colour, width)


def frame(across, up):
    """The axes with their ticks and units."""
    parts = []
    for number in across.ticks():
        x = across.at(number)
        parts.append('<line x1="%s" y1="%s" x2="%s" y2="%s" stroke="#ddd"/>' % (x, TOP, x, HEIGHT - BOTTOM))
        parts.append(text(x, HEIGHT - BOTTOM + 18, str(number), ' text-anchor="middle"'))
    for number in up.ticks():
        y = up.at(number)
        parts.append('<line x1="%s" y1="%s" x2="%s" y2="%s" stroke="#ddd"/>' % (LEFT, y, WIDTH - RIGHT, y))
        parts.append(text(LEFT - 8, y + 4, short(number), ' text-anchor="end"'))
    box = (LEFT, TOP, WIDTH - LEFT - RIGHT, HEIGHT - TOP - BOTTOM)
    parts.append('<rect x="%s" y="%s" width="%s" height="%s" fill="none" stroke="#555"/>' % box)
    parts.append(text((LEFT + WIDTH - RIGHT) / 2, HEIGHT - 14, "S, words of fast memory", ' text-anchor="middle"'))
    middle = (TOP + HEIGHT - BOTTOM) / 2
    parts.append(text(18, middle, "words loaded", ' text-anchor="middle" transform="rotate(-90 18 %s)"' % middle))
    return parts


def legend(entries, room):
    """The names of the lines, in the corner that curves that fall leave free, with so much room from the right."""
    parts = []
    for place, (name, colour) in enumerate(entries):
        y = TOP + 20 + 17 * place
        x = WIDTH - RIGHT - room
        parts.append('<line x1="%s" y1="%s" x2="%s" y2="%s" stroke="%s" stroke-width="3"/>' % (x, y - 4, x + 22, y - 4, colour))
        parts.append(text(x + 28, y, name))
    return parts


def picture(title, bound, loads, room=190):
    """The whole picture; the legend has so much room from the right."""
    sizes = sorted(bound)
    numbers = [bound[s] for s in sizes] + [n for line in loads.values() for n in line.values()]
    across = Axis(sizes[0], sizes[-1], LEFT, WIDTH - RIGHT)
    up = Axis(max(min(numbers), 1) / 1.3, max(max(numbers), 1) * 1.3, HEIGHT - BOTTOM, TOP)
    curve = [(across.at(s), up.at(bound[s])) for s in sizes]
    ground = [(across.at(sizes[0]), HEIGHT - BOTTOM)] + curve + [(across.at(sizes[-1]), HEIGHT - BOTTOM)]
    parts = ['<polygon points="%s" fill="#e8e8e8"/>' % " ".join("%s,%s" % point for point in ground)]
    parts += frame(across, up)
    entries = [("bound: no execution loads less", "#222")]
    for place, (name, line) in enumerate(loads.items()):
        colour = COLOURS[place % len(COLOURS)]
        entries.append((name if line else name + ", not played", colour))
        points = [(across.at(s), up.at(line[s])) for s in sorted(line)]
        parts.append(line_of(points, colour, 1.6))
        parts += ['<circle cx="%s" cy="%s" r="3" fill="%s"/>' % (x, y, colour) for x, y in points]
    parts.append(line_of(curve, "#222", 2.4))
    parts += legend(entries, room)
    parts.append(text(LEFT, 24, title, ' font-size="15" font-weight="bold"'))
    head = '<svg xmlns="http://www.w3.org/2000/svg" width="%d" height="%d" viewBox="0 0 %d %d" font-family="sans-serif" font-size="12">'
    ground = '<rect width="%d" height="%d" fill="white"/>' % (WIDTH, HEIGHT)
    return "\n".join([head % (WIDTH, HEIGHT, WIDTH, HEIGHT), ground] + parts + ["</svg>", ""])
