"""Plots as SVG: axes, lines and points."""

import math
from html import escape

WIDTH, HEIGHT = 760, 460
LEFT, RIGHT, TOP, BOTTOM = 78, 190, 46, 58
INK, PALE = "#333333", "#dddddd"
FONT = "font-family='Helvetica, Arial, sans-serif'"


def unit(micros):
    """A power of ten in the unit that suits it."""
    for size, name in ((1e6, "s"), (1e3, "ms"), (1, "µs")):
        if micros >= size:
            return f"{micros / size:g} {name}"
    return f"{micros * 1e3:g} ns"


class Linear:
    def __init__(self, values):
        self.low, self.high = 0, max(values)

    def share(self, value):
        return (value - self.low) / (self.high - self.low or 1)

    def ticks(self):
        step = next(step for step in (1, 2, 4, 8, 16, 32, 64, 128) if self.high / step <= 8)
        return [(value, str(value)) for value in range(0, int(self.high) + 1, step)]


class Log:
    """Whole powers of ten. What was late lies on a line of its own, above all others."""

    def __init__(self, values):
        known = [value for value in values if 0 < value < math.inf] or [1]
        self.low = math.floor(math.log10(min(known)))
        self.high = max(math.ceil(math.log10(max(known))), self.low + 1)
        self.late = self.high + 0.4 if any(map(math.isinf, values)) else None
        self.end = self.high if self.late is None else self.high + 0.6

    def share(self, value):
        if math.isinf(value):
            place = self.late
        else:
            place = max(math.log10(value), self.low) if value > 0 else self.low
        return (place - self.low) / (self.end - self.low)

    def ticks(self):
        known = [(10.0**power, unit(10.0**power)) for power in range(self.low, self.high + 1)]
        return known + ([(math.inf, "late")] if self.late is not None else [])


class Plot:
    def __init__(self, title, x_name, y_name, x_scale, y_scale):
        self.x_scale, self.y_scale = x_scale, y_scale
        self.parts, self.keys = [], []
        self.frame(title, x_name, y_name)

    def x(self, value):
        return LEFT + (WIDTH - LEFT - RIGHT) * self.x_scale.share(value)

    def y(self, value):
        return HEIGHT - BOTTOM - (HEIGHT - TOP - BOTTOM) * self.y_scale.share(value)

    def text(self, x, y, words, anchor="middle", size=12, turn=""):
        self.parts.append(
            f"<text x='{x:.1f}' y='{y:.1f}' text-anchor='{anchor}' font-size='{size}' fill='{INK}' {FONT}{turn}>"
            f"{escape(words)}</text>"
        )

    def stroke(self, x1, y1, x2, y2, colour, more=""):
        self.parts.append(f"<line x1='{x1:.1f}' y1='{y1:.1f}' x2='{x2:.1f}' y2='{y2:.1f}' stroke='{colour}'{more}/>")

    def frame(self, title, x_name, y_name):
        right, bottom = WIDTH - RIGHT, HEIGHT - BOTTOM
        for value, name in self.x_scale.ticks():
            self.stroke(self.x(value), TOP, self.x(value), bottom, PALE)
            self.text(self.x(value), bottom + 18, name)
        for value, name in self.y_scale.ticks():
            self.stroke(LEFT, self.y(value), right, self.y(value), PALE)
            self.text(LEFT - 8, self.y(value) + 4, name, "end")
        self.stroke(LEFT, bottom, right, bottom, INK)
        self.stroke(LEFT, TOP, LEFT, bottom, INK)
        self.text(LEFT, 24, title, "start", 15)
        self.text((LEFT + right) / 2, HEIGHT - 14, x_name)
        middle = (TOP + bottom) / 2
        self.text(18, middle, y_name, turn=f" transform='rotate(-90 18 {middle:.1f})'")

    def mark(self, x, y, colour, hollow=False, size=3.2):
        paint = f"fill='none' stroke='{colour}'" if hollow else f"fill='{colour}' fill-opacity='0.75'"
        self.parts.append(f"<circle cx='{x:.1f}' cy='{y:.1f}' r='{size}' {paint}/>")

    def key(self, name, draw):
        """A line of the legend, once for each name."""
        if name in self.keys:
            return
        self.keys.append(name)
        y = TOP + 8 + 20 * (len(self.keys) - 1)
        draw(WIDTH - RIGHT + 16, y)
        self.text(WIDTH - RIGHT + 46, y + 4, name, "start")

    def line(self, name, points, colour, dashed=False):
        more = " stroke-width='2'" + (" stroke-dasharray='5 4'" if dashed else "")
        places = [(self.x(x), self.y(y)) for x, y in points]
        for (x1, y1), (x2, y2) in zip(places, places[1:]):
            self.stroke(x1, y1, x2, y2, colour, more)
        for x, y in places:
            self.mark(x, y, colour)
        self.key(name, lambda x, y: self.stroke(x, y, x + 24, y, colour, more))

    def points(self, name, points, colour, hollow=False):
        for x, y in points:
            self.mark(self.x(x), self.y(y), colour, hollow)
        if points:
            self.key(name, lambda x, y: self.mark(x + 12, y, colour, hollow))

    def level(self, name, value):
        """A dotted line across."""
        more = " stroke-dasharray='2 3'"
        self.stroke(LEFT, self.y(value), WIDTH - RIGHT, self.y(value), INK, more)
        self.key(name, lambda x, y: self.stroke(x, y, x + 24, y, INK, more))

    def equal(self, name):
        """Where both times are the same."""
        low, high = max(self.x_scale.low, self.y_scale.low), min(self.x_scale.high, self.y_scale.high)
        if low >= high:
            return
        ends = 10.0**low, 10.0**high
        self.stroke(self.x(ends[0]), self.y(ends[0]), self.x(ends[1]), self.y(ends[1]), INK)
        self.key(name, lambda x, y: self.stroke(x, y, x + 24, y, INK))

    def svg(self):
        head = f"<svg xmlns='http://www.w3.org/2000/svg' width='{WIDTH}' height='{HEIGHT}' viewBox='0 0 {WIDTH} {HEIGHT}'>"
        ground = f"<rect width='{WIDTH}' height='{HEIGHT}' fill='white'/>"
        return "\n".join([head, ground, *self.parts, "</svg>"]) + "\n"
