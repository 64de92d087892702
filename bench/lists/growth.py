#!/usr/bin/env python3
"""Draws how cost grows with size: growth.py NOW.csv [BEFORE.csv] > docs/growth.svg, from `bench/lists/run growth`.

A panel for each kind of work, both axes logarithmic, a line for each that does it; the console before is dashed.
"""

import csv
import math
import sys

WIDTH, HEIGHT, GAP, LEFT, TOP = 300, 200, 70, 60, 40
AXES = {
    "run": "pixels of a run",
    "copy of equal phase": "columns and rows of the block",
    "shifted copy": "columns and rows of the block",
    "line": "pixels of a line",
    "circle": "radius",
}
STYLES = {
    "proved": 'stroke="#b03020" stroke-width="2"',
    "before": 'stroke="#b03020" stroke-width="1.5" stroke-dasharray="5 4"',
    "C peer": 'stroke="#2060a0" stroke-width="1.5"',
    "memory": 'stroke="#707070" stroke-width="1.5"',
}
NAMES = {
    "proved": "proved console",
    "before": "proved console before",
    "C peer": "plain C (bench/peer)",
    "memory": "memset, memmove",
}


def points_of(path, only=None):
    """The points of each line: (kind, column) to (size, ns)."""
    lines = {}
    with open(path, newline="") as file:
        for row in csv.DictReader(file):
            column = "memory" if row["column"] in ("memset", "memmove") else row["column"]
            if only is None or column == only:
                lines.setdefault((row["kind"], column), []).append((float(row["size"]), float(row["ns"])))
    return lines


class Panel:
    """One kind's axes, from a power of ten to another."""

    def __init__(self, kind, lines, x, y):
        self.kind, self.lines, self.x, self.y = kind, lines, x, y
        points = [point for line in lines.values() for point in line]
        self.sizes, self.times = (decades([p[k] for p in points]) for k in (0, 1))

    def place(self, size, time):
        def part(value, low, high):
            return (math.log10(value) - low) / (high - low)

        return self.x + WIDTH * part(size, *self.sizes), self.y + HEIGHT * (1 - part(time, *self.times))

    def grid(self):
        low, high = self.sizes
        for power in range(low, high + 1):
            x, _ = self.place(10**power, 10 ** self.times[0])
            yield f'<line class="grid" x1="{x:.1f}" y1="{self.y}" x2="{x:.1f}" y2="{self.y + HEIGHT}"/>'
            yield text(x, self.y + HEIGHT + 15, f"{10**power:,}", "middle")
        low, high = self.times
        for power in range(low, high + 1):
            _, y = self.place(10 ** self.sizes[0], 10**power)
            yield f'<line class="grid" x1="{self.x}" y1="{y:.1f}" x2="{self.x + WIDTH}" y2="{y:.1f}"/>'
            yield text(self.x - 5, y + 4, duration(power), "end")

    def svg(self):
        yield text(self.x, self.y - 10, self.kind, "start", ' font-weight="bold"')
        yield from self.grid()
        yield text(self.x + WIDTH / 2, self.y + HEIGHT + 32, AXES[self.kind], "middle")
        for column in STYLES:
            if column in self.lines:
                places = " ".join("%.1f,%.1f" % self.place(*point) for point in self.lines[column])
                yield f'<polyline fill="none" {STYLES[column]} points="{places}"/>'


def decades(values):
    low, high = math.floor(math.log10(min(values))), math.ceil(math.log10(max(values)))
    return low, max(high, low + 1)


def duration(power):
    unit, tens = [("ns", power), ("µs", power - 3), ("ms", power - 6)][min(max(power // 3, 0), 2)]
    return f"{10**tens:g} {unit}"


def text(x, y, words, anchor, more=""):
    return f'<text x="{x:.1f}" y="{y:.1f}" text-anchor="{anchor}"{more}>{words}</text>'


def legend(x, y, columns):
    yield text(x, y - 10, "time of one, depth 8", "start", ' font-weight="bold"')
    for row, column in enumerate(column for column in STYLES if column in columns):
        at = y + 15 + 22 * row
        yield f'<line {STYLES[column]} x1="{x}" y1="{at}" x2="{x + 40}" y2="{at}"/>'
        yield text(x + 50, at + 4, NAMES[column], "start")


def main(now, before=None):
    lines = points_of(now)
    if before is not None:
        lines.update({(kind, "before"): line for (kind, _), line in points_of(before, "proved").items()})
    spots = [(LEFT + (WIDTH + GAP) * (k % 2), TOP + (HEIGHT + GAP) * (k // 2)) for k in range(6)]
    shapes = []
    for kind, (x, y) in zip(AXES, spots):
        own = {column: line for (name, column), line in lines.items() if name == kind}
        shapes.extend(Panel(kind, own, x, y).svg())
    shapes.extend(legend(*spots[5], {column for _, column in lines}))
    width, height = LEFT + 2 * WIDTH + GAP + 20, TOP + 3 * (HEIGHT + GAP) - 20
    print(f'<svg xmlns="http://www.w3.org/2000/svg" width="{width}" height="{height}" viewBox="0 0 {width} {height}">')
    print("<style>text { font: 12px sans-serif; fill: #202020 } .grid { stroke: #dddddd }</style>")
    print(f'<rect width="{width}" height="{height}" fill="white"/>')
    print("\n".join(shapes))
    print("</svg>")


if __name__ == "__main__":
    main(*sys.argv[1:])
