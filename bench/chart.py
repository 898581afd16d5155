#!/usr/bin/env python3
"""Draws path_cost.svg from path_cost.csv: instructions a path over the number of lines.

table.py --curves writes the file, and peers.py --curves adds gix-attributes.

usage: chart.py
"""
import csv
import math
from collections import defaultdict
from pathlib import Path

BENCH = Path(__file__).resolve().parent
PANELS = (("names", "Names", "parser_7.c"), ("ends", "Suffixes", "*.e7"),
          ("exact", "Exact paths", "assets/level7/textures/t7.psd"),
          ("globs", "Globs below directories", "dir7/**/x?[a-c]*.gen"))
PROGRAMS = (("check_attr", "check_attr"), ("git", "git check-attr (GIT_FLUSH=0)"), ("gix-attributes", "gix-attributes 0.37.0"))

WIDTH, HEIGHT = 900, 720
PANEL_WIDTH, PANEL_HEIGHT = 335, 230
LEFTS, TOPS = (85, 530), (125, 425)

STYLE = """
  .ground { fill: #ffffff }
  text { fill: #24292f; font: 13px system-ui, sans-serif }
  .title { font-size: 18px; font-weight: 600 }
  .panel { font-size: 14px; font-weight: 600 }
  .sample { font: 12px ui-monospace, monospace }
  .sample, .tick, .axis { fill: #57606a }
  .grid { stroke: #d0d7de; stroke-width: 1 }
  polyline.check_attr, line.check_attr { stroke: #0969da } circle.check_attr { fill: #0969da }
  polyline.git, line.git { stroke: #bc4c00 } rect.git { fill: #bc4c00 }
  polyline, .key { fill: none; stroke-width: 2.5 }
  polyline.git, line.key.git { stroke-dasharray: 7 4 }
  polyline.gix-attributes, line.gix-attributes { stroke: #8250df } path.gix-attributes { fill: #8250df }
  polyline.gix-attributes, line.key.gix-attributes { stroke-dasharray: 2 3 }
  @media (prefers-color-scheme: dark) {
    .ground { fill: #0d1117 }
    text { fill: #e6edf3 }
    .sample, .tick, .axis { fill: #9198a1 }
    .grid { stroke: #30363d }
    polyline.check_attr, line.check_attr { stroke: #58a6ff } circle.check_attr { fill: #58a6ff }
    polyline.git, line.git { stroke: #f0883e } rect.git { fill: #f0883e }
    polyline.gix-attributes, line.gix-attributes { stroke: #bc8cff } path.gix-attributes { fill: #bc8cff }
  }"""


def read():
    """For each kind and program the points, in order of lines."""
    points = defaultdict(list)
    with open(BENCH / "path_cost.csv", newline="", encoding="ascii") as rows:
        for row in csv.DictReader(rows):
            points[row["kind"], row["program"]].append((int(row["lines"]), int(row["instructions"])))
    return {key: sorted(found) for key, found in points.items()}


def decades(values):
    return math.floor(math.log10(min(values))), math.ceil(math.log10(max(values)))


def number(power):
    """A power of ten as one writes it: 1,000 or 1 M."""
    return f"{10 ** power:,}" if power < 6 else f"{10 ** (power - 6):,} M"


def escaped(text):
    return text.replace("&", "&amp;").replace("<", "&lt;").replace(">", "&gt;")


class Axes:
    """The position of a point in a panel; both axes are logarithmic, and all panels have the same."""

    def __init__(self, points):
        self.low_x, self.high_x = decades([x for found in points.values() for x, _ in found])
        self.low_y, self.high_y = decades([y for found in points.values() for _, y in found])

    def x(self, left, value):
        return left + PANEL_WIDTH * (math.log10(value) - self.low_x) / (self.high_x - self.low_x)

    def y(self, top, value):
        return top + PANEL_HEIGHT * (self.high_y - math.log10(value)) / (self.high_y - self.low_y)

    def drawn(self, left, top):
        for power in range(self.low_y, self.high_y + 1):
            y = self.y(top, 10 ** power)
            yield f'<line class="grid" x1="{left}" y1="{y:.1f}" x2="{left + PANEL_WIDTH}" y2="{y:.1f}"/>'
            yield f'<text class="tick" x="{left - 8}" y="{y + 4:.1f}" text-anchor="end">{number(power)}</text>'
        for power in range(self.low_x, self.high_x + 1):
            x = self.x(left, 10 ** power)
            yield f'<line class="grid" x1="{x:.1f}" y1="{top}" x2="{x:.1f}" y2="{top + PANEL_HEIGHT}"/>'
            yield f'<text class="tick" x="{x:.1f}" y="{top + PANEL_HEIGHT + 18}" text-anchor="middle">{number(power)}</text>'


def mark(program, x, y):
    if program == "git":
        return f'<rect class="git" x="{x - 3.5:.1f}" y="{y - 3.5:.1f}" width="7" height="7"/>'
    if program == "gix-attributes":
        return f'<path class="gix-attributes" d="M{x:.1f} {y - 4.5:.1f}l4.5 8h-9z"/>'
    return f'<circle class="{program}" cx="{x:.1f}" cy="{y:.1f}" r="4"/>'


def panel(points, axes, left, top, kind, title, sample):
    yield f'<text class="panel" x="{left}" y="{top - 12}">{title}'
    yield f'  <tspan class="sample" dx="8">{escaped(sample)}</tspan></text>'
    yield from axes.drawn(left, top)
    for program, _ in PROGRAMS:
        positions = [(axes.x(left, x), axes.y(top, y)) for x, y in points.get((kind, program), ())]
        yield f'<polyline class="{program}" points="{" ".join(f"{x:.1f},{y:.1f}" for x, y in positions)}"/>'
        yield from (mark(program, x, y) for x, y in positions)


def legend(left, y):
    for program, text in PROGRAMS:
        yield f'<line class="key {program}" x1="{left}" y1="{y}" x2="{left + 44}" y2="{y}"/>'
        yield mark(program, left + 22, y)
        yield f'<text x="{left + 54}" y="{y + 4}">{text}</text>'
        left += 90 + 7 * len(text)


def chart(points):
    axes = Axes(points)
    yield f'<svg xmlns="http://www.w3.org/2000/svg" viewBox="0 0 {WIDTH} {HEIGHT}" role="img" aria-labelledby="title about">'
    yield '<title id="title">Instructions a path, over the number of lines</title>'
    yield '<desc id="about">Four charts, of names, suffixes, exact paths and globs: check_attr, git, gix-attributes.</desc>'
    yield f"<style>{STYLE}\n</style>"
    yield f'<rect class="ground" width="{WIDTH}" height="{HEIGHT}"/>'
    yield '<text class="title" x="20" y="34">What a path costs, over the number of lines of an attributes file</text>'
    yield from legend(22, 66)
    lefts_and_tops = [(left, top) for top in TOPS for left in LEFTS]
    for (left, top), (kind, title, sample) in zip(lefts_and_tops, PANELS):
        yield from panel(points, axes, left, top, kind, title, sample)
    middle = (TOPS[0] + TOPS[1] + PANEL_HEIGHT) / 2
    yield f'<text class="axis" transform="translate(16 {middle}) rotate(-90)" text-anchor="middle">instructions a path</text>'
    below = TOPS[1] + PANEL_HEIGHT + 42
    for left in LEFTS:
        yield f'<text class="axis" x="{left + PANEL_WIDTH / 2}" y="{below}" text-anchor="middle">lines</text>'
    yield "</svg>"


def main():
    told = BENCH / "path_cost.svg"
    told.write_text("\n".join(chart(read())) + "\n", encoding="utf-8")
    print(f"{told} is written")


if __name__ == "__main__":
    main()
