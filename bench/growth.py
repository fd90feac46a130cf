#!/usr/bin/env python3
"""Measures how the cost of an update grows, and draws it:  bench/growth.py PROGRAM [--edges 10000,100000,..] [--patterns 1,4,..]

PROGRAM is the built program, not the launcher. Instructions for each line of the updates are counted by valgrind: those of a run less those of the same run
without updates. Both hash from one seed, which a small library in the place of the system's random source gives them; else the start alone would differ by more
than the updates take. The tables are put between their marks in docs/PERFORMANCE.md, the pictures into docs/pictures.
"""
import argparse
import math
import os
import sys
import tempfile
from html import escape

sys.dont_write_bytecode = True
HERE = os.path.dirname(os.path.realpath(__file__))
sys.path.insert(0, HERE)
import bench  # noqa: E402
import page  # noqa: E402
import workloads  # noqa: E402
from one_seed import OneSeed, SEED  # noqa: E402

BEGIN, END = "<!-- growth: made by bench/growth.py -->\n", "<!-- end of growth -->\n"
COLOURS = ["#0072b2", "#d55e00", "#009e73"]


class Measure:
    """Counts the instructions of an update in a folder of its own."""

    def __init__(self, folder):
        self.folder, self.seeds = folder, OneSeed(folder)

    def write(self, name, lines):
        path = os.path.join(self.folder, name)
        with open(path, "w") as file:
            file.writelines(line + "\n" for line in lines)
        return path

    def run(self, command, graph, patterns, updates):
        return self.seeds.instructions([*command, "watch", graph, patterns], SEED, updates)

    def update(self, commands, graph, patterns, updates):
        """For each command the instructions of an update."""
        graph, patterns = self.write("graph", graph), self.write("patterns", patterns)
        none, all_lines = self.write("none", []), self.write("updates", updates)
        return [(self.run(command, graph, patterns, all_lines) - self.run(command, graph, patterns, none)) / len(updates) for command in commands]


def aside(updates, label):
    """The same edges under a label that no pattern has."""
    return [" ".join(line.split()[:3] + [label]) for line in updates]


def by_edges(measure, commands, counts):
    for count in counts:
        yield count, *measure.update(commands, *workloads.demo(7, count // 4, count, 5000))


def by_patterns(measure, command, counts):
    for count in counts:
        graph, patterns, updates = workloads.many(10000, 50000, 2000, count)
        yield count, *measure.update([command], graph, patterns, updates), *measure.update([command], graph, patterns, aside(updates, "aside"))


def picture(title, across, names, rows):
    """Curves over a logarithmic scale, as the lines of an SVG."""
    width, height, left, right, top, bottom = 720, 360, 70, 30, 50, 45
    low, high = math.log(rows[0][0]), math.log(rows[-1][0])
    most = max(max(row[1:]) for row in rows)
    step = 10 ** int(math.log10(most))
    step = next(step / part for part in (1, 2, 5) if most / (step / part) >= 4)

    def x(count):
        return left + (math.log(count) - low) / (high - low) * (width - left - right)

    def y(cost):
        return height - bottom - cost / most * (height - top - bottom)

    yield f'<svg xmlns="http://www.w3.org/2000/svg" width="{width}" height="{height}" font-family="sans-serif" font-size="12">'
    yield f'<rect width="{width}" height="{height}" fill="white"/>'
    yield f'<text x="{left}" y="18">{escape(title)}</text>'
    for k in range(int(most / step) + 1):
        yield f'<line x1="{left}" x2="{width - right}" y1="{y(k * step):.1f}" y2="{y(k * step):.1f}" stroke="#dddddd"/>'
        yield f'<text x="{left - 8}" y="{y(k * step) + 4:.1f}" text-anchor="end">{k * step:,.0f}</text>'
    for row in rows:
        yield f'<text x="{x(row[0]):.1f}" y="{height - bottom + 18}" text-anchor="middle">{row[0]:,}</text>'
    yield f'<text x="{(left + width - right) / 2:.1f}" y="{height - 8}" text-anchor="middle">{escape(across)}</text>'
    for k, name in enumerate(names):
        colour, points = COLOURS[k], [(x(row[0]), y(row[1 + k])) for row in rows]
        yield f'<polyline fill="none" stroke="{colour}" stroke-width="2" points="{" ".join(f"{a:.1f},{b:.1f}" for a, b in points)}"/>'
        yield from (f'<circle cx="{a:.1f}" cy="{b:.1f}" r="3" fill="{colour}"/>' for a, b in points)
        yield f'<line x1="{left + 180 * k}" x2="{left + 180 * k + 20}" y1="33" y2="33" stroke="{colour}" stroke-width="2"/>'
        yield f'<text x="{left + 180 * k + 26}" y="37">{escape(name)}</text>'
    yield "</svg>"


def draw(name, *parts):
    with open(os.path.join(page.DOCS, "pictures", name), "w") as file:
        file.writelines(line + "\n" for line in picture(*parts))


def table(heads, rows):
    yield page.row(*heads) + page.row(*["--:"] * len(heads))
    for row in rows:
        yield page.row(*(f"{cell:,.0f}" for cell in row))


def section(program, edges, patterns):
    with tempfile.TemporaryDirectory() as folder:
        measure = Measure(folder)
        peer = bench.command("indexed", folder)
        edge_rows = list(by_edges(measure, [[program], peer], edges))
        pattern_rows = list(by_patterns(measure, [program], patterns))
    draw("growth_edges.svg", "Instructions for each line of the updates", "edges of the graph", ["turboflux", "indexed.cpp"], edge_rows)
    draw("growth_patterns.svg", "Instructions for each line of the updates", "patterns", ["labels of patterns", "a label of no pattern"], pattern_rows)
    yield "Drawn graphs of a quarter as many vertices as edges, with the four patterns of `demo` and 5,000 updates:\n\n"
    yield from table(["Edges", "An update", "`indexed.cpp`"], edge_rows)
    yield "\n![the cost of an update by the edges of the graph](pictures/growth_edges.svg)\n\n"
    yield "The graph and the 2,000 updates of workload many with more and more patterns, and the same updates under a label that no pattern has:\n\n"
    yield from table(["Patterns", "An update", "Of a label that no pattern has"], pattern_rows)
    yield "\n![the cost of an update by the number of patterns](pictures/growth_patterns.svg)\n"


def numbers(text):
    return sorted(map(int, text.split(",")))


def main():
    parser = argparse.ArgumentParser(description=__doc__, formatter_class=argparse.RawDescriptionHelpFormatter)
    parser.add_argument("program")
    parser.add_argument("--edges", type=numbers, default="10000,100000,1000000,4000000")
    parser.add_argument("--patterns", type=numbers, default="1,4,16,64,256")
    asked = parser.parse_args()
    page.put(BEGIN, END, "".join(section(os.path.abspath(asked.program), asked.edges, asked.patterns)))


if __name__ == "__main__":
    main()
