#!/usr/bin/env python3
"""Measures what keys cost whose hashes collide under one seed:  bench/chosen_keys.py PROGRAM [--rounds 5]

PROGRAM is the built program, not the launcher. Graphs of ids and of triples that were chosen for seed 0 are read beside as many drawn ones, with seed 0 and with three
others, which a small library in the place of the system's random source gives. The table is put between its marks in docs/PERFORMANCE.md.
"""
import argparse
import os
import subprocess
import sys
import tempfile
from statistics import median

sys.dont_write_bytecode = True
HERE = os.path.dirname(os.path.realpath(__file__))
sys.path.insert(0, HERE)
from one_seed import OneSeed  # noqa: E402
from page import put, row  # noqa: E402
from workloads import Draw  # noqa: E402

BEGIN, END = "<!-- chosen keys: made by bench/chosen_keys.py -->\n", "<!-- end of chosen keys -->\n"
COUNT, OTHERS = 65536, [1, 12345678901234567, 2**64 - 1]
PATTERN = "p edge hom\nv 0\nv 1\ne 0 1 r\n"


def chosen(folder, name, *words):
    """The lines of a graph that a C++ program of this folder chooses for seed 0."""
    program = os.path.join(folder, name)
    subprocess.run(["g++", "-std=c++17", "-O2", "-o", program, os.path.join(HERE, name + ".cpp")], check=True)
    return subprocess.run([program, "0", *map(str, words)], check=True, capture_output=True, text=True).stdout.splitlines()


def drawn_ids(count):
    draw, ids = Draw(1), set()
    while len(ids) < count:
        ids.add(draw.pick(2**32))
    return [f"v {id}" for id in ids]


def drawn_triples(count):
    draw, lines = Draw(2), set()
    while len(lines) < count:
        lines.add(f"e {draw.pick(COUNT)} {draw.pick(COUNT)} r")
    return [f"v {id}" for id in range(COUNT)] + sorted(lines)


def graphs(folder):
    """For ids and for triples how many there are, and the graph of those that were chosen and of those that were drawn."""
    ids, triples = chosen(folder, "colliding_ids", 16, COUNT), chosen(folder, "colliding_triples", COUNT, 16, COUNT)
    edges = sum(line.startswith("e") for line in triples)
    for kind, count, pair in (("ids", len(ids), (ids, drawn_ids(len(ids)))), ("triples", edges, (triples, drawn_triples(edges)))):
        paths = [os.path.join(folder, f"{kind}.{which}") for which in ("chosen", "drawn")]
        for path, lines in zip(paths, pair):
            with open(path, "w") as file:
                file.writelines(line + "\n" for line in lines)
        yield kind, count, paths


def ratio(measure, commands, rounds):
    """The median of the rounds' own ratios of the first command to the second."""
    return median(measure(commands[0]) / measure(commands[1]) for _ in range(rounds))


def span(ratios, digits):
    low, high = f"{min(ratios):.{digits}f}", f"{max(ratios):.{digits}f}"
    return low if low == high else f"{low} to {high}"


def table(program, folder, rounds):
    seeds, patterns = OneSeed(folder), os.path.join(folder, "patterns")
    with open(patterns, "w") as file:
        file.write(PATTERN)
    yield row("", "With the seed that they were chosen for, time", "With three other seeds, time", "With three other seeds, instructions")
    yield row("---", "--:", "--:", "--:")
    for kind, count, paths in graphs(folder):
        for shape, tail in (("save", []), ("match", [patterns])):
            pair = [[program, shape, path, *tail] for path in paths]
            own = ratio(lambda words: seeds.time(words, 0), pair, rounds)
            times = [ratio(lambda words: seeds.time(words, seed), pair, rounds) for seed in OTHERS]
            counts = [ratio(lambda words: seeds.instructions(words, seed), pair, 1) for seed in OTHERS]
            yield row(f"{count:,} {kind}, `{shape}`", f"{own:.0f}", span(times, 1), span(counts, 2))


def main():
    parser = argparse.ArgumentParser(description=__doc__, formatter_class=argparse.RawDescriptionHelpFormatter)
    parser.add_argument("program")
    parser.add_argument("--rounds", type=int, default=5)
    asked = parser.parse_args()
    with tempfile.TemporaryDirectory() as folder:
        put(BEGIN, END, "".join(table(os.path.abspath(asked.program), folder, asked.rounds)))


if __name__ == "__main__":
    main()
