#!/usr/bin/env python3
"""Takes the tables of docs/PERFORMANCE.md anew, and puts them between its two marks:  bench/tables.py PROGRAM [--rounds 1] [--workloads demo,..]

PROGRAM is the built program, not the launcher. It runs `bench.py` and `bench_match.py`, each at size small for instructions and at size full for time and memory, with
ROUNDS rounds. Nothing is written where a run fails or the bytes of two programs differ.
"""
import argparse
import datetime
import json
import os
import subprocess
import sys
import tempfile

sys.dont_write_bytecode = True
HERE = os.path.dirname(os.path.realpath(__file__))
sys.path.insert(0, HERE)
import workloads  # noqa: E402
from page import put, row  # noqa: E402

BEGIN, END = "<!-- tables: made by bench/tables.py -->\n", "<!-- end of tables -->\n"


def measured(tool, *words):
    """What a tool of this folder measured."""
    with tempfile.NamedTemporaryFile("r") as file:
        subprocess.run([sys.executable, os.path.join(HERE, tool), *words, "--json", file.name], check=True, stdout=sys.stderr)
        return json.load(file)


def number(x):
    return f"{x:,.0f}"


def better(data, key):
    """By how much more the program takes than the better of the two."""
    return f"{data['program'][key] / min(data[peer][key] for peer in ('indexed', 'joins')):.1f}"


def update_table(names, small):
    yield row("Workload", "An update", "`indexed.cpp`", "`joins.cpp`", "By the better of the two", "A graph line", "`indexed.cpp`", "`joins.cpp`", "By the better")
    yield row("---", *["--:"] * 8)
    for name in names:
        data, lines = small[f"{name}.small"]["instructions"], small[f"{name}.small"]["graph_lines"]
        sides = [data[side] for side in ("program", "indexed", "joins")]
        yield row(name, *[number(side["update"]) for side in sides], better(data, "update"), *[number(side["start"] / lines) for side in sides], better(data, "start"))


def first(runs):
    """The medians of the rounds of a side, or None where it did not end in time."""
    if runs[-1]["status"] is None:
        return None
    middle = len(runs) // 2
    return {key: sorted(run[key] for run in runs)[middle] for key in ("update", "rss")}


def time_cell(side):
    return "not in 300 s" if side is None else f"{side['update']:.1f}"


def memory_cell(side):
    return "" if side is None else f"{side['rss'] / 1024:.0f}"


def time_table(names, full):
    yield row("Workload", "An update, in microseconds", "`indexed.cpp`", "`joins.cpp`", "Memory in MB", "`indexed.cpp`", "`joins.cpp`")
    yield row("---", *["--:"] * 6)
    for name in names:
        runs = full[f"{name}.full"]["runs"]
        sides = [first(runs[side]) for side in ("program", "indexed", "joins")]
        yield row(name, *map(time_cell, sides), *map(memory_cell, sides))


def match_table(names, small, full):
    yield row("Workload", "`match`", "By the same method in C++", "`save`", "By C++", "Memory of `match` in MB, size full", "C++", "of `save`", "C++")
    yield row("---", *["--:"] * 8)
    for name in names:
        cells = []
        for shape in ("match", "save"):
            data = small[f"{name}.small"][shape]
            cells += [number(data["program"]["instructions"] / data["program"]["lines"]), f"{data['program']['instructions'] / data['peer']['instructions']:.2f}"]
        for shape in ("match", "save"):
            data = full[f"{name}.full"][shape]
            cells += [f"{data[side]['rss']:.0f}" for side in ("program", "peer")]
        yield row(name, *cells)


def commit():
    told = subprocess.run(["git", "-C", HERE, "describe", "--always", "--dirty"], capture_output=True, text=True, check=True)
    return told.stdout.strip()


def section(program, names, rounds, folder):
    common = ["--program", program, "--workloads", ",".join(names), "--dir", folder]
    small = measured("bench.py", *common, "--size", "small", "--rounds", "1", "--instructions")
    full = measured("bench.py", *common, "--size", "full", "--rounds", str(rounds))
    match_small = measured("bench_match.py", *common, "--sizes", "small", "--rounds", "1", "--instructions")
    match_full = measured("bench_match.py", *common, "--sizes", "full", "--rounds", str(rounds))
    for name in names:
        small[f"{name}.small"]["graph_lines"] = match_small[f"{name}.small"]["save"]["program"]["lines"]
    when = datetime.date.today()
    yield f"Taken on {when.day} {when:%B %Y}, with the program built of commit `{commit()}`. Every output was equal, byte for byte.\n\n## `watch`\n\n"
    yield "Instructions for each line of the updates, and for each line of the graph file at the start, at size small.\n\n"
    yield from update_table(names, small)
    yield f"\nTime of the processor and greatest resident memory at size full, {'one round' if rounds == 1 else f'{rounds} rounds'}, the programs one after another on a machine that was not quiet.\n\n"
    yield from time_table(names, full)
    yield "\n## `match` and `save`\n\nInstructions for each line of the graph file at size small, with the ratio to `match_all.cpp`, and memory at size full.\n\n"
    yield from match_table(names, match_small, match_full)


def main():
    parser = argparse.ArgumentParser(description=__doc__, formatter_class=argparse.RawDescriptionHelpFormatter)
    parser.add_argument("program")
    parser.add_argument("--rounds", type=int, default=1)
    parser.add_argument("--workloads", default=",".join(workloads.USUAL))
    asked = parser.parse_args()
    with tempfile.TemporaryDirectory() as folder:
        text = "".join(section(os.path.abspath(asked.program), asked.workloads.split(","), asked.rounds, folder))
    put(BEGIN, END, text)


if __name__ == "__main__":
    main()
