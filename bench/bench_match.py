#!/usr/bin/env python3
"""`match GRAPH PATTERNS` and `save GRAPH` of a program beside the C++ peer match_all.cpp (and `sort -u`).

  bench_match.py --program "path/to/turboflux" [--workloads demo,social,..] [--sizes small,full] [--rounds 3]
                 [--shapes match,save] [--instructions] [--made 10000,100000,1000000] [--dir DIR]
                 [--json FILE]

CPU is user time (wait4), in ms; RSS is its peak, in MB.  Runs of the program and the peers
alternate; a ratio is the median of the rounds' own ratios.  Bytes are compared in every run.
--instructions adds valgrind's counts (callgrind; use small sizes).  --made E,E,..: graphs of the drawn graph with E/4 vertices and E edges in place
of the workloads, for `save` and for `match` with the four patterns of `demo`.
"""
import argparse
import hashlib
import json
import os
import statistics
import subprocess
import sys
import tempfile

HERE = os.path.dirname(os.path.abspath(__file__))
sys.path.insert(0, HERE)
import workloads as W
from one_seed import OneSeed, SEED


def run(words, stdin=None, times=False):
    env = dict(os.environ, LC_ALL="C")
    if times:
        env["PEER_TIMES"] = "1"
    with tempfile.TemporaryFile() as out, tempfile.TemporaryFile() as err:
        f = open(stdin) if stdin else subprocess.DEVNULL
        with tempfile.NamedTemporaryFile("r") as peak:  # GNU time: a child of this process would begin with its RSS
            p = subprocess.Popen(["/usr/bin/time", "-f", "%M", "-o", peak.name, *words], stdin=f, stdout=out, stderr=err, env=env)
            _, status, r = os.wait4(p.pid, 0)
            p.returncode = os.waitstatus_to_exitcode(status)
            rss = float(peak.read().split()[-1])
        out.seek(0)
        h = hashlib.md5()
        n = lines = 0
        while b := out.read(1 << 20):
            h.update(b)
            n += len(b)
            lines += b.count(b"\n")
        err.seek(0)
        return dict(status=p.returncode, user=r.ru_utime * 1e3, sys=r.ru_stime * 1e3, rss=rss / 1024,
                    md5=h.hexdigest(), bytes=n, lines=lines, err=err.read().decode(errors="replace"))


def made(dirname, edges):
    base = os.path.join(dirname, f"made.{edges}")
    if not os.path.exists(base + ".graph"):
        p = W.Draw(7).pick
        v = edges // 4
        with open(base + ".graph", "w") as o:
            for i in range(v):
                o.write(f"v {i} L{p(2)}\n")
            for _ in range(edges):
                o.write(f"e {p(v)} {p(v)} r{p(4)}\n")
        with open(base + ".patterns", "w") as o:
            o.write(W.DEMO_PATTERNS)
    return base


def main():
    a = argparse.ArgumentParser(description=__doc__, formatter_class=argparse.RawDescriptionHelpFormatter)
    a.add_argument("--program", required=True)
    a.add_argument("--workloads", default=",".join(W.USUAL))
    a.add_argument("--sizes", default="small,full")
    a.add_argument("--shapes", default="match,save")
    a.add_argument("--rounds", type=int, default=3)
    a.add_argument("--made", default="")
    a.add_argument("--instructions", action="store_true")
    a.add_argument("--dir", default=os.path.join(tempfile.gettempdir(), "turboflux-peers"))
    a.add_argument("--json")
    a = a.parse_args()
    os.makedirs(a.dir, exist_ok=True)
    peer = os.path.join(a.dir, "match_all")
    src = [os.path.join(HERE, f) for f in ("match_all.cpp", "indexed.cpp", "csm.hpp")]
    if not os.path.exists(peer) or any(os.path.getmtime(s) > os.path.getmtime(peer) for s in src):
        subprocess.run(["g++", "-O2", "-std=c++17", "-o", peer, src[0]], check=True)
    seeds = OneSeed(a.dir) if a.instructions else None
    prog = a.program.split()
    cases = [made(a.dir, int(e)) for e in a.made.split(",") if e] if a.made else [
        W.ensure(a.dir, n, s) for n in a.workloads.split(",") for s in a.sizes.split(",")]
    bad, data = False, {}
    for base in cases:
        g, q = base + ".graph", base + ".patterns"
        lines = sum(1 for _ in open(g, "rb"))
        for shape in a.shapes.split(","):
            what = [g, q] if shape == "match" else [g]
            sides = {"program": prog + [shape, *what], "peer": [peer, shape, *what]}
            if shape == "match":
                sides["plain"] = [peer, "plain", *what]
            else:
                sides["load"] = [peer, "load", g]
                sides["sort -u"] = ["sort", "-u", g]
            got = {s: [] for s in sides}
            for _ in range(a.rounds):
                for s, words in sides.items():
                    got[s].append(run(words))
            same = {s: len({x["md5"] for x in got[s] + got["program"]}) == 1 for s in ("peer", "plain") if s in got}
            bad |= not all(same.values()) or got["program"][0]["status"] != 0
            print(f"{os.path.basename(base)} {shape}: {lines} graph lines, {got['program'][0]['lines']} lines out, bytes equal: "
                  + ", ".join(f"{s} {v}" for s, v in same.items()))
            for s in sides:
                m = lambda k: statistics.median(x[k] for x in got[s])
                ratio = statistics.median(x["user"] / max(y["user"], 0.5) for x, y in zip(got["program"], got[s]))
                count = seeds.instructions(sides[s], SEED) if a.instructions and s != "sort -u" else None
                ins = f"  instructions {count / 1e6:.1f} M" if count else ""
                data.setdefault(os.path.basename(base), {}).setdefault(shape, {})[s] = {
                    "lines": lines, "user": m("user"), "rss": m("rss"), "ratio": ratio, "instructions": count}
                print(f"  {s:8} user ms {m('user'):9.1f}  sys {m('sys'):7.1f}  RSS MB {m('rss'):7.1f}  program x {ratio:6.2f}"
                      f"  ns a graph line {m('user') * 1e6 / lines:7.0f}{ins}", flush=True)
    if a.json:
        with open(a.json, "w") as f:
            json.dump(data, f, indent=1)
    sys.exit(1 if bad else 0)


if __name__ == "__main__":
    main()
