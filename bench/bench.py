#!/usr/bin/env python3
"""Runs a program and the peers side by side, interleaved in one run.

  bench.py --program "CMD" [--workloads demo,social,flow,many,blowup,flood] [--size full]
           [--peers indexed,joins] [--rounds 3] [--instructions] [--json FILE]

CMD is called as `CMD watch GRAPH PATTERNS < UPDATES`.  Each round runs every command once, in an
order that turns from round to round.  `cpu` is user + system time of the command, `start` the CPU
time until the first update line is answered, `update us` the CPU time after that per update line
and `wall us` the wall time after that per update line; RSS is the greatest resident set.  Numbers
are medians over the rounds; a ratio is the median of the rounds' own ratios program / peer.  With --instructions, valgrind counts instructions (once, on the
small size unless --size tiny), which do not depend on the machine's load; all runs hash from one seed.
Exit status 1 where some finished output differs from another.  Without --program only the peers.
"""
import argparse, hashlib, json, os, shlex, subprocess, sys, tempfile, threading, time
from statistics import median

HERE = os.path.dirname(os.path.abspath(__file__))
sys.path.insert(0, HERE)
import workloads  # noqa: E402
from one_seed import OneSeed, SEED  # noqa: E402

CXX = {
    "indexed": ("indexed.cpp", "g++"), "joins": ("joins.cpp", "g++"),
    "indexed_clang": ("indexed.cpp", "clang++"), "joins_clang": ("joins.cpp", "clang++"),
}


def command(name, build):
    src, cxx = CXX[name]
    exe, srcs = os.path.join(build, name), [os.path.join(HERE, f) for f in (src, "csm.hpp")]
    if not os.path.exists(exe) or any(os.path.getmtime(s) > os.path.getmtime(exe) for s in srcs):
        os.makedirs(build, exist_ok=True)
        subprocess.run([cxx, "-std=c++17", "-O2", "-o", exe, srcs[0]], check=True)
    return [exe]


def child_of(pid, deadline):
    while time.perf_counter() < deadline:
        for d in os.listdir("/proc"):
            if d.isdigit():
                try:
                    with open(f"/proc/{d}/stat") as f:
                        if int(f.read().rsplit(")", 1)[1].split()[1]) == pid:
                            return int(d)
                except (OSError, IndexError):
                    pass
        time.sleep(.0005)
    return None


def on_cpu(pid):
    try:
        with open(f"/proc/{pid}/schedstat") as f:
            return int(f.read().split()[0]) / 1e9
    except OSError:
        return 0.0


def run(cmd, base, updates, out, timeout):
    """One run.  The first update line is `x`, which every program refuses with `! 1 word` and must
    write before its next read: when that is out, the start is over.  Then come the updates.
    GNU time stands between, since a child's greatest resident set begins with that of its forker."""
    wrap = ["time", "-q", "-f", "%M", "-o", out + ".rss"]
    with open(out, "wb") as o, open(out + ".err", "wb") as e:
        t0 = time.perf_counter()
        p = subprocess.Popen(wrap + cmd + ["watch", base + ".graph", base + ".patterns"],
                             stdin=subprocess.PIPE, stdout=o, stderr=e, bufsize=0)
        kid, late, c1, t1 = child_of(p.pid, t0 + 5), [], 0.0, t0
        stop = threading.Timer(timeout, lambda: (late.append(1), kid and os.kill(kid, 15)))
        stop.start()
        try:
            p.stdin.write(b"x\n")
            while os.path.getsize(out) == 0 and os.path.exists(f"/proc/{kid}/schedstat") and not late:
                time.sleep(.0003)
            c1, t1 = on_cpu(kid), time.perf_counter()
            v = memoryview(updates)
            while v:
                v = v[p.stdin.write(v[:1 << 16]):]
        except BrokenPipeError:
            pass
        try:
            p.stdin.close()
        except BrokenPipeError:
            pass
        _, st, ru = os.wait4(p.pid, 0)
        t2 = time.perf_counter()
        stop.cancel()
    p.returncode = os.waitstatus_to_exitcode(st)
    cpu = ru.ru_utime + ru.ru_stime
    n = max(1, updates.count(b"\n"))
    return {"status": None if late else p.returncode, "wall": t2 - t0, "cpu": cpu, "start": c1,
            "start_wall": t1 - t0, "update": (cpu - c1) / n * 1e6, "update_wall": (t2 - t1) / n * 1e6,
            "rss": int(open(out + ".rss").read().split()[-1])}


def digest(path):
    h = hashlib.sha256()
    with open(path, "rb") as f:
        for b in iter(lambda: f.read(1 << 20), b""):
            h.update(b)
    return h.hexdigest()


def table(rows):
    w = [max(len(r[i]) for r in rows) for i in range(len(rows[0]))]
    for k, r in enumerate(rows):
        print("| " + " | ".join(x.ljust(n) if i < 2 else x.rjust(n) for i, (x, n) in enumerate(zip(r, w))) + " |")
        if k == 0:
            print("|" + "|".join("-" * (n + 2) for n in w) + "|")
    sys.stdout.flush()


def num(x, d=2):
    return "-" if x is None else f"{x:.{d}f}"


def main():
    a = argparse.ArgumentParser(description=__doc__, formatter_class=argparse.RawDescriptionHelpFormatter)
    a.add_argument("--program")
    a.add_argument("--workloads", default=",".join(workloads.USUAL))
    a.add_argument("--size", default="full")
    a.add_argument("--peers", default="indexed,joins")
    a.add_argument("--rounds", type=int, default=3)
    a.add_argument("--timeout", type=float, default=300)
    a.add_argument("--dir", default=os.path.join(tempfile.gettempdir(), "turboflux-bench"))
    a.add_argument("--instructions", action="store_true")
    a.add_argument("--json")
    a = a.parse_args()
    runners = {"program": shlex.split(a.program)} if a.program else {}
    for n in a.peers.split(","):
        if n:
            runners[n] = command(n, os.path.join(a.dir, "build"))
    data, bad = {}, False
    rows = [["workload", "who", "status", "wall s", "cpu s", "start s", "update us", "wall us", "RSS MB", "bytes",
             "cpu x", "start x", "update x", "RSS x"]]
    irows = [["workload", "who", "start Minstr", "instr/update", "instr/graph line", "start x", "update x"]]
    empty = os.path.join(a.dir, "empty")
    os.makedirs(a.dir, exist_ok=True)
    open(empty, "w").close()
    seeds = OneSeed(a.dir) if a.instructions else None
    for wl in a.workloads.split(","):
        base = workloads.ensure(os.path.join(a.dir, "data"), wl, a.size)
        ups = open(base + ".updates", "rb").read()
        n = ups.count(b"\n")
        res = {k: [] for k in runners}
        sums = {}
        names = list(runners)
        for r in range(a.rounds):
            for k in names[r % len(names):] + names[:r % len(names)]:
                if res[k] and res[k][-1]["status"] is None:
                    continue
                out = os.path.join(a.dir, f"out.{k}")
                res[k].append(run(runners[k], base, ups, out, a.timeout))
                st = res[k][-1]["status"]
                if st is not None:
                    sums.setdefault(digest(out), set()).add((k, os.path.getsize(out), st))
        data[f"{wl}.{a.size}"] = {"updates": n, "runs": res}
        equal = len(sums) <= 1
        bad |= not equal
        for k in names:
            q = res[k]
            if not q:
                continue
            st = q[-1]["status"]
            med = lambda f: None if st is None else median(x[f] for x in q)
            mine = next((h for h, s in sums.items() if any(x[0] == k for x in s)), None)
            same = "-" if mine is None else ("equal" if equal else f"DIFFERS {mine[:6]}")

            def ratio(f):
                if not a.program or k == "program" or st is None or res["program"][-1]["status"] is None:
                    return "" if not a.program or k == "program" else "-"
                rs = [p[f] / x[f] for p, x in zip(res["program"], q) if x[f] > 0]
                return num(median(rs)) if rs else "-"
            rows.append([wl, k, "timeout" if st is None else str(st), num(med("wall")), num(med("cpu")),
                         num(med("start")), num(med("update"), 2), num(med("update_wall"), 2), num(med("rss") / 1024 if st is not None else None, 1),
                         same, ratio("cpu"), ratio("start"), ratio("update"), ratio("rss")])
            print(f"# {wl}.{a.size} {k}: " + " ".join(rows[-1][2:10]), file=sys.stderr)
        if a.instructions and wl != "limit":
            size = "tiny" if a.size == "tiny" else "small"
            b = workloads.ensure(os.path.join(a.dir, "data"), wl, size)
            m = sum(1 for _ in open(b + ".updates", "rb"))
            gl = sum(1 for _ in open(b + ".graph", "rb"))
            got = {}
            for k in names:
                words = runners[k] + ["watch", b + ".graph", b + ".patterns"]
                i0, i1 = (seeds.instructions(words, SEED, lines) for lines in (empty, b + ".updates"))
                if i0 and i1:
                    got[k] = (i0, (i1 - i0) / m)
            data[f"{wl}.{a.size}"]["instructions"] = {k: {"size": size, "start": x, "update": y} for k, (x, y) in got.items()}
            for k, (x, y) in got.items():
                p = got.get("program") if k != "program" else None
                irows.append([f"{wl}.{size}", k, num(x / 1e6, 1), num(y, 0), num(x / gl, 0),
                              num(p[0] / x) if p else "", num(p[1] / y) if p else ""])
    print(f"\nsize {a.size}, {a.rounds} rounds, medians; x = program / peer (below 1: the program is better)\n")
    table(rows)
    if len(irows) > 1:
        print("\ninstructions (valgrind)\n")
        table(irows)
    if a.json:
        with open(a.json, "w") as f:
            json.dump(data, f, indent=1)
    print("\nall finished outputs are equal" if not bad else "\nOUTPUTS DIFFER")
    return bad


if __name__ == "__main__":
    sys.exit(main())
