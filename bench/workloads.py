#!/usr/bin/env python3
"""Writes the workloads deterministically:  workloads.py DIR [--sizes full,small,tiny] [NAME..]

For each name and size the files NAME.SIZE.graph, .patterns, .updates.  Random numbers are
those of a linear congruential generator, so nothing hangs on Python's version.

  demo    a drawn graph with four patterns (full: 20000 vertices, 60000 edges, 5000 updates)
  social  scale-free persons, posts, groups; triangle, diamond, path, star, tree; both modes
  flow    network flows: hubs of large degree, few labels, patterns that rarely match
  many    200 small patterns over one graph with 50 skewed edge labels
  blowup  layered graph where joins pinned at the update explode and states prune
  limit   2^20 vertices and 2^22 edges: a graph at its limits (full only; by name only)
  flood   hundreds of matches per update: output rules
"""
import argparse
import os

M = (1 << 64) - 1
SHIFT = int(os.environ.get("SHIFT", "0"))  # another draw of the same workloads


class Draw:
    def __init__(self, s):
        self.s = (s + SHIFT) & M

    def pick(self, k):
        self.s = (self.s * 6364136223846793005 + 1442695040888963407) & M
        return ((self.s >> 32) * k) >> 32


DEMO_PATTERNS = """p star hom
v 0 L0
v 1 L1
v 2 L0
v 3
e 0 1 r0
e 0 2 r1
e 3 0 r2
p walk iso
v 0
v 1
v 2
v 3
v 4
e 0 1 r0
e 1 2 r1
e 2 3 r2
e 3 4 r3
p fork hom
v 0 L0
v 1 L1
v 2
v 3 L0
v 4
v 5 L1
e 0 1 r0
e 0 2 r1
e 2 3 r2
e 4 2 r3
e 3 5 r0
p ring hom
v 0
v 1
v 2
v 3
e 0 1 r0
e 1 2 r1
e 2 3 r0
e 3 0 r1
"""


def demo(number, V, E, U):
    d = Draw(number)
    p = d.pick
    g = [f"v {i} L{p(2)}" for i in range(V)]
    drawn = []
    for _ in range(E):
        s, t, y = p(V), p(V), p(4)
        drawn.append(f"e {s} {t} r{y}")
    g += drawn
    drawn = list(drawn)
    u = []
    for _ in range(U):
        c = p(10)
        if c <= 5:
            s, t, y = p(V), p(V), p(4)
            drawn.append(f"e {s} {t} r{y}")
            u.append(drawn[-1])
        elif c <= 8:
            u.append("-" + drawn[p(len(drawn))])
        else:
            i = V + p(V // 10 + 1)
            u.append(f"v {i} L{p(2)}" if p(2) == 0 else f"-v {i}")
    return g, DEMO_PATTERNS.splitlines(), u


def block(name, mode, vs, es):
    """vs: label texts; es: 'a b label'."""
    out = [f"p {name} {mode}"]
    out += [f"v {i} {l}".rstrip() for i, l in enumerate(vs)]
    return out + [f"e {e}" for e in es]


def social(V, E, U):
    d = Draw(20180610)
    p = d.pick
    persons, posts, groups, g = [], [], [], []
    for i in range(V):
        k = p(100)
        if k < 70:
            persons.append(i)
            city = min(p(8), p(8))
            g.append(f"v {i} Person C{city}" + (" Admin" if p(100) == 0 else ""))
        elif k < 95:
            posts.append(i)
            g.append(f"v {i} Post Topic{p(4)}")
        else:
            groups.append(i)
            g.append(f"v {i} Group")
    kinds = [("knows", persons, persons, 45), ("follows", persons, persons, 20), ("likes", persons, posts, 20),
             ("posted", persons, posts, 7), ("member", persons, groups, 6), ("in", posts, groups, 2)]
    table = [k for k in kinds for _ in range(k[3])]
    past = {k[0]: [] for k in kinds}
    flat = []

    def edge():
        name, a, b, _ = table[p(100)]
        old = past[name]
        s = old[p(len(old))][0] if old and p(4) == 0 else a[p(len(a))]
        t = old[p(len(old))][1] if old and p(2) == 0 else b[p(len(b))]
        if name == "knows" and old and p(4) == 0:  # close a wedge: makes triangles
            x = old[p(len(old))]
            s, t = x[1], x[0] if p(3) == 0 else t
        old.append((s, t))
        flat.append(f"e {s} {t} {name}")
        return flat[-1]

    for _ in range(E):
        g.append(edge())
    u, nid = [], V
    for _ in range(U):
        c = p(100)
        if c < 60:
            u.append(edge())
        elif c < 97:
            u.append("-" + flat[p(len(flat))])
        elif c < 99:
            u.append(f"v {nid} Person C{p(8)}")
            persons.append(nid)
            nid += 1
        else:
            u.append(f"-v {V + p(nid - V + 1)}")
    pat = block("triangle", "iso", ["Person", "Person", "Person"], ["0 1 knows", "1 2 knows", "2 0 knows"])
    pat += block("diamond", "iso", ["Person", "Person", "Person", "Person"],
                 ["0 1 knows", "0 2 knows", "1 3 knows", "2 3 knows"])
    pat += block("path", "iso", ["Person C0", "Person C2", "Person C6", "Post", "Person C4"],
                 ["0 1 knows", "1 2 knows", "2 3 likes", "4 3 posted"])
    pat += block("star", "hom", ["Post Topic1", "Person C2", "Person C3", "Person", "Group"],
                 ["1 0 likes", "2 0 likes", "3 0 posted", "0 4 in"])
    pat += block("tree", "hom", ["Person C6", "Person C1", "Group", "Person C3", "Post Topic2", "Person"],
                 ["0 1 knows", "0 2 member", "1 3 follows", "3 4 likes", "5 4 posted"])
    return g, pat, u


def flow(H, hubs, E, U):
    """H hosts, hubs servers; most triples are between a host and a server (skewed).  One host in
    64 is a guest; half of the streamed flows to a server come from a guest."""
    d = Draw(443)
    p = d.pick
    D = 40  # dark hosts
    g = [f"v {i} Server" for i in range(hubs)]
    g += [f"v {hubs + i} Host" + (" Guest" if i % 64 == 0 else "") for i in range(H)]
    g += [f"v {hubs + H + i} Dark" for i in range(D)]
    flat, flat2 = [], []
    host = lambda: hubs + p(H)
    guest = lambda: hubs + 64 * p((H + 63) // 64)
    hub = lambda: min(p(hubs), p(hubs), p(hubs))
    dark = lambda: hubs + H + p(D)

    def edge(a):
        c = p(100)
        if c < 50:
            return f"e {a()} {hub()} tcp"
        if c < 70:
            return f"e {hub()} {host()} tcp"
        if c < 85:
            return f"e {a()} {hub()} dns"
        if c < 92:
            return f"e {hub()} {host()} udp"
        return f"e {host()} {host()} tcp"

    for _ in range(E):
        flat.append(edge(host))
    g += flat
    for i in range(hubs):  # every hub talks to a few dark hosts
        for _ in range(3):
            g.append(f"e {i} {dark()} tcp")
    u, live = [], []
    for k in range(U):
        c = p(1000)
        if live and c < 4:
            u.append("-" + live.pop(p(len(live))))
        elif c < 6:
            e = f"e {dark()} {guest()} udp" if p(2) else f"e {hub()} {hub()} udp"
            live.append(e)
            u.append(e)
        elif c < 600 or not flat2:
            flat2.append(edge(guest if p(2) else host))
            u.append(flat2[-1])
        else:
            x = flat2 if p(2) else flat
            u.append("-" + x[p(len(x))])
    pat = block("exfil", "iso", ["Guest", "Server", "Dark", "Host"], ["0 1 tcp", "1 2 tcp", "2 3 udp"])
    pat += block("relay", "hom", ["Host", "Server", "Server", "Dark"], ["0 1 dns", "1 2 udp", "2 3 dns"])
    pat += block("cycle", "iso", ["Server", "Dark", "Host"], ["0 1 tcp", "1 2 udp", "2 0 tcp"])
    pat += block("spread", "iso", ["Guest", "Server", "Host", "Host", "Dark"],
                 ["0 1 tcp", "1 2 udp", "2 3 tcp", "3 4 tcp"])
    return g, pat, u


def many(V, E, U, P):
    d = Draw(50)
    p = d.pick
    elab = lambda: f"r{min(p(50), p(50))}"
    vlab = lambda: f"L{p(12)}"
    g = [f"v {i} {vlab()}" + (f" X{p(3)}" if p(3) == 0 else "") for i in range(V)]
    flat = []

    def edge():
        s = min(p(V), p(V))
        t = flat[p(len(flat))][1] if flat and p(3) == 0 else p(V)
        flat.append((s, t, elab()))
        return "e %d %d %s" % flat[-1]

    for _ in range(E):
        g.append(edge())
    pat = []
    for k in range(P):
        n = 3 + p(3)
        vs = [vlab() if p(3) == 0 else ("X%d" % p(3) if p(6) == 0 else "") for _ in range(n)]
        es = []
        for x in range(1, n):
            y = p(x)
            es.append(f"{x} {y} {elab()}" if p(2) else f"{y} {x} {elab()}")
        if p(4) == 0:
            e = f"{p(n)} {p(n)} {elab()}"
            if e not in es:
                es.append(e)
        pat += block(f"q{k}", "iso" if p(2) else "hom", vs, es)
    u = []
    for _ in range(U):
        if p(100) < 58:
            u.append(edge())
        else:
            u.append("-e %d %d %s" % flat[p(len(flat))])
    return g, pat, u


def blowup(W, F, B, U):
    """Layers 0 to 5 of W vertices, each with F triples `a` and B triples `b` to the next layer.
    Thin side chains carry the only triples `z`, which come and go."""
    d = Draw(6)
    p = d.pick
    L = 6
    g = [f"v {l * W + i} N" for l in range(L) for i in range(W)]
    flat = []

    def edge():
        l = p(L - 1)
        c = "a" if p(F + B) < F else "b"
        flat.append(f"e {l * W + p(W)} {(l + 1) * W + p(W)} {c}")
        return flat[-1]

    for l in range(L - 1):
        for i in range(W):
            for c, k in (("a", F), ("b", B)):
                for _ in range(k):
                    flat.append(f"e {l * W + i} {(l + 1) * W + p(W)} {c}")
    C, base = min(50, W), L * W
    side = []
    for k in range(C):  # a chain of 6 and a spare end
        v = [base + 8 * k + j for j in range(8)]
        g += [f"v {x} N" for x in v[:7]] + [f"v {v[7]} Z"]
        side += [f"e {v[j]} {v[j + 1]} a" for j in range(5)]
        side += [f"e {v[1]} {v[6]} b", f"e {v[6]} {v[0]} b"]
    g += flat + side
    u, live = [], []
    for _ in range(U):
        c = p(100)
        if c < 3:
            k = p(C)
            e = f"e {base + 8 * k + 5} {base + 8 * k + 7} z"
            if e in live:
                live.remove(e)
                u.append("-" + e)
            else:
                live.append(e)
                u.append(e)
        elif c < 56:
            u.append(edge())
        else:
            u.append("-" + flat[p(len(flat))])
    pat = block("deep", "hom", ["N", "N", "N", "N", "N", "N", "Z"],
                ["0 1 a", "1 2 a", "2 3 a", "3 4 a", "4 5 a", "5 6 z"])
    es = ["0 1 b", "1 2 b", "0 3 a", "3 4 a", "4 5 a", "5 6 a", "6 7 z"]
    pat += block("legs", "iso", ["N"] * 7 + ["Z"], es)
    pat += block("limp", "iso", ["N"] * 8, es)  # never matches: Z is not N, but 6 is reached everywhere
    return g, pat, u


def flood(V, E, U):
    """Every update has hundreds of matches: search, sorting and writing rule."""
    d = Draw(99)
    p = d.pick
    g = [f"v {i} L{p(2)}" for i in range(V)]
    flat = []

    def edge():
        flat.append(f"e {p(V)} {p(V)} r{p(2)}")
        return flat[-1]

    for _ in range(E):
        g.append(edge())
    u = [edge() if p(100) < 60 else "-" + flat[p(len(flat))] for _ in range(U)]
    pat = block("line", "hom", ["L0", "", "", "L1"], ["0 1 r0", "1 2 r1", "2 3 r0"])
    pat += block("claw", "iso", ["L1", "", "L0", "L0"], ["0 1 r0", "0 2 r1", "3 0 r1"])
    return g, pat, u


WORK = {
    "demo": (demo, {"full": (7, 20000, 60000, 5000), "small": (7, 5000, 15000, 1000), "tiny": (7, 120, 600, 60)}),
    "social": (social, {"full": (200000, 1000000, 50000), "small": (20000, 100000, 2000), "tiny": (150, 900, 60)}),
    "flow": (flow, {"full": (150000, 12, 700000, 20000), "small": (15000, 6, 70000, 2000), "tiny": (60, 3, 300, 150)}),
    "many": (many, {"full": (100000, 500000, 50000, 200), "small": (10000, 50000, 2000, 200), "tiny": (30, 1500, 60, 40)}),
    "blowup": (blowup, {"full": (12000, 12, 3, 3000), "small": (1200, 9, 2, 400), "tiny": (8, 2, 1, 40)}),
    "limit": (demo, {"full": (7, 1 << 20, 1 << 22, 100000)}),
    "flood": (flood, {"full": (1000, 50000, 3000), "small": (500, 5000, 300), "tiny": (20, 80, 40)}),
}
USUAL = [n for n in WORK if n != "limit"]


def named(name, size):
    return f"{name}.{size}" + (f".{SHIFT}" if SHIFT else "")


def write(dirname, name, size):
    f, sizes = WORK[name]
    base = os.path.join(dirname, named(name, size))
    for ext, ls in zip(("graph", "patterns", "updates"), f(*sizes[size])):
        with open(f"{base}.{ext}", "w", newline="") as o:
            o.write("\n".join(ls) + "\n")
    return base


def ensure(dirname, name, size):
    base = os.path.join(dirname, named(name, size))
    if not all(os.path.exists(f"{base}.{e}") for e in ("graph", "patterns", "updates")):
        os.makedirs(dirname, exist_ok=True)
        write(dirname, name, size)
    return base


def main():
    a = argparse.ArgumentParser()
    a.add_argument("dir")
    a.add_argument("names", nargs="*")
    a.add_argument("--sizes", default="full,small,tiny")
    a = a.parse_intermixed_args()
    os.makedirs(a.dir, exist_ok=True)
    for n in a.names or USUAL:
        for s in a.sizes.split(","):
            print(write(a.dir, n, s))


if __name__ == "__main__":
    main()
