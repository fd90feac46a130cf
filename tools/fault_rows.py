"""The runs that `tools/refuse` lets fail, each with the text that is due."""
import os
import random
from dataclasses import dataclass
from functools import cached_property

from slow_way import due_of

EXAMPLES = os.path.join(os.path.dirname(os.path.dirname(os.path.realpath(__file__))), "examples")

TRIANGLE = {"graph": b"v 1\nv 2\nv 3\ne 1 2 r\ne 2 3 r\n", "patterns": b"p tri hom\nv 0\nv 1\nv 2\ne 0 1 r\ne 1 2 r\ne 2 0 r\n"}

PEOPLE = {
    "graph": b"v 100 Person\nv 101 Person\nv 102 Person Admin\nv 900 Post\ne 100 101 knows\ne 101 102 knows\ne 101 900 likes\n",
    "patterns": b"p tip iso\nv 0 Person\nv 1 Person\nv 2 Post\ne 0 1 knows\ne 1 2 likes\np staff hom\nv 0 Admin\nv 1 Post\ne 0 1 likes\n",
}

LOOPS = {
    "graph": b"v 1\nv 2\n",
    "patterns": b"p path hom\nv 0\nv 1\nv 2\ne 0 1 r\ne 1 2 r\np both iso\nv 0\nv 1\ne 0 1 r\ne 0 1 s\np loop hom\nv 0\ne 0 0 r\np one hom\nv 0 A\n",
}

# Every line of the updates but the last two is refused, each for another reason.
REFUSED = b"w\nv\nv x\nv 3 \xff\nv 1\ne 1 9 r\ne 1 2 r\n-e 1 2 likes\n-v 2\nv 4 A\n-v 4"

@dataclass
class Row:
    name: str
    words: tuple
    files: dict
    updates: bytes

    @cached_property
    def due(self):
        """What the run comes to, and what it writes in parts."""
        return due_of(list(self.words), self.files, self.updates)

    def inputs(self):
        """The bytes that the run reads, in order."""
        names = [name for name in self.words[1:] if name in self.files]
        return [self.files[name] for name in names] + ([self.updates] if self.words[0] == "watch" else [])

    def after_reads_of(self, reads):
        """What is due where so many reads of one byte each are made, and the next one fails."""
        for data in self.inputs()[:-1]:
            reads -= len(data) + 1
        *_, last = self.inputs()
        if reads < 0 or self.words[0] != "watch":
            return b""
        blocks = self.due[1]
        return b"".join(blocks[:last[:reads].count(b"\n")])


def example(name):
    with open(os.path.join(EXAMPLES, name), "rb") as file:
        return file.read()


def payments(name, graph, words, updates=b""):
    return Row(name, words, {"graph": example(graph), "patterns": example("payments/patterns")}, updates)


def wide():
    """An edge more at a vertex of many: one block of several pieces."""
    graph = b"".join(b"v %d\n" % n for n in range(14)) + b"".join(b"e 0 %d r\n" % n for n in range(1, 12))
    pattern = b"p wide hom\n" + b"".join(b"v %d\n" % n for n in range(5)) + b"".join(b"e 0 %d r\n" % n for n in range(1, 5))
    return Row("wide", ("watch", "graph", "patterns"), {"graph": graph, "patterns": pattern}, b"e 0 12 r\nx\n")


def changing(vertices, edges, updates):
    """A graph of so many vertices and edges, and updates that take the first edges off and add others."""
    draw = random.Random("changing")
    drawn = sorted({(draw.randrange(vertices), draw.randrange(vertices), draw.choice([b"r", b"s"])) for _ in range(edges + updates)})
    draw.shuffle(drawn)
    graph = b"".join(b"v %d L%d\n" % (n, n % 40) for n in range(vertices)) + b"".join(b"e %d %d %s\n" % edge for edge in drawn[updates:])
    lines = b"".join(b"e %d %d %s\n" % edge for edge in drawn[:updates]) + b"".join(b"-e %d %d %s\n" % edge for edge in drawn[updates:2 * updates])
    return graph, lines


CROSS = b"p cross iso\nv 0\nv 1\nv 2\ne 0 1 r\ne 1 2 s\n"
NAMED = b"p same hom\nv 0 L1\nv 1 L2\ne 1 0 r\np alone hom\nv 0 L7\n"

WATCH, MATCH, SAVE = ("watch", "graph", "patterns"), ("match", "graph", "patterns"), ("save", "graph")


def small_rows():
    return [
        payments("payments", "payments/graph", WATCH, example("payments/updates")),
        payments("payments, `match`", "payments/later.graph", MATCH),
        payments("payments, `save`", "payments/later.graph", SAVE),
        Row("triangle", WATCH, TRIANGLE, b"e 3 1 r\n-e 3 1 r\n"),
        Row("people", WATCH, PEOPLE, b"e 102 900 likes\ne 102 100 knows\n-e 101 900 likes\nv 901 Post\n-v 901\n"),
        Row("loops", WATCH, LOOPS, b"e 1 1 r\ne 1 2 r\ne 1 2 s\n-e 1 2 r\nv 7 A\n-v 7\n-e 1 1 r\n"),
        Row("refused lines", WATCH, TRIANGLE, REFUSED),
        Row("refused graph", WATCH, {**TRIANGLE, "graph": b"v 1 A\ne 1 2 r\n"}, b"v 2\n"),
        Row("refused patterns", MATCH, {**TRIANGLE, "patterns": b"p two hom\nv 0\nv 1\n"}, b""),
    ]


def large_rows():
    graph, lines = changing(90, 200, 120)
    files = {"graph": graph, "patterns": CROSS + NAMED}
    lines += b"".join(b"-v %d\n" % n for n in range(90))
    return [wide(), Row("long line", WATCH, TRIANGLE, b"x" * 70000 + b"\ne 3 1 r\n"),
            Row("changing", WATCH, files, lines), Row("changing, `match`", MATCH, files, b""), Row("changing, `save`", SAVE, files, b"")]


def spacious_rows():
    """Runs that need some megabytes."""
    graph, lines = changing(20000, 20000, 5)
    files = {"graph": graph, "patterns": NAMED}
    return [Row("20,000 edges", WATCH, files, lines), Row("20,000 edges, `match`", MATCH, files, b""), Row("20,000 edges, `save`", SAVE, files, b"")]
