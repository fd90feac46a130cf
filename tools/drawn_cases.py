"""Drawn runs of turboflux: words, files, updates and how the updates are cut, with much in them that is wrong."""
from dataclasses import dataclass, field

from slow_way import Graph, Refused, UPDATE_FORMS, lines_of, read_graph, read_line

NAMES = [b"A", b"B", b"C"]
KINDS = [b"r", b"s"]
LIMIT = 4096

# How the updates are handed over.
PIECES = "pieces"      # each read gives one piece
PIPE = "pipe"          # a pipe, written piece by piece
LOCKSTEP = "lockstep"  # a pipe, where each block has to stand before the next piece is written
FEEDS = [PIECES, PIPE, LOCKSTEP]


@dataclass
class Case:
    words: list
    files: dict             # bytes; None where there is no file, True for a folder in its place
    updates: bytes = b""
    feed: str = PIPE
    pieces: list = field(default_factory=list)  # the lengths of the pieces, in turn

    def lines(self):
        parts = [data for data in self.files.values() if isinstance(data, bytes)] + [self.updates]
        return sum(len(lines_of(part)) for part in parts)


# ---- words and lines

BAD_NUMBERS = [b"-1", b"+1", b"4294967296", b"9999999999", b"00000000001", b"1.0", b"0x1", b"1a", b"\xef\xbc\x91", b"1\x00", b"\xff", b"x", b"1\x0b2"]
BAD_LABELS = [b"a" * 65, b"a" * 300, b"r\x7f", b"\xff", b"\x00", b"r\x00", b"\x1b[0m", b"r\x80", b"\xc3\xa9", b"r\r", b"\x0b", b"a\x0c"]
RARE_LABELS = [b"!", b"~", b"#", b"#r", b"hom", b"-e", b"a" * 64, b"0", b"\\n", b"%d", b"A;B", b"\"", b"r" * 63 + b"~"]
FIRST_WORDS = [b"x", b"V", b"vv", b"ee", b"-", b"--e", b"-p", b"p", b"q", b"=", b"+", b"!", b"\x00", b"\xff", b"-V", b"v\x00", b"\xef\xbb\xbfv", b"e\r"]


def number_word(draw, number):
    """A number, now and then with zeros before it."""
    word = b"%d" % number
    return word.rjust(draw.randint(len(word), 10), b"0") if draw.random() < 0.1 else word


def joined(draw, words):
    """Words as a line has them, now and then with more blanks than needed."""
    if draw.random() < 0.85:
        return b" ".join(words)
    line = b"".join(word + draw.choice([b" ", b"\t", b"  ", b" \t "]) for word in words)
    return draw.choice([b"", b" ", b"\t\t"]) + (line if draw.random() < 0.5 else line.rstrip(b" \t"))


def said_nothing(draw):
    return draw.choice([b"", b" ", b"\t \t", b"# note", b"#", b"  # v 1", b"\t#e 1 2 r", b"#\x00\xff", b"\r", b" \r"])


def long_line(draw, line):
    """The line made as long as a line may be, or a little longer."""
    length = draw.choice([LIMIT - 1, LIMIT, LIMIT, LIMIT + 1, LIMIT + 1, LIMIT + 2, LIMIT + draw.randint(3, 9000), 70000 if draw.random() < 0.3 else LIMIT])
    filler = draw.choice([b" ", b" ", b"\t", b"x", b"\x00", b"\r"])
    line = draw.choice([line, line, b"# note", b""])
    return line + filler * (length - len(line)) + draw.choice([b"", b"\r", b"\r\r"])


def changed_bytes(draw, line):
    """The line with a few bytes changed, put in or left out."""
    line = bytearray(line)
    for _ in range(draw.randint(1, 3)):
        place = draw.randint(0, len(line))
        byte = draw.choice([0, 9, 11, 13, 31, 32, 35, 45, 48, 57, 127, 128, 255, draw.randrange(256)])
        kind = draw.randrange(3)
        if kind == 0 or place == len(line):
            line.insert(place, byte)
        elif kind == 1:
            line[place] = byte
        else:
            del line[place]
    return bytes(line).replace(b"\n", b"\x00")


def changed_words(draw, line):
    """The line with one word that is wrong, missing, repeated, or one too many."""
    words = line.split() or [b"v"]
    place = draw.randrange(len(words))
    kind = draw.randrange(6)
    if kind == 0:
        del words[place]
    elif kind == 1:
        words.insert(place, words[place])
    elif kind == 2:
        words[0] = draw.choice(FIRST_WORDS)
    elif kind == 3:
        words[place] = draw.choice(BAD_NUMBERS)
    elif kind == 4:
        words[place] = draw.choice(BAD_LABELS + RARE_LABELS)
    else:
        words += [draw.choice(NAMES + RARE_LABELS) for _ in range(draw.choice([1, 14, 15, 16, 17, 40]))]
    return joined(draw, words)


def hostile(draw, line):
    kind = draw.random()
    if kind < 0.45:
        return changed_words(draw, line)
    if kind < 0.75:
        return changed_bytes(draw, line)
    if kind < 0.85:
        return long_line(draw, line)
    if kind < 0.95:
        return said_nothing(draw)
    return bytes(draw.choice([byte for byte in range(256) if byte != 10]) for _ in range(draw.randint(1, 80)))


def text_of(draw, lines):
    """The lines with their ends. The last one may be without."""
    returns = draw.random() < 0.1
    ended = [line + (b"\r\n" if returns or draw.random() < 0.02 else b"\n") for line in lines]
    if ended and draw.random() < 0.3:
        ended[-1] = lines[-1] + draw.choice([b"", b"\r"])
    return b"".join(ended)


# ---- graphs and updates

def vertex_line(draw, n, labels=None, most=2):
    labels = draw.sample(NAMES, draw.randint(0, most)) if labels is None else labels
    if labels and draw.random() < 0.05:
        labels = labels + labels[:1]
    if draw.random() < 0.02:
        labels = labels + [draw.choice(RARE_LABELS)]
    return joined(draw, [b"v", number_word(draw, n), *labels])


def edge_line(draw, form, source, target, name):
    return joined(draw, [form, number_word(draw, source), number_word(draw, target), name])


class Drawn:
    """The ids and labels of one graph, and how many edges it has about."""

    def __init__(self, draw):
        self.draw = draw
        rare = [0, 2**32 - 1, 2**31, 10, 100, 99]
        self.ids = draw.sample(range(1, 10), draw.choice([1, 2, 3, 4, 5, 6, 7])) + draw.sample(rare, draw.randint(0, 1))
        self.labels = {x: draw.sample(NAMES, draw.choice([0, 1, 1, 2])) for x in self.ids}
        self.kinds = KINDS + [b"t"] * draw.randint(0, 1)
        self.edges = min(draw.choice([4, 8, 12, 16, 22]), len(self.ids) ** 2)

    def edge(self):
        return self.draw.choice(self.ids), self.draw.choice(self.ids), self.draw.choice(self.kinds)

    def fresh_edge(self, graph):
        """An edge that mostly can be added: between vertices that stand, and not there yet."""
        there = sorted(graph.labels)
        if not there or self.draw.random() < 0.06:
            return self.edge()
        for _ in range(1 if self.draw.random() < 0.1 else 6):
            edge = self.draw.choice(there), self.draw.choice(there), self.draw.choice(self.kinds)
            if edge not in graph.triples:
                break
        return edge

    def graph_lines(self):
        there = self.draw.sample(self.ids, self.draw.randint(0 if self.draw.random() < 0.1 else (len(self.ids) + 1) // 2, len(self.ids)))
        lines = [vertex_line(self.draw, x, self.labels[x]) for x in there]
        for _ in range(self.draw.randint(0, self.edges) if there else 0):
            source, target, name = self.edge()
            if source in there and target in there:
                lines.append(edge_line(self.draw, b"e", source, target, name))
        return lines

    def update(self, graph):
        """A line that mostly can be accepted over this graph."""
        draw, kind = self.draw, self.draw.random()
        absent = [x for x in self.ids if x not in graph.labels]
        if kind < 0.06 + 0.1 * len(absent):
            x = draw.choice(absent if absent and draw.random() < 0.9 else self.ids)
            return vertex_line(draw, x, self.labels[x] if draw.random() < 0.7 else None)
        free = [x for x in sorted(graph.labels) if not any(x in triple[:2] for triple in graph.triples)]
        if kind > 0.99 or free and kind > 0.9:
            return joined(draw, [b"-v", number_word(draw, draw.choice(free if free and draw.random() < 0.9 else self.ids))])
        triples = sorted(graph.triples)
        if draw.random() < len(triples) / (len(triples) + self.edges):
            return edge_line(draw, b"-e", *(draw.choice(triples) if draw.random() < 0.95 else self.edge()))
        if not triples and draw.random() < 0.1:
            return edge_line(draw, b"-e", *self.edge())
        return edge_line(draw, b"e", *self.fresh_edge(graph))

    def updates(self, graph, count):
        lines = []
        for _ in range(count):
            line = self.update(graph)
            line = hostile(self.draw, line) if self.draw.random() < 0.12 else line
            lines.append(line)
            try:
                said = read_line(line, UPDATE_FORMS)
                if said:
                    graph.change(*said)
            except Refused:
                pass
        return lines


# ---- patterns

def pattern_lines(draw, name, kinds):
    """One pattern of one to four vertices, connected."""
    size = draw.choice([1, 2, 2, 3, 3, 3, 4])
    mode = draw.choice([b"hom", b"iso"])
    wanted = draw.choice([0, 0, 1])
    edges = []
    for n in range(1, size):
        ends = [draw.randrange(n), n]
        draw.shuffle(ends)
        edges.append((*ends, draw.choice(kinds)))
    for _ in range(draw.choice([0, 0, 1, 1, 2, 3]) if size > 1 else draw.choice([0, 1, 2])):
        edges.append((draw.randrange(size), draw.randrange(size), draw.choice(kinds)))
    edges = list(dict.fromkeys(edges))
    draw.shuffle(edges)
    lines = [joined(draw, [b"p", name, mode])]
    lines += [vertex_line(draw, n, most=wanted) for n in range(size)]
    return lines + [edge_line(draw, b"e", *edge) for edge in edges]


def pattern_file(draw, kinds):
    lines = []
    for n in range(draw.choice([0, 1, 2, 3, 4, 6, 8])):
        lines += pattern_lines(draw, b"p%d" % n if draw.random() < 0.98 else draw.choice(RARE_LABELS), kinds)
    return lines


def wrong_pattern_lines(draw):
    """Lines that a pattern file is refused at, some of them only where they stand."""
    p = b"p " + draw.choice([b"p0", b"w"]) + b" hom"
    many_edges = [b"e %d %d k%d" % (n % 4, n // 4 % 4, n // 16) for n in range(draw.choice([64, 65]))]
    return draw.choice([
        [p],
        [p, b"v 0", b"v 1"],
        [p, b"v 0", b"v 1", b"v 2", b"e 1 0 r", b"e 2 2 r"],
        [p, b"v 0", b"v 2"],
        [p, b"v 1"],
        [p, b"v 0", b"e 0 1 r"],
        [p, b"v 0", b"e 0 0 r", b"e 0 0 r"],
        [p, b"v 0", b"p w iso", b"v 0", p, b"v 0"],
        [b"p w any"],
        [b"v 0"],
        [b"e 0 0 r"],
        # The largest pattern that may be, and one larger. No vertex has the label.
        [b"p large iso", b"v 0 NONE"] + [b"v %d" % n for n in range(1, 32)] + [b"e 0 %d r" % n for n in range(1, 32)],
        [p] + [b"v %d" % n for n in range(33)],
        [b"p edges hom", b"v 0 NONE", b"v 1", b"v 2", b"v 3"] + many_edges,
    ])


def many_patterns(draw):
    """As many patterns as there may be, or one more."""
    lines = []
    for n in range(draw.choice([255, 256, 257])):
        lines += [b"p n%d hom" % n, b"v 0 " + draw.choice(NAMES)]
    return lines


# ---- cuts and whole runs

def cuts(draw, length):
    """The lengths of the pieces: of any, of one byte each, or one for all."""
    kind = draw.random()
    if kind < 0.2 and length < 3000:
        return [1]
    if kind < 0.4:
        return [60000]
    most = draw.choice([2, 5, 20, 100, 1000, 5000])
    return [draw.randint(1, most) for _ in range(40)]


def with_one_wrong(draw, lines):
    lines = list(lines)
    line = draw.choice(lines) if lines else b"v 1"
    lines.insert(draw.randint(0, len(lines)), hostile(draw, line))
    return lines


NO_SHAPES = [[], ["watch"], ["watch", "graph"], ["watch", "graph", "patterns", "x"], ["save"], ["save", "graph", "patterns"], ["match", "graph"],
             ["Watch", "graph", "patterns"], ["", "graph", "patterns"], ["watch ", "graph", "patterns"], ["-v", "graph"], [b"watch\xff", "graph", "patterns"],
             ["demo"], ["demo", ""], ["demo", "x"], ["demo", "+7"], ["demo", "-1"], ["demo", "7 "], ["demo", "7", "7"], ["demo", "18446744073709551616"],
             ["demo", "000000000000000000007"]]


def drawn_words(draw):
    kind = draw.random()
    if kind < 0.85:
        return ["watch", "graph", "patterns"]
    if kind < 0.93:
        return ["match", "graph", "patterns"]
    if kind < 0.985:
        return ["save", "graph"]
    return draw.choice(NO_SHAPES)


def start_graph(text):
    try:
        return read_graph(text)
    except Refused:
        return Graph()


def drawn_case(draw):
    drawn = Drawn(draw)
    graph_lines, patterns = drawn.graph_lines(), pattern_file(draw, drawn.kinds)
    count = draw.choice([0, 1, 3, 40, 200, 300])
    if draw.random() < 0.1:
        graph_lines = with_one_wrong(draw, graph_lines)
    if draw.random() < 0.07:
        patterns = with_one_wrong(draw, patterns)
    if draw.random() < 0.08:
        wrong = wrong_pattern_lines(draw)
        patterns = draw.choice([wrong + patterns, patterns + wrong])
    if draw.random() < 0.01:
        patterns, count = many_patterns(draw), 5
    graph = text_of(draw, graph_lines)
    updates = text_of(draw, drawn.updates(start_graph(graph), count))
    files = {"graph": graph, "patterns": text_of(draw, patterns)}
    if draw.random() < 0.02:
        files[draw.choice(list(files))] = draw.choice([None, True])
    return Case(drawn_words(draw), files, updates, draw.choice(FEEDS), cuts(draw, len(updates)))
