"""What turboflux is due to write, worked out the slow way: every embedding of every pattern, before and after each line.

Written from the README and docs/FORMATS.md alone. Nothing here was taken from the program, and no care is taken of speed.
"""
import re
from collections import Counter, namedtuple

LINE_BYTES = 4096
VERTICES = 2**20
EDGES = 2**22
LABELS = 65535
PATTERNS = 256
PATTERN_VERTICES = 32
PATTERN_EDGES = 64
LABELS_OF_A_LINE = 16

# Which run it is due to be: the exit status, and what stands on standard output and on standard error.
Outcome = namedtuple("Outcome", "status out err")


class Refused(Exception):
    """A line is refused. `code` is the word for it; `line` is another line that it is told of, or None."""

    def __init__(self, code, line=None):
        super().__init__(code)
        self.code = code
        self.line = line


# ---- what a line says

def lines_of(data):
    """The lines of an input. What stands after the last byte 10 is one where it is not empty."""
    lines = data.split(b"\n")
    if not lines[-1]:
        lines.pop()
    return [line[:-1] if line.endswith(b"\r") else line for line in lines]


def words_of(line):
    """The words of a line; none where it says nothing."""
    if len(line) > LINE_BYTES:
        raise Refused("long")
    words = re.findall(rb"[^ \t]+", line)
    return [] if words and words[0].startswith(b"#") else words


def number(word):
    if not re.fullmatch(rb"[0-9]{1,10}", word) or int(word) >= 2**32:
        raise Refused("number")
    return int(word)


def label(word):
    if not re.fullmatch(rb"[!-~]{1,64}", word):
        raise Refused("label")
    return word


def with_words(words, least, most):
    if not least <= len(words) <= most:
        raise Refused("arity")
    return words


def vertex_form(words):
    number_word, *labels = with_words(words, 1, 1 + LABELS_OF_A_LINE)
    return number(number_word), frozenset([label(word) for word in labels])


def edge_form(words):
    first, second, name = with_words(words, 3, 3)
    return number(first), number(second), label(name)


def id_form(words):
    return (number(with_words(words, 1, 1)[0]),)


def name_form(words):
    name, mode = with_words(words, 2, 2)
    label(name)
    if mode not in (b"hom", b"iso"):
        raise Refused("mode")
    return name, mode


GRAPH_FORMS = {b"v": vertex_form, b"e": edge_form}
UPDATE_FORMS = {**GRAPH_FORMS, b"-e": edge_form, b"-v": id_form}
PATTERN_FORMS = {b"p": name_form, b"v": vertex_form, b"e": edge_form}


def read_line(line, forms):
    """The form of a line and its parts, or None where it says nothing."""
    words = words_of(line)
    if not words:
        return None
    if words[0] not in forms:
        raise Refused("word")
    return words[0], forms[words[0]](words[1:])


# ---- the graph

class Graph:
    def __init__(self):
        self.labels = {}     # of each vertex
        self.triples = set()  # source, target, label
        self.names = Counter()  # how often each label name is used

    def change(self, form, parts):
        {b"v": self.add_vertex, b"e": self.add_edge, b"-e": self.drop_edge, b"-v": self.drop_vertex}[form](*parts)

    def has_room_for_names(self, names):
        return len(self.names) + sum(name not in self.names for name in names) <= LABELS

    def name_is_gone(self, name):
        self.names[name] -= 1
        if not self.names[name]:
            del self.names[name]

    def needs_vertices(self, *ids):
        if any(x not in self.labels for x in ids):
            raise Refused("novertex")

    def add_vertex(self, x, labels):
        if x in self.labels:
            raise Refused("exists")
        if len(self.labels) == VERTICES or not self.has_room_for_names(labels):
            raise Refused("full")
        self.labels[x] = labels
        self.names.update(labels)

    def add_edge(self, source, target, name):
        self.needs_vertices(source, target)
        if (source, target, name) in self.triples:
            raise Refused("exists")
        if len(self.triples) == EDGES or not self.has_room_for_names([name]):
            raise Refused("full")
        self.triples.add((source, target, name))
        self.names[name] += 1

    def drop_edge(self, source, target, name):
        self.needs_vertices(source, target)
        if (source, target, name) not in self.triples:
            raise Refused("absent")
        self.triples.remove((source, target, name))
        self.name_is_gone(name)

    def drop_vertex(self, x):
        self.needs_vertices(x)
        if any(x in triple[:2] for triple in self.triples):
            raise Refused("busy")
        for name in self.labels.pop(x):
            self.name_is_gone(name)


def read_graph(data):
    graph = Graph()
    for k, line in enumerate(lines_of(data), 1):
        try:
            said = read_line(line, GRAPH_FORMS)
            if said and not (said[0] == b"e" and said[1] in graph.triples):
                graph.change(*said)
        except Refused as why:
            raise Refused(why.code, k) from None
    return graph


def graph_text(graph):
    lines = [b" ".join([b"v", b"%d" % x, *sorted(graph.labels[x])]) for x in sorted(graph.labels)]
    in_order = sorted(graph.triples, key=lambda triple: (triple[0], triple[2], triple[1]))
    lines += [b"e %d %d %s" % triple for triple in in_order]
    return b"".join(line + b"\n" for line in lines)


# ---- patterns

class Pattern:
    def __init__(self, name, mode, line):
        self.name = name
        self.mode = mode
        self.line = line
        self.labels = []  # of each vertex
        self.edges = []   # tail, head, label

    def add_vertex(self, n, labels):
        if n != len(self.labels):
            raise Refused("order")
        if n == PATTERN_VERTICES:
            raise Refused("full")
        self.labels.append(labels)

    def add_edge(self, tail, head, name):
        if max(tail, head) >= len(self.labels):
            raise Refused("novertex")
        if (tail, head, name) in self.edges:
            raise Refused("exists")
        if len(self.edges) == PATTERN_EDGES:
            raise Refused("full")
        self.edges.append((tail, head, name))

    def is_connected(self):
        reached, grown = set(), {0}
        while grown != reached:
            reached = grown
            grown = reached | {x for tail, head, _ in self.edges if {tail, head} & reached for x in (tail, head)}
        return len(reached) == len(self.labels)

    def end(self):
        if not self.labels:
            raise Refused("empty", self.line)
        if not self.is_connected():
            raise Refused("apart", self.line)


def take_pattern_line(patterns, k, form, parts):
    if form == b"p":
        name, mode = parts
        if patterns:
            patterns[-1].end()
        if any(pattern.name == name for pattern in patterns):
            raise Refused("exists")
        if len(patterns) == PATTERNS:
            raise Refused("full")
        patterns.append(Pattern(name, mode, k))
    elif not patterns:
        raise Refused("noname")
    elif form == b"v":
        patterns[-1].add_vertex(*parts)
    else:
        patterns[-1].add_edge(*parts)


def read_patterns(data):
    patterns = []
    for k, line in enumerate(lines_of(data), 1):
        try:
            said = read_line(line, PATTERN_FORMS)
            if said:
                take_pattern_line(patterns, k, *said)
        except Refused as why:
            raise Refused(why.code, why.line or k) from None
    if patterns:
        patterns[-1].end()
    return patterns


# ---- embeddings and what is written of them

def embeddings(pattern, graph):
    """All of them, ascending: each list of ids that fit, with a triple for each edge, and in mode iso no id twice."""
    found = []
    ids = []
    ascending = sorted(graph.labels)
    fitting = [[x for x in ascending if labels <= graph.labels[x]] for labels in pattern.labels]
    # Each edge is looked at where both its ends have ids for the first time.
    edges_at = [[edge for edge in pattern.edges if max(edge[:2]) == n] for n in range(len(pattern.labels))]

    def extend():
        n = len(ids)
        if n == len(fitting):
            found.append(tuple(ids))
            return
        for x in fitting[n]:
            if pattern.mode == b"iso" and x in ids:
                continue
            ids.append(x)
            if all((ids[tail], ids[head], name) in graph.triples for tail, head, name in edges_at[n]):
                extend()
            ids.pop()

    extend()
    return found


def ids_text(ids):
    return b"".join(b" %d" % x for x in ids)


def watch_blocks(graph, patterns, updates):
    """What each line of the updates writes, and at the end the end line."""
    before = [embeddings(pattern, graph) for pattern in patterns]
    blocks, accepted, refused = [], 0, 0
    for k, line in enumerate(lines_of(updates), 1):
        block = []
        try:
            said = read_line(line, UPDATE_FORMS)
            if said:
                graph.change(*said)
                accepted += 1
                after = [embeddings(pattern, graph) for pattern in patterns]
                for pattern, old, new in zip(patterns, before, after):
                    gained, lost = sorted(set(new) - set(old)), sorted(set(old) - set(new))
                    block += [b"+ %d %s%s\n" % (k, pattern.name, ids_text(ids)) for ids in gained]
                    block += [b"- %d %s%s\n" % (k, pattern.name, ids_text(ids)) for ids in lost]
                before = after
        except Refused as why:
            refused += 1
            block = [b"! %d %s\n" % (k, why.code.encode())]
        blocks.append(b"".join(block))
    blocks.append(b"= %d %d %d\n" % (len(blocks), accepted, refused))
    return blocks


def match_text(graph, patterns):
    found = [(pattern, ids) for pattern in patterns for ids in embeddings(pattern, graph)]
    lines = [b"m %s%s\n" % (pattern.name, ids_text(ids)) for pattern, ids in found]
    return b"".join(lines) + b"= %d\n" % len(found)


# ---- whole runs

STATUS_TEXTS = {
    0: b"",
    1: b"turboflux: no such file\n",
    2: b"turboflux: unknown command or wrong arguments\n",
    5: b"turboflux: read fault\n",
    6: b"turboflux: write fault\n",
    7: b"turboflux: out of memory\n",
    8: b"turboflux: input too large\n",
}


class Ended(Exception):
    """The run ends here, and writes nothing to standard output."""

    def __init__(self, status, err=None):
        super().__init__(status)
        self.outcome = Outcome(status, b"", STATUS_TEXTS[status] if err is None else err)


def read_file(data, read, status, kind):
    """What a file is accepted as. `data` is None where there is no such file, and True where it can be opened and not read."""
    if data is None:
        raise Ended(1)
    if data is True:
        raise Ended(5)
    try:
        return read(data)
    except Refused as why:
        raise Ended(status, b"turboflux: %s line %d: %s\n" % (kind, why.line, why.code.encode())) from None


def start(words, files):
    """The shape of the words, with the graph and the patterns that it names."""
    shape = (words[0], len(words)) if words else None
    if shape not in (("watch", 3), ("match", 3), ("save", 2)):
        raise Ended(2)
    graph = read_file(files.get(words[1]), read_graph, 3, b"graph")
    if shape[0] == "save":
        return "save", graph, None
    return shape[0], graph, read_file(files.get(words[2]), read_patterns, 4, b"patterns")


def blocks_of(words, files, updates):
    """What the run is due to write, in parts: of `watch` the block of each line and then the end line, else one text."""
    shape, graph, patterns = start(words, files)
    if shape == "watch":
        return watch_blocks(graph, patterns, updates)
    return [graph_text(graph) if shape == "save" else match_text(graph, patterns)]


def due_of(words, files, updates):
    """What the run comes to, and what it writes in parts."""
    try:
        blocks = blocks_of(words, files, updates)
    except Ended as end:
        return end.outcome, []
    return Outcome(0, b"".join(blocks), b""), blocks
