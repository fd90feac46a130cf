"""A running `turboflux watch` in a Python program: lines go in, and the block of each comes back.

    with StandingWatch("turboflux", "graph", "patterns") as watch:
        for line, block in zip(lines, watch.put(lines)):
            for sign, name, ids in block: ..

An accepted line without a gained or lost match writes nothing, so behind the lines a line `?` is put: once its answer, the refusal `word`, is there, the blocks of
all lines before it are whole. One loop writes what the pipe takes and reads what has come: a program that first writes all and then reads would stop for ever where
both pipes are full.
"""
import contextlib
import os
import select
import subprocess


class Ended(Exception):
    """The watch ended before it had answered; `status` is its exit status, below 0 where a signal ended it."""

    def __init__(self, status):
        super().__init__(f"turboflux ended with status {status}")
        self.status = status


class StandingWatch:
    def __init__(self, program, graph, patterns):
        self.process = subprocess.Popen([program, "watch", graph, patterns], stdin=subprocess.PIPE, stdout=subprocess.PIPE, bufsize=0)
        self.sink, self.source = self.process.stdin.fileno(), self.process.stdout.fileno()
        os.set_blocking(self.sink, False)
        self.lines_put = 0  # the marks among them
        self.rest = b""

    def put(self, lines):
        """The block of each of these lines of updates: a list of (sign, name, ids), and of a refused line [("!", word, ())]. Raises `Ended`."""
        lines = list(lines)
        if any("\n" in line for line in lines):
            raise ValueError("a line has no line's end in it")
        before, mark = self.lines_put, self.lines_put + len(lines) + 1
        self.lines_put = mark
        blocks = [[] for _ in lines]
        for sign, number, name, *ids in self._answers("".join(line + "\n" for line in [*lines, "?"]).encode()):
            if int(number) == mark:
                return blocks
            blocks[int(number) - before - 1].append((sign, name, tuple(map(int, ids))))
        raise Ended(self.process.wait())

    def _answers(self, data):
        """Yields the words of each line that comes, while `data` is written."""
        left = memoryview(data)
        while True:
            readable, writable, _ = select.select([self.source], [self.sink] if left else [], [])
            if writable:
                try:
                    left = left[os.write(self.sink, left[:65536]):]
                except BrokenPipeError:  # it has ended, and what it wrote before is still to be read
                    left = b""
            if readable:
                piece = os.read(self.source, 65536)
                if not piece:
                    return
                *whole, self.rest = (self.rest + piece).split(b"\n")
                for line in whole:
                    yield line.decode().split(" ")

    def close(self):
        """Ends the updates, and answers the end line: how many lines there were, the marks too, how many changed the graph, and how many were refused. Raises `Ended`."""
        self.process.stdin.close()
        left = self.rest + self.process.stdout.read()
        self.process.stdout.close()
        if self.process.wait():
            raise Ended(self.process.returncode)
        return tuple(map(int, left.decode().split("\n")[-2].split(" ")[1:]))

    def __enter__(self):
        return self

    def __exit__(self, *_):
        """Ends the process where `close` was not called."""
        if not self.process.stdin.closed:
            with contextlib.suppress(Ended):
                self.close()
