"""A client of Redis: its protocol, RESP 2, over one socket. It needs Python's standard library alone."""
import socket

SILENCE = 60  # seconds without an answer after which a connection counts as lost


class Refused(Exception):
    """Redis answered with an error, which is the text."""


class Redis:
    """One connection to `address`, which is HOST:PORT. A connection that is lost raises an OSError."""

    def __init__(self, address):
        host, _, port = address.rpartition(":")
        self.socket = socket.create_connection((host, int(port)), SILENCE)
        self.file = self.socket.makefile("rb", 1 << 18)

    def ask(self, *words):
        """The answer to one command."""
        return self.ask_all([words])[0]

    def ask_all(self, commands):
        """The answers to commands that are sent together; one turn for all."""
        self.socket.sendall(b"".join(command_bytes(words) for words in commands))
        return [self.answer() for _ in commands]

    def answer(self):
        line = self.file.readline()
        if not line.endswith(b"\r\n"):
            raise ConnectionError("Redis has ended the connection")
        kind, rest = line[:1], line[1:-2]
        if kind == b"$":
            return self.text(int(rest))
        if kind == b"*":
            return None if rest == b"-1" else [self.answer() for _ in range(int(rest))]
        if kind == b"-":
            raise Refused(rest.decode())
        return int(rest) if kind == b":" else rest

    def text(self, size):
        if size < 0:
            return None
        data = self.file.read(size + 2)
        if len(data) != size + 2:
            raise ConnectionError("Redis has ended the connection")
        return data[:-2]


def command_bytes(words):
    texts = [word if isinstance(word, bytes) else str(word).encode() for word in words]
    return b"*%d\r\n" % len(texts) + b"".join(b"$%d\r\n%b\r\n" % (len(text), text) for text in texts)
