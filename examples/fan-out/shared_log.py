"""What the programs of this folder agree on: the log, the reports of the parts, and the checkpoints.

The log is the Redis stream `updates`. An entry has one field: `lines`, one or more lines of updates, each with its byte 10; or `end`, after which there is nothing.
Lines are numbered from 1 in the order of the entries. An entry that is the line `?` alone is a marker: no update begins so, and `watch` answers line K of it with
`! K word`.

The report of part I is the stream `report:I`, an entry for each marker, whose id is K-0 for a marker at line K. Its field `blocks` has what part I wrote of the
lines after the marker before, up to line K. The entry for the end of the log has the id LINES-1, and beside `blocks` the field `end`, the end line. Redis takes
no entry whose id is not above that of the last one, so nothing can be delivered twice.

A checkpoint is a file LINES_ACCEPTED_REFUSED_ID.graph, in a folder of them: the graph as it stands after so many lines, how many of these changed the graph and how
many were refused, and the id of the last one's entry. It always ends with a marker. It comes under its name once it is whole, and never changes.
"""
import argparse
import os
import re
from collections import namedtuple

LOG = "updates"
MARKER = b"?\n"
ENTRIES = 500         # at most so many come with one read
WAITING = 10_000      # milliseconds that a read waits before it asks again
TOP = os.path.dirname(os.path.dirname(os.path.dirname(os.path.realpath(__file__))))
TURBOFLUX = os.environ.get("TURBOFLUX", os.path.join(TOP, "turboflux"))
TURBOFLUX_GRAPH = os.environ.get("TURBOFLUX_GRAPH", os.path.join(TOP, "turboflux-graph"))

Checkpoint = namedtuple("Checkpoint", "lines accepted refused id")


class Broken(Exception):
    """What the programs agree on does not hold; the text says what."""


def arguments(text, *names, **options):
    """The words of the command line: `names` in order, and `--name` for each of `options`, which have these values if they are not given."""
    parser = argparse.ArgumentParser(description=text, formatter_class=argparse.RawDescriptionHelpFormatter)
    for name in names:
        parser.add_argument(name, type=int if name in ("part", "parts") else str)
    parser.add_argument("--redis", metavar="HOST:PORT", default="127.0.0.1:6379")
    for name, value in options.items():
        parser.add_argument(f"--{name}", **{"action": "store_true"} if value is False else {"type": int, "default": value})
    return parser.parse_args()


# ---- the log

def start_group(redis, name, after):
    """A new consumer group that reads the log from the entry next to `after` on. Those that `name` had before are taken away, so that none of its processes that
    still runs reads on: a read of a group that is gone is refused."""
    run = redis.ask("INCR", f"runs:{name}")
    group = f"{name}:{run}"
    redis.ask("XGROUP", "CREATE", LOG, group, after, "MKSTREAM")
    for info in redis.ask("XINFO", "GROUPS", LOG):
        other, _, number = info[1].decode().rpartition(":")
        if other == name and int(number) < run:
            redis.ask("XGROUP", "DESTROY", LOG, info[1])
    needs_all_after(redis, after)
    return group


def needs_all_after(redis, after):
    """Nothing was trimmed after the entry `after`: it stands itself, or, where nothing was read yet, each that was ever added does."""
    if after == "0-0":
        facts = redis.ask("XINFO", "STREAM", LOG)
        facts = dict(zip(facts[::2], facts[1::2]))
        whole = facts[b"entries-added"] == facts[b"length"]
    else:
        whole = bool(redis.ask("XRANGE", LOG, after, after))
    if not whole:
        raise Broken(f"the log lacks entries after {after}, or may")


def read_log(redis, group):
    """Batches of the log's entries, each an id and its lines; in place of lines the last one, the end of the log, has None."""
    while True:
        answer = redis.ask("XREADGROUP", "GROUP", group, "reader", "COUNT", ENTRIES, "BLOCK", WAITING, "NOACK", "STREAMS", LOG, ">")
        batch = []
        for id_, fields in answer[0][1] if answer else []:
            if fields[0] == b"end":
                yield batch + [(id_, None)]
                return
            if fields[0] != b"lines" or not fields[1].endswith(b"\n"):
                raise Broken(f"the entry {id_.decode()} of the log has no whole lines")
            batch.append((id_, fields[1]))
        yield batch


# ---- the reports of the parts

def report_name(part):
    return f"report:{part}"


def delivered(redis, part):
    """Up to which line the report of a part stands, and whether it is at its end."""
    last = redis.ask("XREVRANGE", report_name(part), "+", "-", "COUNT", 1)
    lines, _, ended = (last[0][0] if last else b"0-0").partition(b"-")
    return int(lines), ended == b"1"


# ---- checkpoints

def checkpoint_path(folder, checkpoint):
    return os.path.join(folder, "%d_%d_%d_%s.graph" % checkpoint)


def checkpoints_in(folder):
    """Those in the folder, ascending by lines."""
    found = [re.fullmatch(r"(\d+)_(\d+)_(\d+)_(\d+-\d+)\.graph", name) for name in os.listdir(folder)]
    return sorted(Checkpoint(int(name[1]), int(name[2]), int(name[3]), name[4]) for name in found if name)


def last_checkpoint_at(folder, lines):
    """The last one that stands at so many lines or fewer."""
    fitting = [checkpoint for checkpoint in checkpoints_in(folder) if checkpoint.lines <= lines]
    if not fitting:
        raise Broken(f"{folder} has no checkpoint at line {lines} or before")
    return fitting[-1]
