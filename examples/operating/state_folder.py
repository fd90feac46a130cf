"""What the programs of this folder share: a state folder, whole lines, and how a program ends.

A state folder has
  patterns  the pattern file
  graph.K   checkpoints: the graph as it stands after line K of the log; graph.0 is what it began with
  log/N     the updates, in segments
  report/N  the report, in pieces
N has twenty digits and is the number of the first line in the file. Lines of the log are numbered from 1, and the report has these numbers.
"""
import contextlib
import errno
import fcntl
import os
import sys
from pathlib import Path

HERE = Path(__file__).resolve().parent
TURBOFLUX = os.environ.get("TURBOFLUX") or HERE.parents[1] / "turboflux"
TURBOFLUX_GRAPH = os.environ.get("TURBOFLUX_GRAPH") or HERE.parents[1] / "turboflux-graph"
RUN_BYTES = 2**34  # a run reads no more
PIECE = 2**20
LONGER_THAN_A_LINE = 4098  # with its byte 13

WRITES_FAILED = (errno.EPIPE, errno.ENOSPC, errno.EDQUOT, errno.EFBIG, errno.EROFS)


class Ended(Exception):
    """The program ends with this status, and says this."""

    def __init__(self, status, text):
        super().__init__(text)
        self.status = status


def end(main):
    """Runs `main` and ends with its status. The statuses of what fails are those of turboflux: 1 no file, 5 a read, 6 a write."""
    try:
        status = main()
    except KeyboardInterrupt:
        status = 130
    except Ended as error:
        status = say(error, error.status)
    except FileNotFoundError as error:
        status = say(f"{error.filename}: {error.strerror}", 1)
    except OSError as error:
        status = say(error.strerror, 6 if error.errno in WRITES_FAILED else 5)
    sys.exit(status)


def say(text, status=0):
    """Tells standard error, where there is one, and answers the status."""
    with contextlib.suppress(OSError):
        put(2, f"{Path(sys.argv[0]).name}: {text}\n".encode())
    return status


def put(descriptor, data):
    """Writes all of it."""
    left = memoryview(data)
    while left:
        left = left[os.write(descriptor, left):]


def whole_lines(source):
    """Yields what comes, in pieces that end with a line's end. A last line without an end is left out, which standard error is told."""
    rest = b""
    while piece := os.read(source, 65536):
        rest += piece
        length = rest.rfind(b"\n") + 1
        if length:
            yield rest[:length]
        # A line that is too long is refused whatever it holds, so no more of it is kept than shows that.
        rest = rest[length:][:LONGER_THAN_A_LINE]
    if rest:
        say("a last line without an end was left out")


# ---- numbered files

@contextlib.contextmanager
def locked(folder, how=fcntl.LOCK_EX):
    """Waits until no other program holds this folder."""
    descriptor = os.open(folder, os.O_RDONLY)
    try:
        fcntl.flock(descriptor, how)
        yield
    finally:
        os.close(descriptor)


def sync_folder(folder):
    """Once it is back, the disk has the names in the folder."""
    descriptor = os.open(folder, os.O_RDONLY)
    try:
        os.fsync(descriptor)
    finally:
        os.close(descriptor)


def numbers_in(folder):
    return sorted(int(name) for name in os.listdir(folder) if name.isdigit())


def numbered(folder, number):
    return folder / f"{number:020}"


def begin(folder, number):
    """Begins the file whose first line has this number."""
    numbered(folder, number).touch()
    sync_folder(folder)


def log_of(folder):
    """The folder of the log, which has a segment at least."""
    log = folder / "log"
    log.mkdir(exist_ok=True)
    with locked(log):
        if not numbers_in(log):
            begin(log, 1)
    return log


# ---- the log

class Log:
    """Appends to the log. Any number of programs may do so at once."""

    def __init__(self, folder, segment_bytes=2**28):
        self.log = log_of(folder)
        self.segment_bytes = segment_bytes
        self.segment = None
        self.bytes = self.number = 0  # of the whole lines of this segment, and the number of the last

    def append(self, lines):
        """Appends whole lines, and answers the number of the last one once the disk has it."""
        with locked(self.log):
            self._look()
            if self.bytes >= self.segment_bytes:
                begin(self.log, self.number + 1)
                self._look()
            with open(numbered(self.log, self.segment), "ab", buffering=0) as file:
                file.truncate(self.bytes)  # of what a killed program left of a line
                put(file.fileno(), lines)
                os.fsync(file.fileno())
        self.bytes += len(lines)
        self.number += lines.count(b"\n")
        return self.number

    def _look(self):
        """Counts what others have appended."""
        segment = numbers_in(self.log)[-1]
        if segment != self.segment:
            self.segment, self.bytes, self.number = segment, 0, segment - 1
        with open(numbered(self.log, segment), "rb") as file:
            file.seek(self.bytes)
            while lines := file.readlines(PIECE):
                whole = [line for line in lines if line.endswith(b"\n")]
                self.bytes += sum(map(len, whole))
                self.number += len(whole)


def next_lines(log, file):
    """The next whole lines of a segment, some 2^20 bytes of them; the disk has them."""
    if os.fstat(file.fileno()).st_size == file.tell():
        return []
    with locked(log, fcntl.LOCK_SH):
        os.fsync(file.fileno())
        lines = file.readlines(PIECE)
    if lines and not lines[-1].endswith(b"\n"):
        file.seek(-len(lines.pop()), os.SEEK_CUR)
    return lines


def log_lines(folder, first, wait=lambda: False):
    """Yields the lines of the log from line `first` on, in lists. At the end of the log it asks `wait`, and looks again where that is true."""
    log = log_of(folder)
    segments = [segment for segment in numbers_in(log) if segment <= first]
    if not segments:
        raise Ended(5, f"the log no longer has line {first}")
    number = segment = segments[-1]
    while True:
        with open(numbered(log, segment), "rb") as file:
            while True:
                # (a segment that has a later one is whole: it is looked for before the reading)
                later = [other for other in numbers_in(log) if other > segment]
                while lines := next_lines(log, file):
                    if number + len(lines) > first:
                        yield lines[max(0, first - number):]
                    number += len(lines)
                if later:
                    break
                if not wait():
                    if number < first:
                        raise Ended(5, f"the log has no line {first - 1} yet")
                    return
        segment = later[0]
        if segment != number:
            raise Ended(5, f"the log has no line {number}")


# ---- the report and the checkpoints

def number_of(line):
    """The number of a line of a report."""
    return int(line.split(b" ", 2)[1])


def last_line(report):
    """The last whole line of the report, or None."""
    for piece in reversed(numbers_in(report)) if report.exists() else ():
        with open(numbered(report, piece), "rb") as file:
            file.seek(max(0, file.seek(0, os.SEEK_END) - 4096))  # no line of a report is as long
            whole = file.read().split(b"\n")[:-1]
        if whole:
            return whole[-1]
    return None


def answered(folder):
    """The number up to which each line has its whole block in the report. Of the last block in it more may be due, unless an end line follows."""
    line = last_line(folder / "report")
    return 0 if line is None else number_of(line) if line.startswith(b"=") else number_of(line) - 1


def checkpoints(folder):
    """The numbers of the checkpoints, ascending."""
    return sorted(int(name[6:]) for name in os.listdir(folder) if name.startswith("graph.") and name[6:].isdigit())


def checkpoint_before(folder, number):
    """The number of the last checkpoint that has no line behind `number`."""
    found = [checkpoint for checkpoint in checkpoints(folder) if checkpoint <= number]
    if not found:
        raise Ended(1, f"there is no checkpoint up to line {number}")
    return found[-1]
