"""What `growths` and `threads` share: runs of which a growth of memory or a thread is refused, and what they may come to."""

import json
import os
import re
import subprocess
import sys

import streams as s

SECONDS = 60
# how a test ends that fails: by a result that is an error, or by a panic
FAILED = (101, -6)
HEADER = b"YUV4MPEG2 W2 H2 F25:1 Ip A1:1 Cmono XA=b\n"
FRAME = b"FRAME\n\x00\x01\xfe\xff"
NEGATIVE = b"FRAME\n\xff\xfe\x01\x00"


class Ended:
    """How a run ended, and whether anything of it was refused."""

    def __init__(self, status, out, errors, refused):
        self.status, self.out, self.errors, self.refused = status, out, errors, refused

    def answer(self):
        return self.status, self.out, self.errors


def library(folder):
    made = os.path.join(folder, "refuse.so")
    source = os.path.join(os.path.dirname(os.path.abspath(__file__)), "refuse.c")
    if subprocess.run(["cc", "-O1", "-shared", "-fPIC", "-o", made, source]).returncode != 0:
        sys.exit("refuse.c was not compiled")
    return made


def run(made, words, given, what, number, and_all):
    """A run whose GROWTH or THREAD of this number is refused, or that and all behind it; with the number 0 none."""
    told, tell = os.pipe()
    wanted = dict(os.environ, LD_PRELOAD=made, REFUSE_TOLD=str(tell), **{"REFUSE_" + what: str(number)})
    if and_all:
        wanted["REFUSE_ALL"] = "yes"
    try:
        ran = subprocess.run(words, input=given, capture_output=True, env=wanted, pass_fds=[tell], timeout=SECONDS)
        status, out, errors = ran.returncode, ran.stdout, ran.stderr
    except subprocess.TimeoutExpired:
        status, out, errors = "no end", b"", b""
    finally:
        os.close(tell)
    with os.fdopen(told, "rb") as file:
        return Ended(status, out, errors, file.read() != b"")


class Test:
    """One test of a crate."""

    # how it may name what was refused
    WANT = re.compile(rb"NoMemory|AllocError|AllocFailed|OutOfMemory|memory|was a thread .*refused", re.I)

    def __init__(self, crate, program, name):
        self.name, self.words, self.given = f"{crate} {name}", [program, name], b""

    def fault(self, ended):
        text = ended.out + ended.errors
        if ended.status == 0:
            return None if b"test result: ok" in text else "it passed, and did not say so"
        if ended.status not in FAILED:
            return f"it ended with status {ended.status}"
        return None if self.WANT.search(text) else f"it failed for another cause: {text[-200:]!r}"


class Case:
    """One run of the program, with its answer: status, output and errors."""

    def __init__(self, words, given, status, out, errors):
        self.name, self.words, self.given = " ".join(words), [s.program(), *words], given
        self.whole = (status, out, errors)

    def fault(self, ended):
        if ended.answer() == self.whole:
            return None
        if ended.refused and (self.names_words(ended) or self.is_front(ended)):
            return None
        return f"status {ended.status}, {len(ended.out)} bytes, {ended.errors[-200:]!r}"

    @staticmethod
    def names_words(ended):
        """There was no memory for the words."""
        return ended.answer() == (1, b"", b"y4mserve: NoMemory\n")

    def is_front(self, ended):
        return False


class Picture:
    """A stream's header, a frame of it, its image by some operations, and how many units that costs."""

    def __init__(self, header, frame, operations, image, cost):
        self.header, self.frame, self.operations, self.image, self.cost = header, frame, operations, image, cost


SMALL = Picture(HEADER, FRAME, "invert", NEGATIVE, 1)


class Session(Case):
    """A run of `serve` on some files: what was written of each is a front of its images, and all of them where it stops whole."""

    LINE = re.compile(rb"(\w+) accepted (\d+) delivered (\d+) charged (\d+) stop (whole|open|create|read .*|ops .*|refused NoMemory)")

    def __init__(self, folder, options, frames, names="ab", picture=SMALL):
        paths = {name: os.path.join(folder, f"{name}{frames}") for name in names}
        for path in paths.values():
            with open(path, "wb") as file:
                file.write(picture.header + frames * picture.frame)
        units, period = frames * picture.cost, 20 * len(paths)
        rows = [f"{name} accepted {frames} delivered {frames} charged {units} stop whole\n" for name in paths]
        streams = [f"{name}:{path}:{path}.out:10:{period}:{picture.operations}" for name, path in paths.items()]
        super().__init__(["serve", *options, *streams], b"", 0, "".join([*rows, f"units {len(paths) * units}\n"]).encode(), b"")
        self.name = " ".join(["serve", *options]) + f", {len(paths)} streams"
        self.names, self.outs, self.picture = [name.encode() for name in paths], [path + ".out" for path in paths.values()], picture
        self.images = picture.header + frames * picture.image

    def fault(self, ended):
        wrote, images = [self.taken(path) for path in self.outs], self.images
        if ended.answer() == self.whole:
            return None if wrote == [images] * len(wrote) else "a stream that is told as whole isn't"
        if not all(images.startswith(front) for front in wrote):
            return "what was written is no front of the images"
        lines = ended.out.splitlines()
        if self.names_words(ended) or ended.answer() == (1, b"", b"y4mserve: session NoMemory\n"):
            return None if ended.refused and not any(wrote) else "a session that wants memory wrote"
        told = [self.LINE.fullmatch(line) for line in lines[:-1]]
        if not ended.refused or ended.status != 1 or ended.errors or None in told or [line[1] for line in told] != self.names:
            return f"status {ended.status}, {ended.out!r}, {ended.errors[-200:]!r}"
        is_true = all(self.is_true(line, front) for line, front in zip(told, wrote))
        return None if is_true else f"{ended.out!r} isn't what was written"

    def is_true(self, line, front):
        """Whether so many images were written as are told, and all of a stream that is whole."""
        images = self.picture.header + int(line[3]) * self.picture.image
        return front == self.images if line[5] == b"whole" else front == images or (front, line[3]) == (b"", b"0")

    @staticmethod
    def taken(path):
        """What was written, which is then taken away."""
        if not os.path.exists(path):
            return b""
        with open(path, "rb") as file:
            written = file.read()
        os.remove(path)
        return written


class Piped(Session):
    """The same, whose outputs are FIFOs with room for all of it, so that each is written by a thread of its own where there is one for it."""

    def __init__(self, folder, options, frames):
        super().__init__(folder, options, frames)
        self.name += " to FIFOs"
        for path in self.outs:
            os.mkfifo(path)
        self.ends = {path: os.open(path, os.O_RDONLY | os.O_NONBLOCK) for path in self.outs}

    def taken(self, path):
        """What was written, of which nothing is left then."""
        written = b""
        while piece := os.read(self.ends[path], 65536):
            written += piece
        return written


class Traced(Session):
    """The same, of which a trace is written too: it has the units of the report, or it is told that something of it was lost."""

    LOST = b"y4mserve: trace\n"

    def __init__(self, folder, options, frames):
        self.trace = os.path.join(folder, "trace.json")
        super().__init__(folder, [*options, "--trace", self.trace], frames)

    def fault(self, ended):
        trace, said = self.taken(self.trace), ended.errors.removesuffix(self.LOST)
        if said == ended.errors:
            return super().fault(ended) or (None if ended.status or self.is_traced(trace) else "a trace that isn't whole is told as whole")
        if (ended.refused, ended.status) != (True, 1):
            return f"status {ended.status}, {ended.errors[-200:]!r}"
        # without its trace the run is as any other
        status = 0 if (ended.out, said) == self.whole[1:] else 1
        return super().fault(Ended(status, ended.out, said, True))

    def is_traced(self, trace):
        try:
            leases = [record["args"] for record in json.loads(trace) if (record["ph"], record["pid"]) == ("X", 1)]
        except ValueError:
            return False
        return b"units %d\n" % sum(lease["units"] for lease in leases) in self.whole[1]


class Live(Session):
    """A run of `serve --control -`, whose lines ask for the streams: each has its line, in whatever order they end, unless there is no session, or
    no thread for the lines."""

    LINE = re.compile(rb"(\w+) accepted (\d+) delivered (\d+) charged (\d+) stop (whole|closed|open|create|read .*|ops .*|(?:refused|admit) NoMemory)")
    ENDS = (b"y4mserve: session NoMemory\n",)
    # without the thread of its work there is nothing, without that of its lines no stream, and without that of its opening not this stream
    needed = 4

    def __init__(self, folder, frames):
        super().__init__(folder, [], frames)
        streams = self.words[2:]
        self.words, self.given = [*self.words[:2], "--control", "-"], "".join(f"{line}\n" for line in [*streams, "end"]).encode()
        self.name = f"serve --control -, {len(streams)} streams"

    def rows(self, ended):
        found = map(self.LINE.fullmatch, ended.out.splitlines())
        return {row[1]: row for row in found if row}

    def is_whole(self, ended):
        rows = self.rows(ended)
        return (ended.status, ended.errors) == (0, b"") and [rows[name][5] for name in self.names if name in rows] == [b"whole"] * len(self.names)

    def fault(self, ended):
        wrote, rows = [self.taken(path) for path in self.outs], self.rows(ended)
        if not all(self.images.startswith(front) for front in wrote):
            return "what was written is no front of the images"
        is_true = all(name not in rows or self.is_true(rows[name], front) for name, front in zip(self.names, wrote))
        if self.is_whole(ended) and is_true:
            return None
        is_told = ended.errors in self.ENDS or (ended.errors == b"" and set(rows) == set(self.names)) or self.names_words(ended)
        # where the status tells of the server alone, it is 0 without a fault on the error stream
        is_known = ended.status == 1 or (ended.status, ended.errors) == (0, b"")
        return None if ended.refused and is_known and is_true and is_told else f"status {ended.status}, {ended.out!r}, {ended.errors!r}"


def tests_of(crate, kind=Test):
    """Each test of a crate, as one of this kind."""
    program = s.tests(crate)
    listed = subprocess.run([program, "--list"], check=True, capture_output=True, text=True).stdout
    return [kind(crate, program, name) for name in re.findall(r"^(.*): test$", listed, re.M)]
