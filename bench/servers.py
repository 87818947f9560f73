"""A server that is left alone, by its control, a live stream, and a terminal: those round which `operator` sets its faults."""

import contextlib
import os
import pty
import re
import subprocess
import threading
import time

import streams as s

WIDTH, HEIGHT = 64, 48
SIZE = WIDTH * HEIGHT * 3 // 2
HEADER = b"YUV4MPEG2 W%d H%d F25:1 C420jpeg\n" % (WIDTH, HEIGHT)
FRAME = b"FRAME\n" + bytes(SIZE)
# between two frames of a live stream, how long a part looks, and how long is waited for what must come, in seconds
PACE, LOOKS, PATIENCE = 0.01, 2, 30


def film(frames):
    return HEADER + frames * FRAME


def write(path, data):
    with open(path, "wb") as file:
        file.write(data)


class Server:
    """`serve --control` by a FIFO, in a folder."""

    def __init__(self, folder, *words, **how):
        self.folder = folder
        os.mkfifo(self.path("control"))
        how = {"stdin": subprocess.DEVNULL, "stdout": subprocess.PIPE, **how}
        self.child = subprocess.Popen([s.program(), "serve", "--control", "control", *words], cwd=folder, **how)
        self.control = os.open(self.path("control"), os.O_RDWR)
        self.text, self.has_ended, self.saying = bytearray(), threading.Event(), []

    def path(self, name):
        return os.path.join(self.folder, name)

    def say(self, *lines):
        """On a thread of its own, since the control may be full."""
        data = b"".join(line.encode() + b"\n" for line in lines)
        self.saying.append(threading.Thread(target=write_all, args=(self.control, data), daemon=True))
        self.saying[-1].start()

    def listen(self):
        def read():
            while piece := os.read(self.child.stdout.fileno(), 65536):
                self.text += piece
            self.has_ended.set()
        threading.Thread(target=read, daemon=True).start()
        return self

    def lines(self):
        return bytes(self.text).decode().split("\n")[:-1]

    def comes(self, form, patience=PATIENCE):
        """The answer of this form, where it comes in time."""
        until = time.monotonic() + patience
        while time.monotonic() < until:
            for line in self.lines():
                if re.fullmatch(form, line):
                    return line
            time.sleep(0.005)
        return None

    def threads(self):
        return len(os.listdir(f"/proc/{self.child.pid}/task"))

    def kill(self):
        """The control stays open where its lines weren't read: who writes them would write to another file."""
        self.child.kill()
        self.child.wait()
        if not any(thread.is_alive() for thread in self.saying):
            os.close(self.control)


def write_all(descriptor, data):
    """Writes all, unless nobody reads on."""
    with contextlib.suppress(BrokenPipeError):
        while data:
            data = data[os.write(descriptor, data):]


class Live:
    """A live stream by two FIFOs, a frame each hundredth of a second; how long its images were waited for at most is measured."""

    def __init__(self, folder, name="live"):
        self.name, self.is_over, self.longest, self.last, self.images = name, False, 0, time.monotonic(), 0
        self.paths = [os.path.join(folder, f"{name}.{end}") for end in ("in", "out")]
        for path in self.paths:
            os.mkfifo(path)
        for work in (self.feed, self.drain):
            threading.Thread(target=work, daemon=True).start()

    def word(self):
        return f"{self.name}:{self.name}.in:{self.name}.out:1:16:invert"

    def feed(self):
        with contextlib.suppress(BrokenPipeError), open(self.paths[0], "wb", buffering=0) as file:
            file.write(HEADER)
            while not self.is_over:
                file.write(FRAME)
                time.sleep(PACE)

    def drain(self):
        with open(self.paths[1], "rb", buffering=0) as file:
            while piece := file.read(65536):
                now = time.monotonic()
                self.longest, self.last, self.images = max(self.longest, now - self.last), now, self.images + len(piece)

    def begins(self):
        until = time.monotonic() + PATIENCE
        while self.images < 5 * SIZE and time.monotonic() < until:
            time.sleep(0.01)

    def watched(self, seconds=LOOKS):
        """The longest wait from now on for so long."""
        self.longest, self.last = 0, time.monotonic()
        time.sleep(seconds)
        return max(self.longest, time.monotonic() - self.last)


class Terminal:
    """A terminal of the program alone, and what it has shown."""

    def __init__(self):
        self.server_end, self.end = pty.openpty()
        self.text = bytearray()
        self.reader = threading.Thread(target=self.read, daemon=True)
        self.reader.start()

    def read(self):
        # a terminal that nobody has open any more is a fault here
        with contextlib.suppress(OSError):
            while piece := os.read(self.server_end, 65536):
                self.text += piece

    def start(self, folder, *words, **how):
        how = {"stdin": subprocess.DEVNULL, "stdout": subprocess.DEVNULL, **how}
        return subprocess.Popen([s.program(), *words], cwd=folder, stderr=self.end, **how)

    def shows(self, form, patience=PATIENCE):
        """Whether it shows this, and after how long."""
        started = time.monotonic()
        while not re.search(form, bytes(self.text)):
            if time.monotonic() - started > patience:
                return False, patience
            time.sleep(0.005)
        return True, time.monotonic() - started

    def drawn(self):
        """What was drawn last."""
        return bytes(self.text).rpartition(b"\x1b[?7l")[2].split(b"\x1b[J")[0]

    def close(self, child):
        """The reader is over before its descriptor is closed: the next file would have that number."""
        child.kill()
        child.wait()
        os.close(self.end)
        self.reader.join()
        os.close(self.server_end)
