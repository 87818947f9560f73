"""Those who stand round a run of `serve --control`: who writes a FIFO, who reads one, and the run itself with its lines and answers. None of them
waits: each does what can be done at once where it is asked to, by the seconds that have passed."""

import contextlib
import errno
import fcntl
import os
import select
import subprocess

# how long one waits that can't go on, in seconds
SOON = 0.002
SET_PIPE_SIZE = 1031
MEMORY = ("VmRSS:", "VmData:")


def shrink(descriptor, size):
    """Gives a pipe this size, where it holds no more and is one."""
    if size:
        with contextlib.suppress(OSError):
            fcntl.fcntl(descriptor, SET_PIPE_SIZE, size)


class Manner:
    """How one goes on: from when, how many bytes at a time and how long apart, and behind which byte it stands still or goes. `made` picks its
    numbers."""

    def __init__(self, made, start=0.0, piece=65536, apart=0.0, halt=None, goes=False, size=None):
        self.made, self.start, self.piece, self.apart, self.halt, self.goes, self.size = made, start, piece, apart, halt, goes, size

    def next_piece(self):
        return self.piece if self.apart == 0 else self.made.randint(1, self.piece)

    def next_time(self, now):
        return now if self.apart == 0 else now + self.made.uniform(0, self.apart)


class Actor:
    """Who stands at one end of a FIFO. `is_told` is set where its stream has ended."""

    def __init__(self, path, manner):
        self.path, self.manner, self.at, self.end = path, manner, manner.start, None
        self.is_over = self.is_released = self.is_told = False
        self.moved = 0

    def may_go(self, count):
        """How many of so many bytes it moves now; it stands still before the byte at which it halts."""
        if self.manner.halt is None or (self.is_released and not self.manner.goes):
            return count
        return min(count, self.manner.halt - self.moved)

    def release(self, now):
        self.is_released, self.at = True, now

    def leave(self):
        if self.end is not None:
            os.close(self.end)
        self.end, self.is_over = None, True

    def step(self, now):
        """Does what it can."""
        if self.is_over or now < self.at:
            return
        if self.end is None and not self.open(now):
            return
        try:
            self.move(now)
        except BlockingIOError:
            self.at = now + SOON
        except BrokenPipeError:
            self.leave()

    def open(self, now):
        try:
            self.end = os.open(self.path, self.WAY | os.O_NONBLOCK)
            shrink(self.end, self.manner.size)
            return True
        except OSError as error:
            if error.errno not in (errno.ENXIO, errno.ENOENT, errno.EBUSY):
                raise
            self.at, self.is_over = now + SOON, self.is_told
            return False


class Feeder(Actor):
    """Writes bytes to a FIFO, and closes it."""

    WAY = os.O_WRONLY

    def __init__(self, path, manner, data):
        super().__init__(path, manner)
        self.data = data

    def move(self, now):
        count = self.may_go(min(self.manner.next_piece(), len(self.data) - self.moved))
        if count > 0:
            self.moved += os.write(self.end, self.data[self.moved:self.moved + count])
        if self.moved == len(self.data) or (self.manner.goes and count <= 0):
            self.leave()
            return
        self.at = now + SOON if count <= 0 else self.manner.next_time(now)


class Encoder(Actor):
    """Reads a FIFO, until its stream has ended and nothing is left."""

    WAY = os.O_RDONLY

    def __init__(self, path, manner):
        super().__init__(path, manner)
        self.text = bytearray()

    def move(self, now):
        count = self.may_go(self.manner.next_piece())
        if count <= 0:
            if self.manner.goes:
                self.leave()
            self.at = now + SOON
            return
        was_told = self.is_told
        piece = os.read(self.end, count)
        self.text += piece
        self.moved += len(piece)
        self.at = self.manner.next_time(now) if piece else now + SOON
        if not piece and was_told:
            self.leave()


class Run:
    """A run of `serve --control`, whose standard output is a pipe of this size. `control` is the FIFO's name, a file's or `-`."""

    def __init__(self, program, folder, control, words, size):
        self.folder, self.errors = folder, open(os.path.join(folder, "errors"), "wb")
        given = subprocess.PIPE if control == "-" else subprocess.DEVNULL
        self.child = subprocess.Popen([program, "serve", "--control", control, *words], cwd=folder, stdin=given, stdout=subprocess.PIPE,
                                      stderr=self.errors, bufsize=0, env={**os.environ, "MALLOC_ARENA_MAX": "1"})
        self.answers, self.text, self.is_ended = self.child.stdout.fileno(), b"", False
        shrink(self.answers, size)
        os.set_blocking(self.answers, False)
        self.control = self.child.stdin.fileno() if control == "-" else None
        if self.control is None and not os.path.isfile(os.path.join(folder, control)):
            # so that it can be opened at once, it is opened for both ways
            self.control = os.open(os.path.join(folder, control), os.O_RDWR | os.O_NONBLOCK)
        if self.control is not None:
            os.set_blocking(self.control, False)

    def write(self, data):
        """Writes to the control what it takes, and answers how much that was."""
        try:
            return os.write(self.control, data)
        except BlockingIOError:
            return 0
        except BrokenPipeError:
            return len(data)

    def close_control(self):
        if self.control is not None and self.child.stdin is not None:
            self.child.stdin.close()
        elif self.control is not None:
            os.close(self.control)
        self.control = None

    def lines(self):
        """The answers that came."""
        came = []
        while True:
            try:
                piece = os.read(self.answers, 65536)
            except BlockingIOError:
                return came
            *whole, self.text = (self.text + piece).split(b"\n")
            came += whole
            if not piece:
                self.is_ended = True
                return came

    def wait(self, seconds, is_heard):
        """Until an answer is there that is listened for, or the time has passed."""
        if is_heard:
            select.select([self.answers], [], [], seconds)
        else:
            select.select([], [], [], seconds)

    def standing(self):
        """How many threads the process has, what its descriptors are, and its memory in kB."""
        folder = f"/proc/{self.child.pid}"
        descriptors = []
        for name in os.listdir(f"{folder}/fd"):
            try:
                descriptors.append(os.readlink(f"{folder}/fd/{name}"))
            except OSError:
                descriptors.append("gone")
        with open(f"{folder}/status") as status:
            memory = {line.split()[0]: int(line.split()[1]) for line in status if line.startswith(MEMORY)}
        return len(os.listdir(f"{folder}/task")), sorted(descriptors), memory

    def told_of_tasks(self):
        """What each thread waits for, for who looks at a run that hangs."""
        said = []
        for name in sorted(os.listdir(f"/proc/{self.child.pid}/task")):
            for what in ("wchan", "syscall"):
                try:
                    with open(f"/proc/{self.child.pid}/task/{name}/{what}") as file:
                        said.append(f"{name} {what} {file.read()}")
                except OSError as error:
                    said.append(f"{name} {what} {error}")
        return "\n".join(said)

    def kill(self):
        if self.child.poll() is None:
            self.child.kill()
        self.child.wait()
        self.child.stdout.close()
        self.errors.close()
        self.close_control()
