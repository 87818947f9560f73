"""What the bench scripts share: what they need, the program, streams made by ffmpeg, and timed runs."""

import os
import re
import shutil
import statistics
import subprocess
import sys
import tempfile
import time

TOP = os.path.dirname(os.path.dirname(os.path.abspath(__file__)))
MEMORY = "/dev/shm"
RUNS = 5
PROGRAM = "Y4MSERVE"
# where a program is to be had that a script needs
BRINGS = {
    "rt": "the Rattle kit brings it; put its folder `bin` on the path",
    "ffmpeg": "`apt-get install ffmpeg` brings it",
    "x264": "`apt-get install x264` brings it",
    "mpeg2enc": "`apt-get install mjpegtools` brings it",
    "mandoc": "`apt-get install mandoc` brings it",
    "cc": "`apt-get install gcc` brings it",
    "objdump": "`apt-get install binutils` brings it",
    "parallel": "`apt-get install parallel` brings it",
    "ssh": "`apt-get install openssh-client` brings it",
    "sshd": "`apt-get install openssh-server` brings it",
    "rsync": "`apt-get install rsync` brings it",
    "slurmctld": "`apt-get install slurmctld` brings it",
    "slurmd": "`apt-get install slurmd` brings it",
    "munged": "`apt-get install munge` brings it",
    "sbatch": "`apt-get install slurm-client` brings it",
}


def need(*names):
    """Ends the script with one line where one of these programs is missing."""
    for name in names:
        if not shutil.which(name):
            sys.exit(f"{name} is missing: {BRINGS[name]}")


def takes(form, said):
    """Whether the words have this form: in it a word in capitals stands for any one, and with two dots for any number."""
    parts = form.split()
    if parts and parts[-1].endswith(".."):
        parts = parts[:-1] + ["WORD"] * (len(said) - len(parts) + 1)
    return len(parts) == len(said) and all(part.isupper() or part == word for part, word in zip(parts, said))


def words(*forms):
    """The script's words. Words of none of the forms end it with status 2."""
    said = sys.argv[1:]
    if any(takes(form, said) for form in forms):
        return said
    name = os.path.basename(sys.argv[0])
    print("usage: " + " | ".join(f"{name} {form}".strip() for form in forms), file=sys.stderr)
    sys.exit(2)


def sources():
    """Each file that the program or a test is made of."""
    yield os.path.join(TOP, "crates.txt")
    for crate in os.listdir(os.path.join(TOP, "crates")):
        for folder, _, names in os.walk(os.path.join(TOP, "crates", crate, "src")):
            yield from (os.path.join(folder, name) for name in names)


def built(crate, made, command):
    """What rt makes of a crate by this command, made again where it is missing or older than its sources."""
    folder = os.path.join(TOP, "crates", crate)
    path = os.path.join(folder, "out", made)
    if os.path.exists(path) and os.stat(path).st_mtime >= max(os.stat(source).st_mtime for source in sources()):
        return path
    need("rt")
    print(f"building {made} ..", file=sys.stderr)
    started = time.time()
    given = os.path.join(folder, "stdin")
    with open(given if os.path.exists(given) else os.devnull, "rb") as stream:
        run = subprocess.run(["rt", *command], cwd=folder, stdin=stream, stdout=subprocess.PIPE, stderr=subprocess.STDOUT)
    if run.returncode != 0 or not os.path.exists(path):
        said = run.stdout.decode(errors="replace").strip().splitlines() or ["rt said nothing"]
        sys.exit(f"{made} was not built: {said[-1]}")
    # where nothing of what it is made of has changed, rt leaves it as it was
    os.utime(path, (started, started))
    return path


def program():
    """The proved program, or the one that the environment names as Y4MSERVE."""
    if PROGRAM in os.environ:
        return os.path.abspath(os.environ[PROGRAM])
    return built("y4mserve", "y4mserve", ["run", "--", "filter", "invert"])


def has_tests(crate):
    folder = os.path.join(TOP, "crates", crate, "src")
    for source in (source for source in sources() if source.startswith(folder + os.sep)):
        with open(source) as file:
            if "#[test]" in file.read():
                return True
    return False


def tests(crate):
    """The proved tests of a crate, as a program that runs those that it is given by name."""
    return built(crate, f"{crate}_tests", ["test"])


def workspace(megabytes):
    """A folder in memory with room for so much, which goes when the script ends."""
    if not os.path.isdir(MEMORY):
        sys.exit(f"{MEMORY} is missing: the streams stand in memory there")
    room = os.statvfs(MEMORY)
    with open("/proc/meminfo") as told:
        free = [int(line.split()[1]) for line in told if line.startswith("MemAvailable:")]
    left = min([room.f_bavail * room.f_frsize // 1000000] + [kibibytes * 1024 // 1000000 for kibibytes in free])
    if left < megabytes:
        sys.exit(f"room in memory is missing: {left} MB are left in {MEMORY}, and {megabytes} MB are wanted")
    return tempfile.TemporaryDirectory(prefix="y4mserve-bench-", dir=MEMORY)


def make_stream(path, frames, pixels, size="1920x1080"):
    """A made picture that moves, in one of ffmpeg's pixel formats."""
    subprocess.run(["ffmpeg", "-loglevel", "error", "-y", "-f", "lavfi", "-i", f"testsrc2=size={size}:rate=25",
                    "-frames:v", str(frames), "-pix_fmt", pixels, "-strict", "-1", "-f", "yuv4mpegpipe", path], check=True)


def machine():
    """How many processors there are, which, and by which numbers their maker tells them apart: a virtual machine may hide the name."""
    with open("/proc/cpuinfo", encoding="utf-8") as told:
        page = told.read()
    name, *numbers = (re.search(rf"^{field}\s*: (.*)$", page, re.M) for field in ("model name", "cpu family", "model", "stepping"))
    told = ", ".join(f"{field} {number.group(1)}" for field, number in zip(("family", "model", "stepping"), numbers) if number)
    return f"{os.cpu_count()} x {name.group(1) if name else 'an unknown processor'}{f' ({told})' if told else ''}"


def ffmpeg(picture_filter, source="pipe:0", target="pipe:1"):
    """ffmpeg's words for one filter over a stream, with its default threads."""
    return ["ffmpeg", "-loglevel", "error", "-nostdin", "-y", "-f", "yuv4mpegpipe", "-i", source,
            "-vf", picture_filter, "-strict", "-1", "-f", "yuv4mpegpipe", target]


def timed(words, source, target):
    """One run from a file to a file: seconds."""
    with open(source, "rb") as into, open(target, "wb") as out:
        start = time.perf_counter()
        child = subprocess.Popen(words, stdin=into, stdout=out)
        status = child.wait()
        seconds = time.perf_counter() - start
    if status != 0:
        sys.exit(f"{words[0]} ended with status {status}")
    return seconds


def peak(words, source, target):
    """The peak of a run's memory in KiB, as the kernel has it for the program itself."""
    most = 0
    with open(source, "rb") as into, open(target, "wb") as out:
        child = subprocess.Popen(words, stdin=into, stdout=out)
        while child.poll() is None:
            try:
                with open(f"/proc/{child.pid}/status") as status:
                    said = [line for line in status if line.startswith("VmHWM")]
            except OSError:
                said = []
            most = max([most] + [int(line.split()[1]) for line in said])
            time.sleep(0.002)
    return most


def piped(words, source, target):
    """One run between two pipes, each end a `cat`: seconds."""
    with open(source, "rb") as into, open(target, "wb") as out:
        start = time.perf_counter()
        first = subprocess.Popen(["cat"], stdin=into, stdout=subprocess.PIPE)
        middle = subprocess.Popen(words, stdin=first.stdout, stdout=subprocess.PIPE)
        last = subprocess.Popen(["cat"], stdin=middle.stdout, stdout=out)
        first.stdout.close()
        middle.stdout.close()
        codes = [middle.wait(), last.wait(), first.wait()]
        seconds = time.perf_counter() - start
    if codes != [0, 0, 0]:
        sys.exit(f"{words[0]} ended with status {codes[0]} between pipes")
    return seconds


def medians(*runs, count=RUNS):
    """The median of each run's seconds, the runs taken in turn so many times."""
    seconds = [[] for _ in runs]
    for _ in range(count):
        for kept, run in zip(seconds, runs):
            kept.append(run())
    return [statistics.median(kept) for kept in seconds]


def minima(count, *runs):
    """The least of each run's seconds, the runs taken in turn so many times."""
    seconds = [[] for _ in runs]
    for _ in range(count):
        for kept, run in zip(seconds, runs):
            kept.append(run())
    return [min(kept) for kept in seconds]


def rate(path, seconds):
    """MB of input a second."""
    return os.path.getsize(path) / seconds / 1e6


def same(one, other):
    with open(one, "rb") as a, open(other, "rb") as b:
        while True:
            first, second = a.read(1 << 20), b.read(1 << 20)
            if first != second:
                return False
            if not first:
                return True


def payload_same(one, other):
    """Whether two streams have the same bytes after their header lines."""
    with open(one, "rb") as a, open(other, "rb") as b:
        a.readline(), b.readline()
        while True:
            first, second = a.read(1 << 20), b.read(1 << 20)
            if first != second:
                return False
            if not first:
                return True
