"""What y4mserve's operations make of small frames, computed here from their definitions, and what a frame costs."""

import functools
import math
import random

# the divisors of width and height of the second and third plane, and how many planes there are
CHROMAS = {"420": (2, 2, 3), "420jpeg": (2, 2, 3), "420mpeg2": (2, 2, 3), "420paldv": (2, 2, 3), "422": (2, 1, 3), "411": (4, 1, 3),
           "444": (1, 1, 3), "444alpha": (1, 1, 4), "mono": (1, 1, 1)}
# what the samples of a frame are taken from: as many frames as this differ
DIFFERENT = 8


class Format:
    """The width and height of a picture, and its chroma."""

    def __init__(self, width, height, chroma):
        self.width, self.height, self.chroma = width, height, chroma

    def header(self, tags):
        return b"YUV4MPEG2 W%d H%d F25:1 C%s%s\n" % (self.width, self.height, self.chroma.encode(), tags)

    def planes(self):
        """Width and height of each plane."""
        across, down, count = CHROMAS[self.chroma]
        chroma = (self.width // across, self.height // down)
        return [(self.width, self.height), chroma, chroma, (self.width, self.height)][:count]

    def size(self):
        return sum(width * height for width, height in self.planes())


def numbers(operation):
    return [int(number) for number in operation.partition(":")[2].split(",") if number]


def table(operation, plane):
    """What each sample of a plane becomes, by an operation that is a table, or nothing."""
    name, given = operation.partition(":")[0], numbers(operation)
    if name == "invert":
        return bytes(range(256)) if plane == 3 else bytes(255 - value for value in range(256))
    if name == "thresh":
        of_plane = [bytes(255 if value >= given[0] else 0 for value in range(256)), bytes([128]) * 256, bytes([128]) * 256]
        return of_plane[plane] if plane < 3 else bytes(range(256))
    if name == "clamp":
        return bytes(min(max(value, given[0]), given[1]) for value in range(256)) if plane == 0 else bytes(range(256))
    return None


def sums(line, radius):
    """For each place of a line the sum of the places round it, where one outside stands for the nearest inside."""
    ends = [line[0]] * radius + list(line) + [line[-1]] * radius
    total, side = sum(ends[:2 * radius]), 2 * radius
    made = []
    for place in range(len(line)):
        total += ends[place + side]
        made.append(total)
        total -= ends[place]
    return made


def blurred(rows, radius):
    """Each sample becomes the rounded mean of the square round it."""
    count = (2 * radius + 1) ** 2
    down = zip(*(sums(column, radius) for column in zip(*rows)))
    return [bytes((total + count // 2) // count for total in sums(row, radius)) for row in down]


def changed(operation, rows, plane, divisors):
    """The rows of a plane's image by one operation."""
    entries = table(operation, plane)
    if entries is not None:
        return [row.translate(entries) for row in rows]
    name, given = operation.partition(":")[0], numbers(operation)
    if name == "hflip":
        return [row[::-1] for row in rows]
    if name == "vflip":
        return rows[::-1]
    if name == "crop":
        across, down = divisors if plane in (1, 2) else (1, 1)
        left, top, width, height = given[0] // across, given[1] // down, given[2] // across, given[3] // down
        return [row[left:left + width] for row in rows[top:top + height]]
    if name == "blur":
        return blurred(rows, given[0])
    raise ValueError(operation)


def image_format(form, operations):
    """The format of what operations make."""
    for operation in operations.split("+"):
        if operation.startswith("crop:"):
            width, height = numbers(operation)[2:]
            form = Format(width, height, form.chroma)
    return form


def cost(form, operations, band):
    """How many units a frame costs, in bands of so many luma rows."""
    units = 0
    for operation in operations.split("+"):
        form = image_format(form, operation)
        units += math.ceil(form.height / band) * (1 + numbers(operation)[0] if operation.startswith("blur:") else 1)
    return units


@functools.lru_cache(maxsize=None)
def frame(size, number):
    """The samples of a frame: noise, or a slope, by its number."""
    if number % 2:
        return random.Random(number).randbytes(size)
    return bytes((number * 29 + place * (number + 3)) % 256 for place in range(size))


@functools.lru_cache(maxsize=4096)
def image(width, height, chroma, operations, number):
    """What operations make of a frame, plane by plane."""
    form, data, made = Format(width, height, chroma), frame(Format(width, height, chroma).size(), number), []
    for plane, (across, down) in enumerate(form.planes()):
        samples, data = data[:across * down], data[across * down:]
        rows = [samples[row * across:(row + 1) * across] for row in range(down)]
        for operation in operations.split("+"):
            rows = changed(operation, rows, plane, CHROMAS[chroma][:2])
        made += rows
    return b"".join(made)


class Film:
    """A stream of frames, each with a line of its own: its bytes, and those of its images."""

    def __init__(self, form, tags, lines, numbers_of, operations):
        self.form, self.operations = form, operations
        self.header, self.lines = form.header(tags), lines
        self.made = image_format(form, operations)
        self.image_header = self.made.header(tags)
        self.numbers = [number % DIFFERENT for number in numbers_of]

    def given(self):
        frames = (line + frame(self.form.size(), number) for line, number in zip(self.lines, self.numbers))
        return self.header + b"".join(frames)

    def ends(self):
        """At which byte the header and each frame end."""
        places = [len(self.header)]
        for line in self.lines:
            places.append(places[-1] + len(line) + self.form.size())
        return places

    def images(self, count):
        """What is to be written of the first frames."""
        form = self.form
        made = (line + image(form.width, form.height, form.chroma, self.operations, number)
                for line, number in zip(self.lines[:count], self.numbers))
        return self.image_header + b"".join(made)

    def image_ends(self):
        """At which byte the header and each image end."""
        places = [len(self.image_header)]
        for line in self.lines:
            places.append(places[-1] + len(line) + self.made.size())
        return places
