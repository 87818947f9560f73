"""What two streams get of one worker: from the lines that `bench/shares` prints."""

import re

import drawing as d

STREAMS = (("fast", "blue"), ("slow", "orange"))
LEFT, RIGHT, TOP, BOTTOM = 86, 690, 124, 386
# the steps that an axis may have
STEPS = [step * 10 ** power for power in range(8) for step in (1, 2, 5)]


def drawn(lines):
    points = [tuple(map(float, line.split())) for line in lines if re.fullmatch(r"[\d.]+ \d+ \d+", line)]
    shares = dict(line.split()[1:3] for line in lines if line.startswith("share "))
    last, most = points[-1][0], max(max(point[1:]) for point in points)
    picture = d.Picture(452, "Two streams that share one worker: units done for each", lines)
    for number, line in enumerate(d.lines_within(said(lines, shares), d.WIDTH - 60, 12)):
        picture.text(20, 52 + 16 * number, line, "soft")

    def along(seconds):
        return LEFT + (RIGHT - LEFT) * seconds / last

    def up(units):
        return BOTTOM - (BOTTOM - TOP - 10) * units / most

    draw_axes(picture, along, up, last, most)
    for number, (name, colour) in enumerate(STREAMS, 1):
        picture.line([(along(point[0]), up(point[number])) for point in points], colour, 2.5)
        for point in points:
            picture.dot(along(point[0]), up(point[number]), 2.5, colour)
        picture.text(RIGHT + 8, up(points[-1][number]) + (4 if number == 1 else 20), f"{name} {shares[name]}", colour, 12, more="bold")
    return picture


def said(lines, shares):
    """What the run was, and what both had when the first one ended."""
    streams, machine, date = (next(line.split(" ", 1)[1] for line in lines if line.startswith(word)) for word in ("streams", "machine", "date"))
    end = next(re.fullmatch(r"ended (\w+) \S+ (\d+) (\d+)", line) for line in lines if line.startswith("ended "))
    name, fast, slow = end.groups()
    told = ", ".join(f"{share} for {stream}" for stream, share in shares.items())
    return (f"A run of {streams}. Frames of both are always waiting, and the shares are {told}. When {name} ended, {int(fast):,} units were "
            f"done for fast and {int(slow):,} for slow, {int(fast) / int(slow):.2f} to 1. From then on slow has the worker alone. On {machine}, "
            f"{date}.")


def draw_axes(picture, along, up, last, most):
    step = next(step for step in STEPS if most / step <= 5)
    for units in range(0, int(most) + 1, step):
        picture.line([(LEFT, up(units)), (RIGHT, up(units))], "edge")
        picture.text(LEFT - 8, up(units) + 4, f"{units:,}", "soft", 11, "end")
    picture.text(LEFT - 8, TOP + 2, "units", "soft", 11, "end")
    step = next(step / 10 for step in STEPS if last / (step / 10) <= 8)
    for number in range(int(last / step) + 1):
        picture.text(along(number * step), BOTTOM + 20, d.number(number * step), "soft", 11, "middle")
    picture.text(RIGHT, BOTTOM + 40, "seconds", "soft", 11, "end")
