"""Two stairs of deadlines over the work of one worker, and who was served: the table that `bench/deadlines` prints."""

import os
import subprocess
import sys

import drawing as d
import streams as s

STREAMS = (("fast", "blue"), ("slow", "orange"))
SAID = ("One worker, and both streams always have frames waiting. When Q units of a stream are done (30 of fast, 10 of slow), its "
        "deadline moves back by T, 60 moments. The numbers in the lanes are the leases.")
LEFT, RIGHT, TOP, BOTTOM = 70, 740, 84, 304
# the deadlines between which there is place, where the lanes lie, and how far apart
LOWEST, HIGHEST, LANES, LANE = 40, 262, 322, 34


def leases():
    """Of each lease for whom it was, its units, and both deadlines after it; and both deadlines at first."""
    run = subprocess.run([os.path.join(s.TOP, "bench", "deadlines")], stdout=subprocess.PIPE, text=True)
    if run.returncode != 0:
        sys.exit("the table of two deadlines isn't there")
    rows = [row.split() for row in run.stdout.splitlines()[1:]]
    first, *served = [(row[1], int(row[3]), (int(row[5]), int(row[7]))) for row in rows]
    return first[2], served


def drawn():
    first, served = leases()
    total = sum(units for _, units, _ in served)
    picture = d.Picture(446, "Two deadlines that move: the earliest one is served", [SAID])
    for number, line in enumerate(d.lines_within(SAID, d.WIDTH - 60, 12)):
        picture.text(20, 52 + 16 * number, line, "soft")

    def along(units):
        return LEFT + (RIGHT - LEFT) * units / total

    def up(deadline):
        return BOTTOM - (BOTTOM - TOP) * (deadline - LOWEST) / (HIGHEST - LOWEST)

    draw_axes(picture, along, up, total)
    draw_lanes(picture, along, served)
    for number in range(len(STREAMS)):
        draw_stair(picture, along, up, number, first, served)
    return picture


def draw_axes(picture, along, up, total):
    for deadline in range(60, HIGHEST, 60):
        picture.line([(LEFT, up(deadline)), (RIGHT, up(deadline))], "edge")
        picture.text(LEFT - 8, up(deadline) + 4, str(deadline), "soft", place="end")
    picture.text(LEFT - 8, up(HIGHEST) + 4, "deadline", "soft", 11, "end")
    for units in range(0, total + 1, 30):
        picture.line([(along(units), TOP), (along(units), LANES + 2 * LANE)], "edge", more='stroke-dasharray="2 4"')
        picture.text(along(units), LANES + 2 * LANE + 18, str(units), "soft", place="middle")
    picture.text(RIGHT, LANES + 2 * LANE + 38, "units of work that the worker has done", "soft", place="end")


def draw_stair(picture, along, up, number, first, served):
    """A stream's deadline: a tread as long as it stands, and thick where the stream is served."""
    (name, colour), done, deadline = STREAMS[number], 0, first[number]
    # deadlines that are one apart don't lie upon one another
    lift = -1.5 if number else 1.5
    places, begun = [(along(0), up(deadline) + lift)], 0
    for who, units, after in served:
        if who == name:
            served_here = [(along(at), up(deadline) + lift) for at in (done, done + units)]
            picture.line(served_here, colour, 7, 'stroke-opacity="0.4"')
        done += units
        if after[number] != deadline:
            label(picture, along(begun), up(deadline), number, deadline)
            places += [(along(done), up(deadline) + lift), (along(done), up(after[number]) + lift)]
            deadline, begun = after[number], done
    if begun < done:
        places.append((along(done), up(deadline) + lift))
    label(picture, along(begun), up(deadline), number, deadline)
    picture.line(places, colour, 2)


def label(picture, x, y, number, deadline):
    """A deadline, above its tread or below it."""
    picture.text(x + 5, y - 9 if number else y + 18, str(deadline), STREAMS[number][1], 12, more="bold")


def draw_lanes(picture, along, served):
    for number, (name, colour) in enumerate(STREAMS):
        y, done = LANES + number * LANE, 0
        picture.text(LEFT - 8, y + 18, name, colour, place="end", more="bold")
        for lease, (who, units, _) in enumerate(served, 1):
            if who == name:
                picture.box(along(done) + 0.75, y, along(done + units) - along(done) - 1.5, 26, colour, 'rx="3" fill-opacity="0.25"')
                picture.text((along(done) + along(done + units)) / 2, y + 17, str(lease), "ink", 11, "middle")
            done += units
