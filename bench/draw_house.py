"""The crates as floors of a house, the way of a frame through them, and by each what is proved of it."""

import os
import re
import sys

import drawing as d
import streams as s

# of each crate what it is about, and what is proved of it
BYTES, SHARES, THREADS, WORDS = "blue", "green", "orange", "violet"
FLOORS = {
    "y4mserve": (WORDS, "The program with its own words, files and pipes; what these give or take is not proved."),
    "serve_report": (WORDS, "At status 0 what the words ask for is done, or some text was written where they ask for help."),
    "serve_words": (WORDS, "What clap finds in the words is asked for; all checks pass, or the first fault is told."),
    "serve_watch": (WORDS, "Each record of a trace has its text, and stands behind those before it."),
    "serve_files": (WORDS, "What is read ahead is given once and in order; what came of a write is told once."),
    "serve_script": (WORDS, "A script prints exactly the lines that the definitions give for it."),
    "serve_client": (THREADS, "What a client read, what it wrote, and why it stops; what is left to do goes to the next epoch."),
    "serve_work": (THREADS, "Each stream writes a front of its own images, all at a whole end, then charged for just these."),
    "serve_audit": (SHARES, "A journal is accepted exactly where it is legal; so is each that a book keeps."),
    "serve_hub": (THREADS, "Threads that share one lock have one legal history, from epoch to epoch."),
    "serve_core": (SHARES, "Every run keeps the rules: images in order, once; each lease to an earliest deadline."),
    "lease": (SHARES, "The image of a job that is done is its frame's image by the chain."),
    "edf_pool": (SHARES, "Of the streams that are ready, the one with the earliest deadline."),
    "cbs_account": (SHARES, "Budget and deadline by the rules of 1998; the work since an idle arrival fits the share."),
    "stream_queue": (SHARES, "A numbered list of frames, of which one may be out; each answer is exact."),
    "y4m_stream": (BYTES, "n frames in, n images out, to the bytes, and each fault where it stands."),
    "filters": (BYTES, "Exactly the defined samples, by each operation and by a chain."),
    "row_bands": (BYTES, "The rows of a band are written, and all others stay."),
    "frame_view": (BYTES, "Each byte is a sample of one plane, row and column."),
    "y4m_header": (BYTES, "A header line is accepted exactly by grammar and limits; each refusal is the first that holds."),
}
# a way's name, where it begins, its colour, and its stations: a floor, and what is done there
WAYS = (
    ("filter", 166, "soft", (
        ("y4m_stream", "read"), ("y4m_header", "its line checked"), ("filters", "filtered"), ("y4m_stream", "written"))),
    ("serve", 252, "red", (
        ("y4m_stream", "read by the stream's client"), ("y4m_header", "its line checked"), ("serve_hub", "offered, under the lock"),
        ("stream_queue", "queued"), ("edf_pool", "its stream is the earliest"), ("lease", "lent to a worker"),
        ("filters", "some bands filtered"), ("cbs_account", "charged (5 to 8 again, until all bands are done)"),
        ("serve_hub", "collected"), ("y4m_stream", "written"))),
)
ABOUT = ((BYTES, "bytes and pictures"), (SHARES, "deadlines and shares"), (THREADS, "threads"), (WORDS, "words and files"))
LEFT, WAY, RIGHT, SAID, TOP, FLOOR, STEP = 20, 150, 446, 462, 112, 40, 18


def crates():
    """The crates from the roof down, without those that hold tests or an example."""
    with open(os.path.join(s.TOP, "crates.txt")) as file:
        names = re.findall(r"^(\w+)[^:]*:", file.read(), re.M)
    floors = [name for name in reversed(names) if not name.endswith("_tests") and name not in ("test_tools", "example_filter")]
    with open(os.path.join(s.TOP, "docs", "PROOFS.md")) as page:
        told = re.findall(r"^### (\w+)$", page.read(), re.M)
    for name in floors:
        if name not in FLOORS or name not in told + floors[:1]:
            sys.exit(f"what is proved of {name} stands not in bench/draw_house.py, or not in docs/PROOFS.md")
    if set(FLOORS) != set(floors):
        sys.exit("bench/draw_house.py has a floor that crates.txt lacks")
    return floors


def drawn():
    floors = crates()
    picture = d.Picture(TOP + FLOOR * len(floors) + 120, "The crates, the way of a frame through them, and what is proved of each",
                        [f"{name}: {FLOORS[name][1]}" for name in floors])
    picture.text(SAID, 60, "Lack of memory aside, and in short words:", "soft", 11.5)
    picture.text(SAID, 75, "docs/PROOFS.md says which contract.", "soft", 11.5)
    heights = {name: TOP + FLOOR * number for number, name in enumerate(floors)}
    draw_roof(picture, heights[floors[0]])
    for name in floors:
        draw_floor(picture, name, heights[name], name == floors[0])
    for way in WAYS:
        draw_way(picture, way, heights)
    draw_legend(picture, TOP + FLOOR * len(floors) + 26)
    return picture


def draw_roof(picture, y):
    middle = (LEFT + RIGHT) / 2
    picture.add("path", "floor", d=f"M{LEFT - 8} {y + FLOOR}L{middle} {y - 52}L{RIGHT + 8} {y + FLOOR}Z")
    picture.line([(LEFT - 8, y + FLOOR), (middle, y - 52), (RIGHT + 8, y + FLOOR), (LEFT - 8, y + FLOOR)], "edge", 2)


def draw_floor(picture, name, y, is_roof):
    about, said = FLOORS[name]
    if is_roof:
        picture.text((LEFT + RIGHT) / 2, y + 2, name, about, 13, "middle", "bold")
    else:
        picture.box(LEFT, y, RIGHT - LEFT, FLOOR, "floor")
        picture.box(LEFT, y, RIGHT - LEFT, FLOOR, "edge-line")
        picture.box(LEFT, y, 5, FLOOR, about)
        picture.text(LEFT + 14, y + 24, name, "ink", 12.5, more="bold")
    lines = d.lines_within(said, d.WIDTH - SAID - 14, 11.5)
    for number, line in enumerate(lines):
        picture.text(SAID, y + 24 - 7.5 * (len(lines) - 1) + 15 * number, line, "ink", 11.5)


def draw_way(picture, way, heights):
    """A line from the roof to each station and back to the roof, and the number of each."""
    name, left, colour, stations = way
    roof = heights["y4mserve"] + FLOOR - 8
    places = [(left, roof)]
    for number, (floor, _) in enumerate(stations):
        y = heights[floor] + FLOOR / 2
        places += [(left + STEP * number, y), (left + STEP * (number + 1), y)]
    end = left + STEP * len(stations)
    places.append((end, roof))
    picture.line(places, colour, 2.5)
    picture.line([(end - 4, roof + 6), (end, roof), (end + 4, roof + 6)], colour, 2.5)
    picture.text((left + end) / 2, roof - 6, name, colour, 12, "middle", "bold")
    for number, (floor, _) in enumerate(stations):
        x, y = left + STEP * number, heights[floor] + FLOOR / 2
        picture.dot(x, y, 8.5, colour)
        picture.text(x, y + 3.7, str(number + 1), "card", 10.5, "middle", "bold")


def draw_legend(picture, y):
    for number, (colour, said) in enumerate(ABOUT):
        picture.box(LEFT + 180 * number, y - 10, 11, 11, colour)
        picture.text(LEFT + 180 * number + 17, y, said, "ink", 11.5)
    y += 26
    for name, _, colour, stations in WAYS:
        said = "  ".join(f"{number} {what}." for number, (_, what) in enumerate(stations, 1))
        picture.text(LEFT, y, name, colour, 11.5, more="bold")
        for line in d.lines_within(said, d.WIDTH - LEFT - 80, 11.5):
            picture.text(LEFT + 46, y, line, "ink", 11.5)
            y += 16
        y += 4
