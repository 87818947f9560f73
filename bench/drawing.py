"""What the pictures are drawn with: SVG in plain text, on a card of its own, whose colours follow a reader's light or dark scheme."""

import os
import re
import textwrap
from html import escape, unescape

import streams as s

WIDTH = 800
# a letter's width beside its height, mostly, in the widest of the fonts that a reader may have
LETTER = 0.56
# what is drawn, and its colours in a light and in a dark scheme
COLOURS = {
    "card": ("#ffffff", "#0d1117"), "edge": ("#d0d7de", "#3d444d"), "floor": ("#f6f8fa", "#151b23"),
    "ink": ("#1f2328", "#f0f6fc"), "soft": ("#59636e", "#9198a1"),
    "blue": ("#0969da", "#4493f8"), "orange": ("#bc4c00", "#f0883e"), "green": ("#1a7f37", "#3fb950"), "violet": ("#8250df", "#ab7df8"),
    "red": ("#cf222e", "#f85149"),
}


def style():
    """A class for each colour, as a fill, and one with `-line`, as a stroke."""
    def rules(scheme):
        return "".join(f".{name}{{fill:{both[scheme]}}}.{name}-line{{fill:none;stroke:{both[scheme]}}}" for name, both in COLOURS.items())
    return ("text{font-family:Verdana,'DejaVu Sans',Helvetica,Arial,sans-serif}.bold{font-weight:bold}"
            f"{rules(0)}@media(prefers-color-scheme:dark){{{rules(1)}}}")


class Picture:
    """A card so high, with a title, and the lines that describe it: of a run the numbers that it is drawn from."""

    def __init__(self, height, title, numbers=()):
        self.height, self.title, self.numbers, self.parts = height, title, list(numbers), []
        for colour in ("card", "edge-line"):
            self.box(0.5, 0.5, WIDTH - 1, height - 1, colour, 'rx="6"')
        self.text(20, 32, title, size=16, more="bold")

    def add(self, tag, colour, more="", **places):
        said = "".join(f' {name.replace("_", "-")}="{number(value)}"' for name, value in places.items())
        self.parts.append(f'<{tag}{said} class="{colour}"{" " + more if more else ""}/>')

    def box(self, x, y, width, height, colour, more=""):
        self.add("rect", colour, more, x=x, y=y, width=width, height=height)

    def line(self, places, colour, width=1, more=""):
        """A line through these places."""
        through = "M" + "L".join(f"{number(x)} {number(y)}" for x, y in places)
        self.add("path", f"{colour}-line", more, d=through, stroke_width=width, stroke_linejoin="round")

    def dot(self, x, y, size, colour):
        self.add("circle", colour, cx=x, cy=y, r=size)

    def text(self, x, y, said, colour="ink", size=12, place="start", more=""):
        places = f'x="{number(x)}" y="{number(y)}" font-size="{size}" text-anchor="{place}"'
        self.parts.append(f'<text {places} class="{f"{colour} {more}".strip()}">{escape(said)}</text>')

    def written(self):
        numbers = "\n".join(self.numbers)
        size = f'width="{WIDTH}" height="{self.height}" viewBox="0 0 {WIDTH} {self.height}"'
        return "\n".join([f'<svg xmlns="http://www.w3.org/2000/svg" {size} role="img">', f"<title>{escape(self.title)}</title>",
                          f"<desc>{escape(numbers)}</desc>", f"<style>{style()}</style>", *self.parts, "</svg>"]) + "\n"


def number(value):
    """A number as short as can be; what is none, as it is."""
    return f"{value:.1f}".removesuffix(".0") if isinstance(value, (int, float)) else value


def lines_within(said, width, size):
    """Words in lines of at most this width."""
    return textwrap.wrap(said, int(width / (size * LETTER)))


def path_of(name):
    return os.path.join(s.TOP, "docs", f"{name}.svg")


def numbers_of(name):
    """The lines of numbers that a picture of docs was drawn from."""
    with open(path_of(name), encoding="utf-8") as picture:
        told = re.search(r"<desc>(.*?)</desc>", picture.read(), re.S)
    return unescape(told.group(1)).splitlines()
