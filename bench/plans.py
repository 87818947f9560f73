"""What one stream of a run of `chaos` is given, who stands at its FIFOs, and what may come of it."""

import contextlib
import os

import actors as a
import answers as m
import images

OLD = b"what was there before\n"
SIZES = ((16, 8), (8, 16), (32, 16), (48, 32), (4, 2), (64, 48))
CHAINS = ("invert", "hflip", "vflip", "thresh:100", "clamp:16,235", "blur:1", "blur:3", "hflip+vflip", "crop:4,2,4,6", "invert+blur:2",
          "crop:0,0,4,2+hflip", "blur:8+invert", "clamp:0,9+thresh:7+vflip+invert")
HEADERS = {b"YUV4MPEG3 W4 H2\n": "NotY4m", b"YUV4MPEG2 W0 H2\n": "BadNumber", b"YUV4MPEG2 W4\n": "MissingSize",
           b"YUV4MPEG2 W4 H2 C420p10\n": "UnknownChroma", b"YUV4MPEG2 W4 H2 W4\n": "RepeatedTag", b"YUV4MPEG2 W5 H2\n": "NotDivisible"}


def picked(made, weights):
    return made.choices(list(weights), list(weights.values()))[0]


class Plan:
    """What a stream is given, where its images go, and what may come of it."""

    def __init__(self, made, folder, number, early_end):
        self.made, self.path = made, lambda ending: f"{folder}/s{number}{ending}"
        self.feeder = self.encoder = self.late_in = self.late_out = self.old = None
        self.goes = self.is_stuck = self.is_shared = self.takes_over = False
        self.film = self.some_film()
        self.data, self.frames, self.stops = self.film.given(), len(self.film.lines), {"whole"}
        self.input, self.output = self.path(".in"), self.path(".out")
        self.in_kind = picked(made, {"film": 25, "fifo": 50, "never": 6, "late": 5, "absent": 4, "folder": 2})
        self.out_kind = picked(made, {"file": 40, "old": 12, "fifo": 30, "never": 5, "late": 5, "null": 3, "nowhere": 3})
        self.spoil(picked(made, {"": 75, "cut": 12, "header": 6, "frame": 4, "crop": 3}))
        self.is_served = "whole" in self.stops or any(stop in ("read Truncated", "read NotFrame") for stop in self.stops) and self.has_header
        self.close_at_end = made.random() < 0.5 and not early_end

    def some_film(self):
        made = self.made
        chroma = made.choice(list(images.CHROMAS))
        size, operations = made.choice(SIZES), made.choice(CHAINS)
        if made.random() < 0.04:
            size, operations = (320, 240), made.choice(("invert", "vflip"))
        if size[0] < 8 or size[1] < 8:
            operations = operations.replace("crop:4,2,4,6", "crop:0,0,4,2")
        lines = [made.choice((b"FRAME\n", b"FRAME\n", b"FRAME Ixyz Xa=b\n")) for _ in range(made.choice((0, 1, 2, 3, 5, 8, 13)))]
        return images.Film(images.Format(*size, chroma), made.choice((b"", b" Ip A1:1 Xq=b")), lines,
                           [made.randrange(images.DIFFERENT) for _ in lines], operations)

    def spoil(self, how):
        """Something of the stream is wrong."""
        ends, made, self.has_header = self.film.ends(), self.made, True
        if how == "cut":
            place = made.choice((0, made.randrange(len(self.data) + 1), made.choice(ends), made.choice(ends) - 1))
            self.data, self.has_header = self.data[:place], place >= ends[0]
            self.frames = sum(end <= place for end in ends[1:])
            self.stops = {"whole"} if place in ends else {"read Truncated"}
        elif how == "header":
            header, fault = made.choice(list(HEADERS.items()))
            self.data, self.frames, self.stops, self.has_header = header + self.data, 0, {f"read Header {fault}"}, False
        elif how == "frame":
            self.data, self.stops = self.data + b"FRAMES\n" + bytes(100), {"read NotFrame"}
        elif how == "crop":
            self.film.operations, self.frames, self.stops, self.has_header = "crop:0,0,4096,2", 0, {"ops BadCrop"}, False

    def manner(self, start, length):
        """Fast, slow, or with a halt in its middle."""
        made = self.made
        manner = a.Manner(made, start, size=made.choice((None, None, 4096)))
        kind = picked(made, {"fast": 40, "slow": 35, "halts": 25})
        if kind == "slow":
            manner.piece, manner.apart = made.choice((100, 1000, 5000)), made.choice((0.001, 0.004))
            # at most some fifty pieces, so that a run stays short
            manner.piece = max(manner.piece, length // 40)
        elif kind == "halts":
            manner.halt = made.randrange(length + 1)
        return manner

    def prepare(self, top, asked_at):
        """Makes its files, and those who stand at them."""
        self.top, made = top, self.made
        within = lambda name: os.path.join(top, name)
        if self.in_kind == "film":
            with open(within(self.input), "wb") as file:
                file.write(self.data)
        elif self.in_kind == "folder":
            os.mkdir(within(self.input))
            self.stops = {"open", "read Device"}
        elif self.in_kind == "absent":
            self.stops = {"open"}
        else:
            self.prepare_feeder(within(self.input), asked_at)
        self.prepare_output(within, asked_at)
        self.prefix = {"open"} if self.in_kind == "late" else set()

    def prepare_feeder(self, path, asked_at):
        start = max(0, asked_at + self.made.uniform(-0.02, 0.03))
        if self.in_kind == "late":
            self.late_in = asked_at + self.made.uniform(-0.002, 0.004)
        else:
            os.mkfifo(path)
        if self.in_kind == "never":
            self.is_stuck, start = True, 1e9
        self.feeder = a.Feeder(path, self.manner(start, len(self.data)), self.data)

    def prepare_output(self, within, asked_at):
        length, is_late = len(self.film.images(self.frames)) if self.has_header else 1, self.out_kind == "late"
        if self.out_kind == "null":
            self.output = "/dev/null"
        elif self.out_kind == "nowhere":
            self.output = self.path("/none/out")
            if self.has_header and self.in_kind not in ("absent", "folder"):
                self.stops = {"create"}
        elif self.out_kind == "old":
            self.old = OLD
            with open(within(self.output), "wb") as file:
                file.write(OLD)
        elif self.out_kind in ("fifo", "never", "late"):
            start = max(0, asked_at + self.made.uniform(-0.02, 0.03))
            if is_late:
                self.late_out = asked_at + self.made.uniform(-0.002, 0.02)
            else:
                os.mkfifo(within(self.output))
            if self.out_kind == "never":
                self.is_stuck, start = True, 1e9
            manner = self.manner(start, length)
            if manner.halt is not None and manner.halt > 0 and not is_late and self.made.random() < 0.4:
                manner.goes = self.goes = True
            self.encoder = a.Encoder(within(self.output), manner)

    def make_late(self, now):
        for when, path in ((self.late_in, self.input), (self.late_out, self.output)):
            if when is not None and now >= when:
                # the run may have made a file there meanwhile
                with contextlib.suppress(FileExistsError):
                    os.mkfifo(os.path.join(self.top, path))
        self.late_in, self.late_out = (None if when is None or now >= when else when for when in (self.late_in, self.late_out))

    def actors(self):
        return [actor for actor in (self.feeder, self.encoder) if actor is not None]

    def uses(self):
        """Its files, whether each is a FIFO, and whether it is written."""
        found = [(self.input, self.feeder is not None, False)]
        return found + ([(self.output, self.encoder is not None, True)] if self.output != "/dev/null" else [])

    # what came of it

    def check_row(self, stream, was_closed, band):
        accepted, delivered, charged, stop = stream.row
        word, wanted = ("write" if stop.startswith("write ") else stop), set(self.stops) | self.prefix
        if self.is_shared:
            wanted |= {"open", "whole"} | ({stop} if stop.startswith(("read ", "ops ")) else set())
        if self.goes:
            wanted.add("write")
        if was_closed:
            wanted |= {"closed", "read Device"} if self.goes else {"closed"}
        m.check(word in wanted, f"{stream.name!r} stops {stop}, and not by {sorted(wanted)}: {self.in_kind}, {self.out_kind}")
        if self.is_shared:
            return
        cost = images.cost(self.film.form, self.film.operations, band) if self.has_header else 0
        m.check(delivered <= accepted <= self.frames and delivered * cost <= charged <= accepted * cost, f"{stream.row} of {self.frames} frames")
        if word == "write":
            ends = self.film.image_ends()
            m.check(delivered == max(0, sum(end <= int(stop.split()[1]) for end in ends) - 1), f"{stream.row}, and images end at {ends}")
        elif not self.goes:
            m.check(delivered == accepted and charged == accepted * cost, f"{stream.row}, and a frame costs {cost}")
        if word in ("whole", "read Truncated", "read NotFrame"):
            m.check(accepted == self.frames, f"{stream.row} of {self.frames} frames")
        if self.feeder is not None:
            ends = self.film.ends()
            given = sum(end <= self.feeder.moved for end in ends[1:]) if self.has_header else 0
            m.check(accepted <= given, f"{stream.row}, and {given} frames were given")

    def check_output(self, stream):
        """What a file holds when its stream has ended."""
        path = os.path.join(self.top, self.output)
        if self.encoder is not None or self.output == "/dev/null" or self.is_shared:
            return
        found = None
        if os.path.exists(path):
            with open(path, "rb") as file:
                found = file.read()
        if stream.admitted is None:
            m.check(self.takes_over or found in ((OLD,) if self.old else (None, b"") if self.has_header else (None,)),
                    f"{stream.name!r} wasn't served, and its OUT is {found and found[:99]!r}")
        else:
            self.check_images(stream, found)

    def check_images(self, stream, found):
        _, delivered, _, stop = stream.row
        wanted = self.film.images(delivered)
        if delivered == 0 and stop != "whole":
            m.check(self.takes_over or found in (wanted, b"", self.old), f"{stream.name!r} delivered nothing, and its OUT is {found[:99]!r}")
        else:
            m.check(found == wanted, f"{stream.name!r} {stream.row}: its OUT has {len(found)} bytes, not the {len(wanted)} that are due")

    def check_encoder(self, stream):
        """What was read of a FIFO in all."""
        if self.encoder is None or self.is_shared or stream.row is None:
            return
        text = bytes(self.encoder.text)
        if stream.admitted is None:
            m.check(text == b"", f"{stream.name!r} wasn't served, and its encoder got {text[:99]!r}")
        elif self.goes or stream.row[3].startswith("write "):
            m.check(self.film.images(self.frames).startswith(text), f"{stream.name!r}: its encoder got what is no front of the images")
        else:
            self.check_images(stream, text)
