"""What a control may answer: a model of the lines that were given and of the answers that came, which says what is wrong with one of them.

Answers are numbered as they come. A line is done somewhere between the moment at which it was given, when so many answers had come, and its own
first sign, so of what happened meanwhile the model takes either."""

import re

WHOLE = 1000000
MOST_STREAMS = 64
LONGEST = 1024
WRONG = re.compile(rb"line (\d+): (\w+) '(.*)'")
ROW = re.compile(rb"([\w-]+) accepted (\d+) delivered (\d+) charged (\d+) stop (.+)")
STANDS = re.compile(rb"([\w-]+) accepted (\d+) finished (\d+) collected (\d+) charged (\d+) budget (\d+) deadline (\d+)( lost its output)?")
HELD = re.compile(rb"([\w-]+) held (\d+):(\d+) until (\d+)")
SHARES = re.compile(rb"shares (\d+) of (\d+)")
NOW = re.compile(rb"now (\d+) streams (\d+)")


class Wrong(Exception):
    """An answer, or what was written, isn't what may be."""


def check(holds, said):
    if not holds:
        raise Wrong(said)


def echo(line):
    """The front of a line, as a fault says it again."""
    plain = (b"%c" % byte if 32 <= byte < 127 and byte not in b"'\\" else b"\\x%02X" % byte for byte in line[:60])
    return b"".join(plain)


class Line:
    """A line of a control: `kind` is stream, close, state, end, stop, nothing or wrong, then with its fault. Words of the command line are lines of
    number 0."""

    def __init__(self, number, text, kind, name=None, fault=None):
        self.number, self.text, self.kind, self.name, self.fault = number, text, kind, name, fault
        # how many answers had come when it was given, and which one was its fault
        self.given, self.answer, self.place = 0, None, 0


class Stream(Line):
    """A line that asks for a stream. `uses` are its files: (file, whether it is a FIFO, whether it is written). `stops` are the ways in which it may
    end by itself; `own_clash` is whether its files clash with one another or with the run's. `frames` is how many come before its end or its
    fault, `is_stuck` that it opens a FIFO whose other end nobody opens."""

    def __init__(self, number, text, name, share, uses, plan):
        super().__init__(number, text, "stream", name)
        self.q, self.t, self.uses, self.plan = *share, uses, plan
        self.parts = -(-self.q * WHOLE // self.t)
        self.own_clash = False
        self.is_taken, self.sign, self.admitted, self.row_at, self.row = True, None, None, None, None
        self.freed_at, self.is_gone, self.until, self.stood = None, False, None, (0, 0, 0, 0, 0)

    def clashes(self, other):
        return any(one[0] == two[0] and (one[1] or one[2] or two[2]) for one in self.uses for two in other.uses)

    def may_hold(self, q, t, until):
        """Whether it may hold this share until then: it ended, and stood at no later deadline."""
        has_ended = self.admitted is not None and self.row is not None and not self.is_gone
        return has_ended and (self.q, self.t) == (q, t) and self.until in (None, until) and self.stood[4] <= until

    def is_left(self, at):
        """Whether its end had been told before the answer of this number."""
        return self.row_at is not None and self.row_at < at


class Model:
    """Takes lines as they are given and answers as they come."""

    def __init__(self, workers, reads_on, tell_end):
        """`reads_on` tells whether lines behind the end are read: until the last stream is over."""
        self.whole, self.reads_on, self.tell_end = workers * WHOLE, reads_on, tell_end
        self.lines, self.numbered, self.streams, self.answers, self.now = [], {}, [], [], 0
        self.told_units, self.is_well = 0, True
        self.last_wrong, self.asked, self.shown, self.block, self.units, self.ended = 0, [], 0, None, None, None

    # what was given

    def give(self, line):
        line.given, line.place = len(self.answers), len(self.lines)
        self.lines.append(line)
        self.numbered[line.number] = line
        if isinstance(line, Stream):
            self.streams.append(line)
        if line.kind == "state" and (self.ended is None or self.reads_on):
            self.asked.append(line)
        if line.kind in ("end", "stop") and self.ended is None:
            self.ended = line

    def is_behind_end(self, line):
        return self.ended is not None and line.place > self.ended.place

    def before(self, line):
        """The streams that were taken before a line."""
        return [one for one in self.streams if one.is_taken and one.place < line.place]

    def left(self):
        """The streams of which nothing is known to have ended, and whether a state isn't answered."""
        return [one for one in self.streams if one.is_taken and one.row is None and not self.is_behind_end(one)]

    def are_shown(self):
        """Whether each state is answered that was asked for; one behind the end may be."""
        sure = sum(1 for line in self.asked if not self.is_behind_end(line))
        return sure <= self.shown <= len(self.asked) and self.block is None

    def is_settled(self):
        return not self.left() and self.are_shown()

    # what came

    def take(self, text):
        """An answer that came."""
        at = len(self.answers)
        self.answers.append(text)
        check(self.units is None, f"{text!r} behind the last answer")
        for form, do in ((WRONG, self.take_wrong), (ROW, self.take_row), (STANDS, self.take_stands), (HELD, self.take_held),
                         (SHARES, self.take_shares), (NOW, self.take_now)):
            found = form.fullmatch(text)
            if found:
                do(at, *found.groups())
                return
        name, _, rest = text.partition(b" ")
        if rest == b"admitted":
            self.take_admitted(at, name)
        elif rest == b"opening":
            self.take_opening(at, name)
        elif name == b"units" and rest.isdigit():
            self.units = int(rest)
        elif rest == b"lost its output":
            check(any(one.plan.goes for one in self.all_named(name)), f"{text!r}, and its encoder is there")
        else:
            raise Wrong(f"{text!r} is no answer")

    def all_named(self, name):
        return [one for one in self.streams if one.name == name]

    def named(self, name, what):
        """The first stream of this name whose end isn't told."""
        for one in self.all_named(name):
            if one.is_taken and one.row is None:
                return one
        raise Wrong(f"{what} of {name!r}, which is no stream")

    def served(self):
        """Those that are served, as they were admitted."""
        served = [one for one in self.streams if one.admitted is not None and one.row is None]
        return sorted(served, key=lambda one: one.admitted)

    def take_wrong(self, at, number, fault, text):
        number, fault = int(number), fault.decode()
        line = self.numbered.get(number)
        check(line is not None and number > self.last_wrong, f"line {number} is told, and wasn't given, or not in order")
        self.last_wrong, line.answer = number, at
        if isinstance(line, Stream):
            line.is_taken = False
        check(text == echo(line.text), f"line {number} is told as {text!r}")
        check(fault in self.faults(line, at), f"line {number} is told as {fault}, and {line.text[:200]!r} may be {self.faults(line, at)}")

    def faults(self, line, at):
        """What a line may be told as, if it is told by the answer of this number; None where it is done and nothing is told."""
        if self.is_behind_end(line) and not self.reads_on:
            return {None}
        if line.kind == "close":
            return self.close_faults(line, at)
        if self.is_behind_end(line):
            return {line.fault or "Ended"} if line.kind == "stream" else {line.fault}
        if not isinstance(line, Stream):
            return {line.fault}
        before, may = self.before(line), set()
        for fault, clashes in (("BadName", lambda one: one.name == line.name), ("BadFile", line.clashes)):
            found = [one for one in before if clashes(one)]
            if any(not one.is_left(line.given) for one in found) or (fault == "BadFile" and self.may_be_read(line, found)):
                may.add(fault)
            if (fault == "BadFile" and line.own_clash) or any(not one.is_left(at) for one in found):
                return may | {fault}
        return may | {line.fault}

    @staticmethod
    def may_be_read(line, found):
        """Whether a read of a FIFO may still wait, though its stream ended."""
        return any(use[1] and use in one.uses[:1] for one in found for use in line.uses)

    def close_faults(self, line, at):
        named = [one for one in self.before(line) if one.name == line.name]
        may = set()
        if all(one.is_left(at) for one in named):
            may.add("NoStream")
        if any(not one.is_left(line.given) for one in named):
            may.add(None)
            if any(other.kind == "stop" or (other.kind == "close" and other.name == line.name) for other in self.lines[:line.place]):
                may.add("AlreadyClosed")
        return may

    def was_closed(self, stream):
        """Whether a line that was given may have closed it."""
        return any(line.kind == "stop" or (line.kind == "close" and line.name == stream.name) for line in self.lines[stream.place:])

    def signs(self, stream, at):
        """The first sign that a stream was taken: none of those that clash with it was there any more, and its share was left."""
        if stream.sign is not None:
            return
        stream.sign = at
        check(None in self.faults(stream, at), f"{stream.text!r} was taken, and is {self.faults(stream, at)}")
        kept = sum(one.parts for one in self.before(stream) if not one.is_left(at))
        check(kept + stream.parts <= self.whole, f"{stream.text!r} was taken beside {kept} of {self.whole}")

    def take_admitted(self, at, name):
        stream = self.named(name, "an admission")
        self.signs(stream, at)
        check(stream.admitted is None and self.block is None, f"{name!r} is admitted twice, or within a state")
        stream.admitted = at

    def take_row(self, at, name, accepted, delivered, charged, stop):
        stream = self.named(name, "a row")
        stop = stop.decode()
        if stop.startswith("admit "):
            self.refused(at, stream, stop)
        else:
            self.signs(stream, at)
        check(stream.admitted is None or self.block is None, f"{name!r} ended within a state")
        stream.row_at, stream.row = at, (int(accepted), int(delivered), int(charged), stop)
        check(stream.admitted is not None or stream.row[:3] == (0, 0, 0), f"{name!r} did something, and wasn't admitted")
        check(all(new >= old for new, old in zip((*stream.row[:2], stream.row[2]), (stream.stood[0], 0, stream.stood[3]))),
              f"{name!r} went back: {stream.row} behind {stream.stood}")
        if stream.admitted is None:
            stream.freed_at = at
        elif not self.served():
            self.free(at, self.streams, True)
        self.tell_end(stream)

    def refused(self, at, stream, stop):
        """It was refused for its share: with all that may have been kept it finds no room."""
        kept = sum(one.parts for one in self.before(stream) if one.freed_at is None or one.freed_at >= stream.given)
        check(stop == "admit Overload" and None in self.faults(stream, at) and kept + stream.parts > self.whole,
              f"{stream.text!r} is told as {stop} beside {kept} of {self.whole}")
        stream.is_taken, stream.freed_at = False, at

    @staticmethod
    def free(at, streams, are_gone):
        """The shares of those of them that ended are free. `are_gone` tells whether none is told as held from here on."""
        for one in streams:
            if one.row is not None:
                one.freed_at, one.is_gone = at if one.freed_at is None else one.freed_at, one.is_gone or are_gone

    # a state

    def in_block(self, at, name, part):
        """The lines of a state come in this order of parts."""
        if self.block is None:
            self.block = {"from": at, "stands": [], "opening": [], "held": [], "part": 0}
        check(self.block["part"] <= part, f"a state is out of order at {name!r}")
        self.block["part"] = part
        return self.block

    def take_stands(self, at, name, *numbers):
        stream, lost = self.named(name, "a state"), numbers[6]
        check(stream.admitted is not None, f"{name!r} is told in a state, and wasn't admitted")
        check(lost is None or stream.plan.goes, f"{name!r} is said to have lost its output")
        accepted, finished, collected, charged, budget, deadline = map(int, numbers[:6])
        stood = (accepted, finished, collected, charged, deadline)
        check(accepted >= finished >= collected and 1 <= budget <= stream.q and all(new >= old for new, old in zip(stood, stream.stood)),
              f"{name!r} stands wrong: {numbers} behind {stream.stood}")
        stream.stood = stood
        self.in_block(at, name, 0)["stands"].append(stream)

    def take_opening(self, at, name):
        stream = self.named(name, "a state")
        self.signs(stream, at)
        check(stream.admitted is None, f"{name!r} is opening, and was admitted")
        self.in_block(at, name, 1)["opening"].append(stream)

    def take_held(self, at, name, q, t, until):
        q, t, until = int(q), int(t), int(until)
        held = self.in_block(at, name, 2)["held"]
        found = [one for one in self.all_named(name) if one not in held and one.may_hold(q, t, until)]
        check(found, f"{name!r} holds {q}:{t} until {until}")
        # of two of one name and share, that one of which this was told before, or the earlier
        one = min(found, key=lambda one: one.until is None)
        one.until = until
        held.append(one)

    def take_shares(self, at, kept, whole):
        block = self.in_block(at, b"shares", 3)
        parts = sum(one.parts for key in ("stands", "opening", "held") for one in block[key])
        check((int(kept), int(whole)) == (parts, self.whole) and parts <= self.whole, f"shares {kept} of {whole}, and {parts} are told")

    def take_now(self, at, moment, count):
        block, moment = self.in_block(at, b"now", 4), int(moment)
        stands, served = ([one.name for one in streams] for streams in (block["stands"], self.served()))
        check(stands == served and int(count) == len(stands), f"a state tells of {stands} and {count}, and {served} are served")
        check(self.shown < len(self.asked), "a state that nobody asked for")
        asked = self.asked[self.shown]
        told = block["stands"] + block["opening"]
        missing = [one.name for one in self.before(asked) if one.row is None and one not in told]
        check(not missing and len(set(told)) == len(told), f"a state doesn't tell of {missing}")
        check(moment >= self.now, f"the clock went back: {moment} behind {self.now}")
        check(all(one.until > moment for one in block["held"]), f"a share is held at {moment} until an earlier moment")
        ended = [one for one in self.streams if one.row is not None and one.row_at < block["from"] and one not in block["held"]]
        # a share that was given on isn't told as held, and is once more where who got it ends before that moment
        self.free(at, ended, not told)
        self.now, self.shown, self.block = moment, self.shown + 1, None

    # the end

    def wells(self):
        """Whether each stream of the words came to a good end; one of a line counts not for the status."""
        of_words = [one for one in self.streams if one.row is not None and one.number == 0]
        return self.is_well and all(one.row[3] in ("whole", "closed") for one in of_words)

    def told(self):
        """The units of all rows."""
        return self.told_units + sum(one.row[2] for one in self.streams if one.row is not None)

    def forget(self):
        """All streams have ended: what is known of them is let go, and so is what they held."""
        check(self.is_settled() and not self.served(), "a round ended, and a stream didn't")
        for line in self.lines:
            check(line.answer is not None or isinstance(line, Stream) or None in self.faults(line, len(self.answers)),
                  f"line {line.number} isn't told, and {line.text[:200]!r} is {self.faults(line, len(self.answers))}")
        self.is_well, self.told_units = self.wells(), self.told()
        self.lines, self.numbered, self.streams, self.answers, self.asked, self.shown = [], {}, [], [], [], 0

    def finish(self, status, errors):
        """All answers came, and the run ended so."""
        check(self.units is not None, "the run ended without its last line")
        check(not self.left() and self.are_shown(), f"not told: {[one.name for one in self.left()]}, {self.shown} states of {len(self.asked)}")
        for line in self.lines:
            if line.answer is None and not isinstance(line, Stream) and not self.is_behind_end(line):
                faults = self.faults(line, len(self.answers))
                check(None in faults, f"line {line.number} isn't told, and {line.text[:200]!r} is {faults}")
        check(self.told() == self.units, f"units {self.units}, and the rows have {self.told()}")
        wanted = 0 if self.wells() else 1
        check((status, errors) == (wanted, b""), f"status {status}, not {wanted}, and {errors!r}")
