"""What happened in a call, as its capture and its transcript tell it together, in the order of time.

`Story.items` gives one item after the other: what became of each datagram, what each pull found, each PLI, and each
stretch of missing numbers once its story has ended. A number is missing if it lies between the first and the newest
number taken and its packet isn't there. What is kept doesn't grow with the call: only what the window holds.
"""
from collections import Counter, namedtuple

from vrxtools import rtp, texts
from vrxtools.told import Told

# numbers that go missing together are told one by one up to so many, and else as one stretch
ONE_BY_ONE = 6
# so many requests a number gets; an interval after the last it is given up
MOST_REQUESTS = 10
# so many rows hold missing numbers in a picture; more share the last
MOST_ROWS = 24

Packet = namedtuple("Packet", "moment look")
Pulled = namedtuple("Pulled", "moment frame seconds")
Nothing = namedtuple("Nothing", "moment")
Pli = namedtuple("Pli", "moment")

# how a missing number's story ends
LATE, RTX, REPAIRED, GIVEN_UP, NOT_NEEDED, OPEN = "late", "rtx", "repaired", "given up", "not needed", "open"
IN_WORDS = {
    LATE: "it came by itself", RTX: "it came as a retransmission", REPAIRED: "it was repaired by FEC",
    GIVEN_UP: "it was given up", NOT_NEEDED: "a frame beyond it was pulled, so it wasn't needed any more",
    OPEN: "it was still missing at the end",
}


class Missing:
    """A stretch of numbers that went missing together: since when, when they were asked for, and how each ended."""

    def __init__(self, first, last, moment, row):
        self.first, self.last, self.since, self.row = first, last, moment, row
        self.left, self.asked, self.ends = last - first + 1, [], []

    def ask(self, moment):
        if not self.asked or self.asked[-1] != moment:
            self.asked.append(moment)

    def end(self, moment, how):
        self.left -= 1
        if not self.ends or self.ends[-1] != (moment, how):
            self.ends.append((moment, how))

    @property
    def until(self):
        return self.ends[-1][0]

    def in_words(self):
        one = self.first == self.last
        name = f"number {self.first}" if one else f"numbers {self.first} to {self.last}"
        asked = ", ".join(f"{moment / 1000:.3f}" for moment in self.asked[:12]) or "never"
        ends = "; ".join(f"{moment / 1000:.3f} s: {IN_WORDS[how]}" for moment, how in self.ends[:6])
        return f"{name}: missing since {self.since / 1000:.3f} s; asked for at: {asked}; {ends}"


class Story:
    """`label` is how many milliseconds of a row a missing number's name takes beside its bar."""

    def __init__(self, capture, transcript, label=0):
        self.capture, self.transcript, self.label = capture, transcript, label
        self.counts, self.rows, self.clock, self.note = Counter(), 0, 0, None
        self.settings = None
        self.newest, self.open, self.asked = None, {}, {}
        self.busy = [0] * MOST_ROWS
        self.before, self.ticks = None, 0

    def items(self):
        events = texts.events_of(self.capture)
        self.settings = next(events)
        replies = texts.replies_of(self.transcript)
        for event in events:
            reply = next(replies, None)
            if reply is None:
                self.note = f"the transcript ends before line {event.line} of the capture"
                break
            if reply.answers[-1][0] == "error":
                self.note = f"the replay ended at line {reply.line} of the capture: {reply.answers[-1][1]}"
                break
            if reply.line != event.line:
                raise Told(f"{self.transcript}: answers line {reply.line} where {self.capture} has an event in line "
                           f"{event.line}: they aren't of the same call")
            self.clock = max(self.clock, event.moment)
            for word, value in reply.answers:
                yield from self.answer(event, word, value)
            if event.kind == "t":
                yield from self.give_up_asked()
        for number in sorted(self.open):
            yield from self.ended(number, OPEN)

    def answer(self, event, word, value):
        """The items of one answer. A datagram of the retransmissions' SSRC is RTX, whatever it brought."""
        is_rtx = event.kind == "d" and event.octets[8:12] == (self.settings.rtxssrc or 0).to_bytes(4, "big") \
            and self.settings.rtxssrc is not None
        if word in ("media", "fec", "empty"):
            self.counts["rtx" if is_rtx else word] += 1
            yield from self.taken(value, RTX if is_rtx else LATE)
            yield Packet(self.clock, "rtx" if is_rtx else word)
        elif word in ("drop", "rtcp"):
            self.counts[word] += 1
            self.counts["reason", value] += 1
            yield Packet(self.clock, word)
        elif word == "repaired":
            self.counts[word] += 1
            if value in self.open:
                yield from self.ended(value, REPAIRED)
        elif word == "nack":
            self.counts[word] += 1
            for wire in rtp.nacked(value):
                self.ask(rtp.nearest(wire, self.newest))
        elif word == "pli":
            self.counts[word] += 1
            yield Pli(self.clock)
        elif word == "notready":
            self.counts[word] += 1
            yield Nothing(self.clock)
        elif word == "frame":
            yield from self.pulled(value)

    def pulled(self, frame):
        self.counts["key" if frame.key else "delta"] += 1
        if self.before is not None:
            step = (frame.timestamp - self.before) % 2**32
            self.ticks += step if step < 2**31 else step - 2**32
        self.before = frame.timestamp
        for number in sorted(number for number in self.open if number <= frame.last):
            yield from self.ended(number, NOT_NEEDED)
        yield Pulled(self.clock, frame, self.ticks / rtp.VIDEO_CLOCK)

    def taken(self, number, how):
        """A packet was taken: what lay between it and the newest is missing now, and what the window left is lost."""
        if self.newest is None:
            self.newest = number
        if number in self.open:
            yield from self.ended(number, how)
        if number > self.newest:
            low = max(self.newest + 1, number - rtp.WINDOW + 1)
            self.newest, before = number, self.newest
            for old in sorted(old for old in self.open if old <= number - rtp.WINDOW):
                yield from self.ended(old, GIVEN_UP)
            if low < number and before < number - 1:
                self.went_missing(low, number - 1)

    def went_missing(self, first, last):
        self.counts["missing"] += last - first + 1
        step = 1 if last - first < ONE_BY_ONE else last - first + 1
        for number in range(first, last + 1, step):
            row = next((row for row in range(MOST_ROWS) if self.busy[row] <= self.clock), MOST_ROWS - 1)
            self.busy[row] = float("inf")
            self.rows = max(self.rows, row + 1)
            stretch = Missing(number, number + step - 1, self.clock, row)
            for one in range(number, number + step):
                self.open[one] = stretch

    def ask(self, number):
        if number in self.open:
            self.open[number].ask(self.clock)
            self.asked[number] = (self.asked.get(number, (0, 0))[0] + 1, self.clock)

    def give_up_asked(self):
        """At a tick a number is given up that was asked for often enough, an interval after the last request."""
        interval = self.settings.interval or texts.USUAL_INTERVAL
        for number, (count, last) in sorted(self.asked.items()):
            if count >= MOST_REQUESTS and last + interval <= self.clock:
                yield from self.ended(number, GIVEN_UP)

    def ended(self, number, how):
        self.counts["ended", how] += 1
        self.asked.pop(number, None)
        stretch = self.open.pop(number)
        stretch.end(self.clock, how)
        if stretch.left == 0:
            self.busy[stretch.row] = self.clock + self.label
            yield stretch
