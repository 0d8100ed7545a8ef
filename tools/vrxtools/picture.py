"""The picture of a call, as SVG: time to the right, in rows of some seconds, a lane for each thing that happens.

What differs in meaning differs in shape as well as in colour; the colours are those of Okabe and Ito, which also a
colour-blind reader tells apart. The picture is written as the story goes on, and never held as a whole.
"""
from collections import Counter
from html import escape

from vrxtools import story

BLUE, SKY, GREEN, ORANGE, RED, PURPLE, YELLOW = (
    "#0072B2", "#56B4E9", "#009E73", "#E69F00", "#D55E00", "#CC79A7", "#F0E442")
INK, GREY, PALE = "#222222", "#777777", "#EEEEEE"

LEFT, RIGHT, PLOT = 118, 22, 1220
WIDTH = LEFT + PLOT + RIGHT
HEAD, BETWEEN = 150, 26
AXIS, LANE, MISSING_ROW, MISSING_LEAST = 20, 20, 12, 1
PULLED, NONE, GAP = 30, 14, 6
# packets that fall into the same so many pixels are one mark, which is higher the more they are
GRAIN = 2
# a name beside a bar takes so many pixels
NAME = 52
# two frames that lie further apart in milliseconds have a word between them: the picture stood still
STILL = 250

LANES = (("media", "media"), ("rtx", "RTX"), ("fec", "FEC"), ("empty", "empty"), ("drop", "refused"))


def shape(look, x, y, count=1):
    """The mark of a kind of packet, about the point."""
    if look == "media":
        high = min(LANE - 4, 5 + 3 * count)
        return f'<path d="M{x:.1f} {y + LANE / 2 - 2:.1f}v{-high}" stroke="{BLUE}" stroke-width="1.8"/>'
    if look == "rtx":
        return f'<path d="M{x:.1f} {y - 6:.1f}l5.5 10h-11z" fill="{GREEN}" stroke="{INK}" stroke-width=".6"/>'
    if look == "fec":
        return f'<path d="M{x:.1f} {y - 5:.1f}l4 5l-4 5l-4 -5z" fill="{ORANGE}" stroke="{INK}" stroke-width=".6"/>'
    if look == "empty":
        return f'<rect x="{x - 3:.1f}" y="{y - 3:.1f}" width="6" height="6" fill="#fff" stroke="{GREY}"/>'
    if look in ("drop", story.GIVEN_UP):
        return (f'<path d="M{x - 4:.1f} {y - 4:.1f}l8 8m0 -8l-8 8" stroke="{RED}" stroke-width="2.6" '
                'stroke-linecap="round"/>')
    if look == story.LATE:
        return f'<circle cx="{x:.1f}" cy="{y:.1f}" r="4.2" fill="{BLUE}" stroke="{INK}" stroke-width=".6"/>'
    if look == story.REPAIRED:
        return shape("fec", x, y)
    if look == story.NOT_NEEDED:
        return f'<rect x="{x - 3.5:.1f}" y="{y - 3.5:.1f}" width="7" height="7" fill="#fff" stroke="{INK}"/>'
    if look == story.OPEN:
        return f'<path d="M{x - 3:.1f} {y - 4.5:.1f}l5 4.5l-5 4.5" fill="none" stroke="{INK}" stroke-width="1.6"/>'
    if look == "asked":
        return f'<path d="M{x:.1f} {y + 5:.1f}v-10" stroke="{INK}" stroke-width="2"/>'
    if look == "pli":
        return (f'<path d="M{x:.1f} {y + 8:.1f}v-16l10 4l-10 4" fill="{PURPLE}" stroke="{INK}" stroke-width="1.2" '
                'stroke-linejoin="round"/>')
    if look == "key":
        return (f'<rect x="{x - 2.5:.1f}" y="{y - 14:.1f}" width="5" height="28" fill="{INK}"/>'
                f'<path d="M{x:.1f} {y - 19:.1f}l4 5h-8z" fill="{INK}"/>')
    if look == "delta":
        return f'<rect x="{x - 1:.1f}" y="{y - 2:.1f}" width="2" height="16" fill="{SKY}"/>'
    return f'<circle cx="{x:.1f}" cy="{y:.1f}" r="2.6" fill="#fff" stroke="{RED}" stroke-width="1.2"/>'


def text(x, y, words, size=11, anchor="start", fill=INK, weight="normal"):
    return (f'<text x="{x:.1f}" y="{y:.1f}" font-size="{size}" text-anchor="{anchor}" fill="{fill}" '
            f'font-weight="{weight}">{escape(words)}</text>')


class Picture:
    """The picture of the milliseconds from `begin` to `end`, in rows of `row` milliseconds."""

    def __init__(self, file, counts, rows, begin, end, row):
        self.file, self.begin, self.end, self.row = file, begin, end, row
        self.scale = PLOT / row
        self.bands = max(1, -(-(end - begin) // row))
        self.lanes, y = {}, AXIS
        for look, name in LANES:
            if counts[look] or look == "media":
                self.lanes[look] = (y + LANE / 2, name)
                y += LANE
        self.missing = y + GAP
        y = self.missing + MISSING_ROW * max(MISSING_LEAST, rows) + GAP
        self.pli = y + LANE / 2
        self.pulled = y + LANE + GAP + PULLED / 2 + 4
        self.none = self.pulled + PULLED / 2 + NONE / 2 + 1
        self.high = self.none + NONE / 2 + 4
        self.marks, self.band, self.last_frame = Counter(), 0, None

    def put(self, *pieces):
        self.file.write("".join(piece + "\n" for piece in pieces).encode())

    def top(self, band):
        return HEAD + band * (self.high + BETWEEN)

    def place(self, moment):
        """Where a moment is: its band, and how far to the right."""
        since = moment - self.begin
        band = min(since // self.row, self.bands - 1)
        return band, LEFT + (since - band * self.row) * self.scale

    def shows(self, moment):
        return self.begin <= moment <= self.end

    def at(self, look, moment, lane, words=None):
        """A mark at a moment in a lane, with the words that a browser shows when it is pointed at."""
        if not self.shows(moment):
            return
        band, x = self.place(moment)
        mark = shape(look, x, self.top(band) + lane)
        self.put(f"<g><title>{escape(words)}</title>{mark}</g>" if words else mark)

    def stretches(self, since, until):
        """The parts of a time in the bands that it lies in: band, left and right."""
        since, until = max(since, self.begin), min(until, self.end)
        while since <= until:
            band, left = self.place(since)
            border = self.begin + (band + 1) * self.row
            yield band, left, LEFT + (min(until, border) - self.begin - band * self.row) * self.scale
            if until < border or band == self.bands - 1:
                return
            since = border

    def head(self, title, lines):
        high = self.top(self.bands) + 6
        self.put(
            '<?xml version="1.0" encoding="UTF-8"?>',
            f'<svg xmlns="http://www.w3.org/2000/svg" width="{WIDTH}" height="{high:.0f}" '
            f'viewBox="0 0 {WIDTH} {high:.0f}" font-family="sans-serif">',
            f"<title>{escape(title)}</title>", f"<desc>{escape(' '.join(lines))}</desc>",
            f'<rect width="{WIDTH}" height="{high:.0f}" fill="#fff"/>', text(16, 24, title, 16, weight="bold"))
        for place, line in enumerate(lines):
            self.put(text(16, 44 + 16 * place, line, 12))
        self.legend()
        for band in range(self.bands):
            self.frame_of(band)

    def legend(self):
        """The marks and their meanings."""
        shown = [(look, name) for look, name in (
            ("media", "packet of media"), ("rtx", "retransmission (RTX)"), ("fec", "FEC"), ("empty", "empty packet"),
            ("drop", "refused")) if look in self.lanes]
        self.legend_line(96, "Packets", shown)
        y = 114
        self.put(text(16, y + 4, "Missing", 11, weight="bold"), self.bar(90, 116, y, ""),
                 text(122, y + 4, "a number"))
        self.legend_line(y, None, (
            ("asked", "asked for (NACK)"), (story.LATE, "came late"), (story.RTX, "came by RTX"),
            (story.REPAIRED, "repaired by FEC"), (story.GIVEN_UP, "given up"),
            (story.NOT_NEEDED, "not needed any more"), (story.OPEN, "missing at the end")), 200)
        self.legend_line(134, "Decoder", (("pli", "keyframe asked for (PLI)"), ("key", "keyframe pulled"),
                                          ("delta", "delta frame pulled"), ("none", "pull that found none")))

    def legend_line(self, y, name, items, x=90):
        if name:
            self.put(text(16, y + 4, name, 11, weight="bold"))
        for look, words in items:
            mark = shape(look, x + 6, y, 3)
            if look in ("key", "delta"):
                mark = f'<g transform="translate({x + 6} {y}) scale(.6)">{shape(look, 0, 0)}</g>'
            self.put(mark, text(x + 20, y + 4, words))
            x += 38 + 6.3 * len(words)

    def frame_of(self, band):
        """A band's lanes, their names, and its seconds."""
        top, begin = self.top(band), self.begin + band * self.row
        until = min(self.row, self.end - begin)
        right = LEFT + until * self.scale
        for place, (y, name) in enumerate(self.lanes.values()):
            if place % 2 == 0:
                self.put(f'<rect x="{LEFT}" y="{top + y - LANE / 2:.1f}" width="{right - LEFT:.1f}" height="{LANE}" '
                         'fill="#F7F7F7"/>')
            self.put(text(LEFT - 8, top + y + 4, name, 11, "end"))
        self.put(
            f'<rect x="{LEFT}" y="{top + self.missing - GAP / 2:.1f}" width="{right - LEFT:.1f}" '
            f'height="{self.pli - LANE / 2 - self.missing:.1f}" fill="#FFFBEA"/>',
            text(LEFT - 8, top + self.missing + MISSING_ROW - 2, "missing", 11, "end"),
            text(LEFT - 8, top + self.pli + 4, "PLI", 11, "end"),
            text(LEFT - 8, top + self.pulled + 8, "frames pulled", 11, "end"),
            text(LEFT - 8, top + self.none + 4, "found none", 11, "end"))
        step = next(step for step in (100, 200, 500, 1000, 2000, 5000, 10_000, 30_000, 60_000, 300_000, 3_600_000)
                    if step * self.scale >= 50 or step == 3_600_000)
        second = -(-begin // step) * step
        while second <= begin + until:
            x = LEFT + (second - begin) * self.scale
            words = f"{second / 1000:g} s"
            self.put(f'<path d="M{x:.1f} {top + AXIS - 4:.1f}V{top + self.high:.1f}" stroke="#D8D8D8"/>',
                     text(x, top + AXIS - 8, words, 11, "middle", GREY))
            second += step
        self.put(f'<path d="M{LEFT} {top + AXIS:.1f}H{right:.1f}M{LEFT} {top + self.high:.1f}H{right:.1f}" '
                 f'stroke="{GREY}" stroke-width=".8"/>')

    def bar(self, left, right, y, words):
        title = f"<title>{escape(words)}</title>" if words else ""
        return (f'<rect x="{left:.1f}" y="{y - 4:.1f}" width="{max(2, right - left):.1f}" height="8" fill="{YELLOW}" '
                f'stroke="{INK}" stroke-width=".8">{title}</rect>')

    def draw(self, item):
        """Draws one item of the story."""
        if isinstance(item, story.Packet):
            self.packet(item)
        elif isinstance(item, story.Missing):
            self.missed(item)
        elif isinstance(item, story.Pli):
            self.at("pli", item.moment, self.pli, f"{item.moment / 1000:.3f} s: a keyframe is asked for (PLI)")
        elif isinstance(item, story.Nothing):
            self.mark(item.moment, "none")
        elif isinstance(item, story.Pulled):
            self.frame(item)

    def packet(self, item):
        if item.look in self.lanes:
            self.mark(item.moment, item.look)

    def mark(self, moment, look):
        """Counts a mark. Those of a band are drawn once its time is over."""
        if not self.shows(moment):
            return
        band, x = self.place(moment)
        if band != self.band:
            self.flush()
            self.band = band
        self.marks[look, round((x - LEFT) / GRAIN)] += 1

    def flush(self):
        top = self.top(self.band)
        for (look, grain), count in sorted(self.marks.items()):
            lane = self.none if look == "none" else self.lanes[look][0]
            self.put(shape(look, LEFT + grain * GRAIN, top + lane, count))
        self.marks.clear()

    def missed(self, item):
        lane = self.missing + MISSING_ROW * item.row + MISSING_ROW / 2
        words = item.in_words()
        for band, left, right in self.stretches(item.since, item.until):
            self.put(self.bar(left, right, self.top(band) + lane, words))
        if self.shows(item.since):
            band, x = self.place(item.since)
            y = self.top(band) + self.lanes["media"][0]
            self.put(f'<path d="M{x:.1f} {y:.1f}V{self.top(band) + lane:.1f}" stroke="{GREY}" stroke-width=".8" '
                     'stroke-dasharray="2 2"/>')
        for moment in item.asked:
            self.at("asked", moment, lane, words)
        for moment, how in item.ends:
            self.at(how, moment, lane, words)
        if self.shows(item.until):
            band, x = self.place(item.until)
            one = item.first == item.last
            name = str(item.first) if one else f"{item.first} and {item.last - item.first} more"
            if x + 7 + 6 * len(name) <= LEFT + PLOT:
                self.put(text(x + 7, self.top(band) + lane + 3.5, name, 9, fill="#444444"))

    def frame(self, item):
        before, self.last_frame = self.last_frame, item.moment
        if before is not None and item.moment - before >= STILL:
            self.still(before, item.moment)
        frame = item.frame
        kind = "key" if frame.key else "delta"
        self.at(kind, item.moment, self.pulled,
                f"{item.moment / 1000:.3f} s: {kind} frame, numbers {frame.first} to {frame.last}, "
                f"{frame.octets} octets, at {item.seconds:.3f} s of the video")

    def still(self, since, until):
        """Says that no frame was pulled for a while."""
        for band, left, right in self.stretches(since, until):
            y = self.top(band) + self.pulled
            self.put(f'<rect x="{left + 3:.1f}" y="{y - 6:.1f}" width="{max(0, right - left - 6):.1f}" height="16" '
                     f'fill="{PALE}" stroke="{GREY}" stroke-dasharray="3 2"/>')
            seconds = f"{(until - since) / 1000:.2f} s"
            for words in (f"no frame for {seconds}", seconds):
                if right - left - 10 > 5.5 * len(words):
                    self.put(text((left + right) / 2, y + 6, words, 10, "middle"))
                    break

    def close(self):
        self.flush()
        if self.last_frame is not None and self.end - self.last_frame >= STILL:
            self.still(self.last_frame, self.end)
        self.put("</svg>")
