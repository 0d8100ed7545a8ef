"""The RTP streams of a packet capture: what each is taken for, and what of it was lost.

What is kept of a stream doesn't grow with its packets: counts, and a window of the numbers that came last.
"""
from collections import Counter

from vrxtools import rtp
from vrxtools.rtp import SPACE, WINDOW

# so many streams are looked at; what comes after them is only counted
MOST_STREAMS = 256
# so great a part of the packets must fit what a stream is taken for
ENOUGH = 0.8
# a retransmission's timestamp is at most so far from its stream's newest, and it may overtake so many packets
RTX_REACH, OVERTAKES = 20 * rtp.VIDEO_CLOCK, 64
# the first octet of DTLS, by which keys are agreed on over the port of a call (RFC 7983)
DTLS = range(20, 64)


class Kind:
    """What the payloads of one payload type of a stream look like."""

    def __init__(self):
        self.packets = self.payloads = 0
        # how many look like VP8, H.264 and FEC, as they stand; and after an octet of RED, by its block's type
        self.fits = Counter()
        self.blocks = {}
        # of a retransmission: which streams' numbers they name, and the octet after the number
        self.names, self.thirds = Counter(), Counter()

    def enough(self, count, of=None):
        of = self.payloads if of is None else of
        return of > 0 and count >= ENOUGH * of


def looks(fits, payload, begins, seq):
    """Counts what a payload looks like."""
    fits["all"] += 1
    fits["vp8"] += rtp.fits_vp8(payload, begins)
    fits["h264"] += rtp.fits_h264(payload)
    fits["fec"] += rtp.fec_protects(payload, seq) is not None


class Stream:
    """One SSRC: its packets by payload type, its numbers, and its ends."""

    def __init__(self, ssrc, packet, datagram):
        self.ssrc, self.kinds, self.ends = ssrc, {}, Counter()
        self.first = self.last = datagram.moment
        self.packets = self.repeats = self.came = 0
        # the extended numbers, and of the last WINDOW of them whether they came, and how the packet ended
        self.least = self.newest = packet.seq + SPACE
        self.numbers = [None] * WINDOW
        self.newest_timestamp = packet.timestamp

    def take(self, packet, datagram, streams):
        """Counts a packet."""
        self.packets += 1
        self.last = max(self.last, datagram.moment)
        if len(self.ends) < 16:
            self.ends[datagram.source, datagram.target] += 1
        number = rtp.nearest(packet.seq, self.newest)
        before = self.numbers[(number - 1) % WINDOW]
        begins = None
        if before is not None and before[0] == number - 1:
            begins = before[1] or before[2] != packet.timestamp
        if number > self.newest:
            self.newest, self.newest_timestamp = number, packet.timestamp
        old = self.numbers[number % WINDOW]
        if old is not None and old[0] == number or number <= self.newest - WINDOW:
            self.repeats += 1
        else:
            self.came += 1
            self.least = min(self.least, number)
            self.numbers[number % WINDOW] = (number, packet.marker, packet.timestamp)
        self.look(packet, begins, streams)

    def look(self, packet, begins, streams):
        """What the payload shows of itself."""
        kind = self.kinds.setdefault(packet.kind, Kind())
        kind.packets += 1
        payload = packet.payload
        if not payload:
            return
        kind.payloads += 1
        looks(kind.fits, payload, begins, packet.seq)
        if payload[0] < 0x80 and len(payload) > 1:
            looks(kind.blocks.setdefault(payload[0], Counter()), payload[1:], begins, packet.seq)
        if len(payload) > 2:
            named = int.from_bytes(payload[:2], "big")
            for other in streams:
                if other is not self and other.may_have_sent(named, packet.timestamp):
                    kind.names[other.ssrc] += 1
            kind.thirds[payload[2]] += 1

    def may_have_sent(self, wire, timestamp):
        """Whether a packet with this number and timestamp may be one that this stream sent of late."""
        number = rtp.nearest(wire, self.newest)
        if not self.newest - WINDOW < number <= self.newest + OVERTAKES:
            return False
        sent = self.numbers[number % WINDOW]
        if sent is not None and sent[0] == number:
            return sent[2] == timestamp
        return (timestamp - self.newest_timestamp + RTX_REACH) % 2**32 < 2 * RTX_REACH

    @property
    def lost(self):
        return self.newest - self.least + 1 - self.came

    @property
    def way(self):
        return self.ends.most_common(1)[0][0]


def codec_of(fits, of):
    """The codec that payloads look like, or None."""
    best = max(("vp8", "h264"), key=lambda codec: fits[codec])
    return best if of and fits[best] >= ENOUGH * of else None


class Call:
    """The streams of a packet capture."""

    def __init__(self, capture):
        self.streams, self.begin, self.others, self.dtls = {}, None, 0, set()
        for datagram in capture.datagrams():
            if self.begin is None:
                self.begin = datagram.moment
            octets = datagram.octets
            if octets and octets[0] in DTLS and len(self.dtls) < MOST_STREAMS:
                self.dtls.add(frozenset((datagram.source, datagram.target)))
            packet = None if rtp.is_rtcp(octets) else rtp.read_rtp(octets)
            if packet is None:
                continue
            stream = self.streams.get(packet.ssrc)
            if stream is None:
                if len(self.streams) == MOST_STREAMS and not self.forget():
                    self.others += 1
                    continue
                stream = self.streams[packet.ssrc] = Stream(packet.ssrc, packet, datagram)
            stream.take(packet, datagram, self.streams.values())
        # a single packet is no stream: most often it is something else whose first octet looks like RTP's
        for ssrc in [ssrc for ssrc, stream in self.streams.items() if stream.packets == 1]:
            self.others += 1
            del self.streams[ssrc]
        self.taken = {ssrc: self.taken_for(stream) for ssrc, stream in self.streams.items()}
        self.retransmissions()

    def forget(self):
        """Makes room for one more stream, by the loss of one that has a single packet."""
        for ssrc, stream in self.streams.items():
            if stream.packets == 1:
                del self.streams[ssrc]
                self.others += 1
                return True
        return False

    def taken_for(self, stream):
        """What each payload type of a stream is taken for: type -> (word, what belongs to it)."""
        found = {}
        for number, kind in stream.kinds.items():
            codec = codec_of(kind.fits, kind.payloads)
            main, fec = self.red_blocks(kind)
            if kind.payloads == 0:
                found[number] = ("empty", None)
            elif main is not None or fec is not None:
                codec = codec_of(kind.blocks[main], kind.blocks[main]["all"]) if main is not None else None
                found[number] = ("red", (main, fec, codec))
            elif codec is not None:
                found[number] = ("media", codec)
            elif kind.enough(kind.fits["fec"]):
                found[number] = ("fec", None)
            else:
                found[number] = ("unknown", None)
        return found

    @staticmethod
    def red_blocks(kind):
        """The block types of media and of FEC, where the payloads are RED of one block (RFC 2198 3)."""
        main = fec = None
        fit = 0
        for block, fits in sorted(kind.blocks.items(), key=lambda found: -found[1]["all"]):
            if fits["all"] < max(1, kind.payloads // 100):
                continue
            if main is None and codec_of(fits, fits["all"]):
                main, fit = block, fit + fits["all"]
            elif fec is None and fits["fec"] >= ENOUGH * fits["all"]:
                fec, fit = block, fit + fits["all"]
        # a packet of media whose first octet varies is no RED
        return (main, fec) if kind.enough(fit) and len(kind.blocks) <= 4 else (None, None)

    def retransmissions(self):
        """Finds the streams whose payloads name another stream's numbers (RFC 4588 4)."""
        for ssrc, stream in self.streams.items():
            for number, kind in stream.kinds.items():
                for other, count in kind.names.most_common(1):
                    media = self.media(other) if other in self.taken else None
                    if media is None or not kind.enough(count) or stream.packets >= self.streams[other].packets:
                        continue
                    # after the number stands what was sent first: of RED that begins with a block's type
                    blocks = kind.thirds[media["pt"]] + kind.thirds[media["fec"]]
                    is_red = media["red"] is not None and kind.enough(blocks, kind.thirds.total())
                    self.taken[ssrc][number] = ("rtx", (other, media["red"] if is_red else media["pt"]))

    def media(self, ssrc):
        """Codec and payload types of a stream of media, or None: codec, pt, red, fec."""
        found = {"codec": None, "pt": None, "red": None, "fec": None}
        for number, (word, more) in sorted(self.taken[ssrc].items(),
                                           key=lambda kind: -self.streams[ssrc].kinds[kind[0]].packets):
            if word == "media" and found["pt"] in (None, number):
                found.update(pt=number, codec=more)
            elif word == "red" and found["red"] is None:
                main, fec, codec = more
                found.update(red=number, fec=fec)
                if main is not None and found["pt"] in (None, main):
                    found.update(pt=main, codec=codec)
        return found if found["pt"] is not None else None

    def rtx_of(self, ssrc):
        """The stream of retransmissions of a stream of media: SSRC, type of media and type of RED, or Nones."""
        red = self.media(ssrc)["red"]
        for other, kinds in self.taken.items():
            types = {of: number for number, (word, more) in kinds.items() if word == "rtx" and more[0] == ssrc
                     for of in [more[1]]}
            if types:
                return other, types.get(self.media(ssrc)["pt"]), types.get(red) if red is not None else None
        return None, None, None

    def is_encrypted(self, stream):
        """Whether keys were agreed on (DTLS) between a stream's ends, as a call with SRTP does."""
        return frozenset(stream.way) in self.dtls

    def sentence(self, ssrc, number):
        """In words what a payload type of a stream is taken for."""
        word, more = self.taken[ssrc][number]
        if word == "media":
            return f"media: {'VP8' if more == 'vp8' else 'H.264'}"
        if word == "red":
            main, fec, codec = more
            blocks = ([] if main is None else [f"{main} ({'VP8' if codec == 'vp8' else 'H.264'})"])
            return "RED of " + " and ".join(blocks + ([] if fec is None else [f"FEC {fec}"]))
        if word == "rtx":
            return f"RTX: retransmissions of {more[0]:08x}, type {more[1]}"
        if word == "fec":
            return "FEC"
        if word == "empty":
            return "empty packets"
        if self.is_encrypted(self.streams[ssrc]):
            return "SRTP: keys were agreed on by DTLS, and no payload reads as a codec's"
        return "unknown: no payload reads as VP8 or H.264 (SRTP, sound, or another codec)"
