"""RTP packets, and what a payload shows of itself.

The readers take what the standards allow. The tests of the form `fits_..` ask more: what an honest sender's packets
look like, so that octets that mean something else, or are encrypted, rarely fit.
"""
import struct
from collections import namedtuple

SPACE, HALF = 0x10000, 0x8000
# the receiver's window: it keeps the packets of so many numbers
WINDOW = 2048
VIDEO_CLOCK = 90_000

Packet = namedtuple("Packet", "kind seq timestamp ssrc marker payload")


def read_rtp(octets):
    """The RTP packet that the octets are (RFC 3550 5.1), or None."""
    if len(octets) < 12 or octets[0] >> 6 != 2:
        return None
    at, end = 12 + 4 * (octets[0] & 0x0F), len(octets)
    if octets[0] & 0x10:
        if at + 4 > end:
            return None
        at += 4 + 4 * int.from_bytes(octets[at + 2:at + 4], "big")
    if octets[0] & 0x20:
        padding = octets[-1]
        if at >= end or not 1 <= padding <= end - at:
            return None
        end -= padding
    if at > end:
        return None
    seq, timestamp, ssrc = struct.unpack_from(">HII", octets, 2)
    return Packet(octets[1] & 0x7F, seq, timestamp, ssrc, octets[1] >= 0x80, octets[at:end])


def is_rtcp(octets):
    """Whether a datagram of a shared port is RTCP (RFC 5761 4)."""
    return len(octets) >= 2 and 192 <= octets[1] <= 223


def rtcp_sender(octets):
    """The SSRC of who sent an RTCP datagram, or None (RFC 3550 6.4)."""
    return int.from_bytes(octets[4:8], "big") if len(octets) >= 8 else None


def nacked(octets):
    """The wire numbers that a NACK packet asks for (RFC 4585 6.2.1)."""
    for at in range(12, len(octets) - 3, 4):
        first, others = struct.unpack_from(">HH", octets, at)
        yield first
        for bit in range(16):
            if others >> bit & 1:
                yield (first + bit + 1) % SPACE


def nearest(wire, newest):
    """The extended number of a wire number: the one nearest to the newest (RFC 3550 A.1)."""
    ahead = (wire - newest) % SPACE
    return newest + ahead if ahead < HALF else newest + ahead - SPACE


def vp8_body(payload):
    """Whether a VP8 payload begins a frame, and its body (RFC 7741 4.2); or None."""
    at = 1
    if not payload:
        return None
    if payload[0] & 0x80:
        if len(payload) < 2:
            return None
        flags, at = payload[1], 2
        if flags & 0x80:
            at += 2 if len(payload) > 2 and payload[2] & 0x80 else 1
        at += (flags >> 6 & 1) + (1 if flags & 0x30 else 0)
    return (payload[0] & 0x17 == 0x10, payload[at:]) if at < len(payload) else None


def vp8_size(body):
    """Width and height that a VP8 keyframe says (RFC 6386 9.1), or None where the octets begin no keyframe."""
    if len(body) < 10 or body[0] & 1 or body[3:6] != b"\x9d\x01\x2a":
        return None
    width, height = struct.unpack_from("<HH", body, 6)
    return width & 0x3FFF, height & 0x3FFF


def fits_vp8(payload, begins):
    """Whether a payload looks like an honest VP8 sender's. `begins`: whether a frame begins here, or None."""
    read = vp8_body(payload)
    if read is None or payload[0] & 0x48:
        return False
    start, body = read
    if begins is not None and start != begins:
        return False
    return not start or (body[0] & 1 == 1 or body[3:6] == b"\x9d\x01\x2a")


def fits_h264(payload):
    """Whether a payload looks like an honest H.264 sender's (RFC 6184 5.6 to 5.8)."""
    if not payload or payload[0] & 0x80:
        return False
    kind = payload[0] & 0x1F
    if kind == 28:
        return len(payload) > 2 and payload[1] & 0xC0 != 0xC0 and not payload[1] & 0x20 \
            and 1 <= payload[1] & 0x1F <= 12
    if kind != 24:
        return 1 <= kind <= 12 and len(payload) > 1
    at = 1
    while at + 3 <= len(payload) and payload[at + 2] & 0x80 == 0:
        at += 2 + int.from_bytes(payload[at:at + 2], "big")
    return at == len(payload) and at > 1


def fec_protects(payload, seq):
    """The wire numbers that a ULPFEC payload protects (RFC 5109 7.3, 7.4), or None where it isn't one.

    `seq` is the number of the FEC packet itself, and all that it protects comes before it.
    """
    if len(payload) < 14:
        return None
    base, long_mask, at, named = int.from_bytes(payload[2:4], "big"), payload[0] & 0x40, 10, None
    while at < len(payload):
        head = 8 if long_mask else 4
        if at + head > len(payload):
            return None
        mask = int.from_bytes(payload[at + 2:at + head], "big")
        bits = 48 if long_mask else 16
        if named is None:
            named = [(base + i) % SPACE for i in range(bits) if mask >> (bits - 1 - i) & 1]
        at += head + int.from_bytes(payload[at:at + 2], "big")
    if at != len(payload) or not named or not all(0 < (seq - n) % SPACE <= WINDOW for n in named):
        return None
    return named
