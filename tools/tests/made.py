"""What the tests make: RTP packets, and packet captures of each form, by the standard library only."""
import os
import shutil
import struct
import subprocess
import sys
import unittest

TOP = os.path.normpath(os.path.join(os.path.dirname(os.path.abspath(__file__)), "..", ".."))
EXAMPLE = os.path.join(TOP, "examples", "from_a_pcap")
SSRC, BEGIN = 0x0000000A, 1_700_000_000_000_000
HAS_LIBRARY = subprocess.run(
    [sys.executable, "-c", "from vrxtools import packets; raise SystemExit(packets.dpkt is None)"],
    cwd=os.path.join(TOP, "tools"), check=False).returncode == 0

with_dpkt = unittest.skipUnless(HAS_LIBRARY, "the library dpkt isn't installed (apt-get install python3-dpkt)")
with_ffmpeg = unittest.skipUnless(shutil.which("ffmpeg") and shutil.which("ffprobe"),
                                  "ffmpeg and ffprobe aren't installed (apt-get install ffmpeg)")


def run(tool, *words, stdin=None):
    """A run of a tool: its status, and its texts."""
    return subprocess.run([sys.executable, os.path.join(TOP, "tools", tool), *words], input=stdin,
                          capture_output=True, text=True, check=False)


def rtp(seq, payload, timestamp=0, kind=96, marker=True, ssrc=SSRC):
    return struct.pack(">BBHII", 0x80, kind | (0x80 if marker else 0), seq % 65536, timestamp, ssrc) + payload


def vp8(key=True, start=True, octets=20):
    """A VP8 payload of a keyframe of 320 x 180 or of a delta frame, or what goes on with one."""
    if not start:
        return b"\0" + bytes(octets)
    return b"\x10" + (b"\x10\2\0\x9d\1\x2a\x40\1\xb4\0" if key else b"\x31\2\0") + bytes(octets)


def udp(octets, version=4, source=4000, target=5000, cut=0):
    """An IP packet with a UDP datagram; `cut` octets at its end are missing in the capture."""
    content = struct.pack(">HHHH", source, target, 8 + len(octets), 0) + octets
    if version == 4:
        head = struct.pack(">BBHHHBBH4s4s", 0x45, 0, 20 + len(content), 7, 0, 64, 17, 0, b"\x0a\0\0\1", b"\x0a\0\0\2")
    else:
        head = struct.pack(">IHBB16s16s", 6 << 28, len(content), 17, 64, bytes(15) + b"\1", bytes(15) + b"\2")
    return (head + content)[:len(head) + len(content) - cut]


def linked(link, packet):
    """An IP packet on a link."""
    kind = 0x0800 if packet[0] >> 4 == 4 else 0x86DD
    if link == 1:
        return bytes(12) + struct.pack(">H", kind) + packet
    if link == "vlan":
        return bytes(12) + struct.pack(">HHH", 0x8100, 5, kind) + packet
    if link == 113:
        return struct.pack(">HHH8sH", 0, 1, 6, bytes(8), kind) + packet
    if link == 276:
        return struct.pack(">HHIHBB8s", kind, 0, 1, 1, 0, 6, bytes(8)) + packet
    if link == 0:
        return struct.pack("<I", 2 if kind == 0x0800 else 30) + packet
    if link == 108:
        return struct.pack(">I", 2 if kind == 0x0800 else 24) + packet
    return packet


def pcap(packets, link=1, order="<", nanoseconds=False):
    """A pcap file of packets, each (microseconds, octets)."""
    number = 1 if link == "vlan" else link
    out = [struct.pack(order + "IHHiIII", 0xA1B23C4D if nanoseconds else 0xA1B2C3D4, 2, 4, 0, 0, 65535, number)]
    for moment, octets in packets:
        part = moment % 1_000_000 * (1000 if nanoseconds else 1)
        out.append(struct.pack(order + "IIII", moment // 1_000_000, part, len(octets), len(octets)) + octets)
    return b"".join(out)


def block(order, kind, content):
    content += bytes(-len(content) % 4)
    return struct.pack(order + "II", kind, 12 + len(content)) + content + struct.pack(order + "I", 12 + len(content))


def interface(order, link, resolution=None):
    """A block of an interface, whose moments are in 10 to the minus `resolution`, or 2 to it from 128 on."""
    options = b"" if resolution is None else struct.pack(order + "HHB3xHH", 9, 1, resolution, 0, 0)
    return block(order, 1, struct.pack(order + "HHI", link, 0, 65535) + options)


def pcapng(packets, interfaces=((1, None),), order="<"):
    """A pcapng file of packets, each (microseconds, octets, place of its interface)."""
    out = [block(order, 0x0A0D0D0A, struct.pack(order + "IHHq", 0x1A2B3C4D, 1, 0, -1))]
    out += [interface(order, link, resolution) for link, resolution in interfaces]
    for moment, octets, place in packets:
        resolution = interfaces[place][1]
        if resolution is None:
            ticks = moment
        elif resolution & 0x80:
            ticks = -(-moment * 2 ** (resolution & 0x7F) // 1_000_000)
        else:
            ticks = moment * 10 ** resolution // 1_000_000
        out.append(block(order, 6, struct.pack(order + "IIIII", place, ticks >> 32, ticks & 0xFFFFFFFF,
                                               len(octets), len(octets)) + octets))
    return b"".join(out)
