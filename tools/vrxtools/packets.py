"""The UDP datagrams of a packet capture, in pcap or pcapng, one after the other.

The library dpkt reads the files and the headers of links, IP and UDP. Its own reader of pcapng knows one interface
only, so the blocks are walked here, and dpkt reads what is in them. No more than one packet is held.
"""
import ipaddress
import os
import struct
import sys
from collections import Counter, namedtuple

from vrxtools.told import Progress, Told

try:
    import dpkt
except ModuleNotFoundError:
    # Debian's package lies where only Debian's own Python looks. It is plain Python, so each Python 3 can use it
    sys.path.append("/usr/lib/python3/dist-packages")
    try:
        import dpkt
    except ModuleNotFoundError:
        dpkt = None

WITHOUT_LIBRARY = ("packet captures are read with the library dpkt, which isn't installed: "
                   "'apt-get install python3-dpkt', or 'python3 -m pip install dpkt'")

# no block of a capture is longer: what says so isn't one
MOST_BLOCK = 64 << 20
# the first four octets of a pcap file, in both byte orders, with microseconds and with nanoseconds
PCAP = tuple(bytes.fromhex(magic) for magic in ("a1b2c3d4", "d4c3b2a1", "a1b23c4d", "4d3cb2a1"))
PCAPNG = bytes.fromhex("0a0d0d0a")
SECTION_ENDS = {bytes.fromhex("4d3c2b1a"): "<", bytes.fromhex("1a2b3c4d"): ">"}
INTERFACE, OLD_PACKET, SIMPLE_PACKET, PACKET = 1, 2, 3, 6
RESOLUTION, OFFSET = 9, 14
MICROSECONDS = 1_000_000

# one UDP datagram: its moment in microseconds, who sent it to whom, and its octets
Datagram = namedtuple("Datagram", "moment source target octets")


class Watched:
    """A file that is read for dpkt: knows whether it ended in the middle of something, and tells the progress."""

    def __init__(self, path, file):
        self.path, self.file = path, file
        self.progress = Progress(path, os.fstat(file.fileno()).st_size)
        self.offset, self.ends, self.cut = 0, 0, False

    def read(self, count):
        if not 0 <= count <= MOST_BLOCK:
            raise Told(f"{self.path}: is damaged at octet {self.offset}: a block there has no sensible length")
        octets = self.file.read(count)
        self.offset += len(octets)
        if len(octets) < count:
            # to meet the end between two blocks, once, is how a whole file ends
            self.ends += 1
            self.cut = self.cut or len(octets) > 0 or self.ends > 1
        self.progress.at(self.offset)
        return octets


def refuse(path, head):
    """Says of a file that is no packet capture what it seems to be."""
    if not head:
        raise Told(f"{path}: is empty, and no packet capture")
    if head.startswith(b"vrx 1 "):
        raise Told(f"{path}: is a capture of this project already: './vrx replay < {path}' takes it")
    if head.startswith(b"\x1f\x8b"):
        raise Told(f"{path}: is compressed: unpack it with gunzip first")
    if all(octet in b"\t\n\r" or 32 <= octet < 127 for octet in head):
        raise Told(f"{path}: is text, and no packet capture (pcap or pcapng)")
    raise Told(f"{path}: is no packet capture (pcap or pcapng)")


class Capture:
    """A packet capture. `datagrams` reads it from the front; then `aside` counts what isn't a whole UDP datagram."""

    def __init__(self, path):
        if dpkt is None:
            raise Told(WITHOUT_LIBRARY)
        if os.path.isdir(path):
            raise Told(f"{path}: is a folder, and no packet capture")
        self.path, self.aside, self.cut = path, Counter(), False

    def datagrams(self):
        self.aside.clear()
        with open(self.path, "rb") as file:
            head = file.read(64)
            if head[:4] not in PCAP and head[:4] != PCAPNG:
                refuse(self.path, head)
            file.seek(0)
            watched = Watched(self.path, file)
            records = self.of_pcap(watched) if head[:4] in PCAP else self.of_pcapng(watched)
            for moment, link, octets in records:
                found = udp_of(link, octets)
                if isinstance(found, str):
                    self.aside[found] += 1
                else:
                    yield Datagram(moment, *found)
            self.cut = watched.cut

    def of_pcap(self, file):
        """Moment, link type and octets of each packet of a pcap file."""
        try:
            reader = dpkt.pcap.Reader(file)
        except (dpkt.UnpackError, ValueError):
            raise Told(f"{self.path}: is cut off in its header: there is no packet in it") from None
        link = reader.datalink() & 0xFFFF
        packets = iter(reader)
        while True:
            try:
                moment, octets = next(packets)
            except (StopIteration, dpkt.UnpackError):
                return
            if not file.cut:
                yield round(moment * MICROSECONDS), link, octets

    def of_pcapng(self, file):
        """Moment, link type and octets of each packet of a pcapng file, over all its sections and interfaces."""
        order, interfaces = None, []
        while True:
            head = file.read(8)
            if len(head) < 8:
                return
            if head[:4] == PCAPNG:
                order, interfaces = SECTION_ENDS.get(magic := file.read(4)), []
                if order is None:
                    raise Told(f"{self.path}: is damaged at octet {file.offset}: a section there has no byte order")
                file.read(struct.unpack_from(order + "I", head, 4)[0] - len(head) - len(magic))
                continue
            kind, length = struct.unpack(order + "II", head)
            block = head + file.read(length - len(head))
            if file.cut:
                return
            try:
                found = self.of_block(kind, block, order, interfaces)
            except (dpkt.UnpackError, struct.error, IndexError):
                raise Told(f"{self.path}: is damaged before octet {file.offset}: a block can't be read") from None
            if found is not None:
                yield found

    def of_block(self, kind, block, order, interfaces):
        """The packet of a block, or None. A block of an interface is kept for the packets that name it."""
        known = dpkt.pcapng
        if kind == INTERFACE:
            read = (known.InterfaceDescriptionBlockLE if order == "<" else known.InterfaceDescriptionBlock)(block)
            options = {option.code: option.data for option in read.opts}
            ticks = options.get(RESOLUTION, b"\6")[0]
            second = 2 ** (ticks & 0x7F) if ticks & 0x80 else 10 ** ticks
            since = struct.unpack(order + "q", options[OFFSET])[0] if OFFSET in options else 0
            interfaces.append((read.linktype, second, since * MICROSECONDS))
        elif kind in (PACKET, OLD_PACKET):
            names = ("EnhancedPacketBlock" if kind == PACKET else "PacketBlock") + ("LE" if order == "<" else "")
            read = getattr(known, names)(block)
            link, second, since = interfaces[read.iface_id]
            moment = (read.ts_high << 32 | read.ts_low) * MICROSECONDS // second
            return since + moment, link, read.pkt_data
        elif kind == SIMPLE_PACKET:
            self.aside["without a moment"] += 1
        return None


def ip_of(link, octets):
    """The IP packet in a packet of a link, or None."""
    if link == 1:
        return dpkt.ethernet.Ethernet(octets).data
    if link == 113:
        return dpkt.sll.SLL(octets).data
    if link == 276:
        return dpkt.sll2.SLL2(octets).data
    if link in (0, 108):
        return dpkt.loopback.Loopback(octets).data
    # raw IP: DLT_RAW of the BSDs, LINKTYPE_RAW, IPv4 and IPv6
    if link in (12, 14, 101, 228, 229) and octets:
        return dpkt.ip.IP(octets) if octets[0] >> 4 == 4 else dpkt.ip6.IP6(octets)
    return None


def udp_of(link, octets):
    """Sender, target and octets of the UDP datagram in a packet, or in words what the packet is instead."""
    if link not in (0, 1, 12, 14, 101, 108, 113, 228, 229, 276):
        return f"on a link of a kind that isn't read ({link})"
    try:
        ip = ip_of(link, octets)
    except Exception:  # whatever a damaged packet makes the library stumble over, it isn't UDP
        return "not UDP"
    if isinstance(ip, dpkt.ip.IP):
        in_parts = ip.mf or ip.offset
    elif isinstance(ip, dpkt.ip6.IP6):
        in_parts = 44 in ip.extension_hdrs
    else:
        return "not UDP"
    if in_parts:
        return "parts of IP packets, which aren't joined" if ip.p == 17 else "not UDP"
    udp = ip.data
    if not isinstance(udp, dpkt.udp.UDP):
        return "not UDP"
    content, length = bytes(udp.data), udp.ulen - 8
    if len(content) < length:
        return "snapped: the capture holds only their front"
    return (ip.src, udp.sport), (ip.dst, udp.dport), content[:length]


def address(end):
    """An end of a datagram in words, as 127.0.0.1:5004 or [::1]:5004."""
    host = ipaddress.ip_address(end[0])
    return f"{host}:{end[1]}" if host.version == 4 else f"[{host}]:{end[1]}"
