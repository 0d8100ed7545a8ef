"""tools/pcap2vrx: each form of packet capture gives the same capture, and what isn't one is told."""
import os
import random
import tempfile
import unittest

from tests import made
from tests.made import BEGIN, EXAMPLE, linked, pcap, pcapng, rtp, run, udp, vp8

# moment in microseconds from the first, and datagram: a keyframe in two packets, a gap, a delta frame, what filled it
SENT = ((0, rtp(1, vp8(), marker=False)), (1_500, rtp(2, vp8(start=False))), (66_000, rtp(4, vp8(key=False), 6000)),
        (66_999, rtp(5, vp8(key=False), 9000)), (99_000, rtp(3, vp8(key=False), 3000)))
# after a marker a pull; after number 3, which filled a gap, as many as markers came from it on; and at the end for all
MADE = """vrx 1 codec=vp8 ssrc=0000000a pt=96 from=0000cafe
d 0 {}
d 1 {}
p 1
t 20
t 40
t 60
d 66 {}
p 66
d 66 {}
p 66
t 80
d 99 {}
p 99
p 99
p 99
p 99
p 99
p 99
p 99
t 100
""".format(*(octets.hex() for _, octets in SENT))
# what is made of the first four
MADE_OF_FOUR = MADE[:MADE.index("t 80")] + "p 66\np 66\np 66\nt 80\n"


@made.with_dpkt
class FormsOfCaptures(unittest.TestCase):
    def setUp(self):
        self.folder = tempfile.TemporaryDirectory()
        self.path = os.path.join(self.folder.name, "call.pcap")
        self.addCleanup(self.folder.cleanup)

    def made_of(self, octets, *words):
        with open(self.path, "wb") as file:
            file.write(octets)
        return run("pcap2vrx", self.path, *words)

    def sent(self, link=1, version=4):
        return [(BEGIN + moment, linked(link, udp(octets, version))) for moment, octets in SENT]

    def test_each_form_gives_the_same(self):
        for link in (1, "vlan", 113, 276, 0, 108, 12, 101):
            for version in (4, 6):
                with self.subTest(link=link, version=version):
                    ended = self.made_of(pcap(self.sent(link, version), link))
                    self.assertEqual((ended.stdout, ended.stderr, ended.returncode), (MADE, "", 0))
        for order in "<>":
            for nanoseconds in (False, True):
                with self.subTest(order=order, nanoseconds=nanoseconds):
                    self.assertEqual(self.made_of(pcap(self.sent(), 1, order, nanoseconds)).stdout, MADE)
            for resolution in (None, 6, 9, 0x80 | 30):
                with self.subTest(order=order, resolution=resolution):
                    packets = [(*packet, 0) for packet in self.sent()]
                    self.assertEqual(self.made_of(pcapng(packets, ((1, resolution),), order)).stdout, MADE)

    def test_interfaces_of_several_links_and_two_sections(self):
        links = ((1, 9), (113, None))
        packets = [(moment, linked(links[place % 2][0], packet), place % 2)
                   for place, (moment, packet) in enumerate(self.sent(101))]
        self.assertEqual(self.made_of(pcapng(packets, links)).stdout, MADE)
        self.assertEqual(self.made_of(pcapng(packets[:2], links) + pcapng(packets[2:], links, ">")).stdout, MADE)

    def test_ticks_and_pulls_are_adjustable(self):
        lines = self.made_of(pcap(self.sent()), "--tick", "0", "--pulls", "2", "--catch-up", "0").stdout.split("\n")
        self.assertEqual([line for line in lines if line[:1] in ("t", "p")],
                         ["p 1"] * 2 + ["p 66"] * 4 + ["p 99"] * 2)

    def test_cut_off_and_snapped_are_told(self):
        whole = pcap(self.sent())
        ended = self.made_of(whole[:-1])
        self.assertIn("ends in the middle of a packet", ended.stderr)
        self.assertEqual(ended.stdout, MADE_OF_FOUR)
        snapped = self.sent()[:4] + [(BEGIN + 99_000, linked(1, udp(SENT[4][1], cut=3)))]
        ended = self.made_of(pcap(snapped))
        self.assertIn("1 packets left out: snapped", ended.stderr)
        self.assertEqual(ended.stdout, MADE_OF_FOUR)

    def test_a_clock_that_jumps_is_told(self):
        jumps = pcap(self.sent() + [(4_000_000_000_000_000, linked(1, udp(rtp(6, vp8()))))])
        ended = self.made_of(jumps, "--tick", "0")
        self.assertIn("more than thirty years", ended.stderr)
        self.assertEqual(ended.stdout, "".join(line for line in MADE.splitlines(True) if line[0] != "t"))
        # fifty thousand seconds of ticks are more than a capture may have
        ended = self.made_of(pcap(self.sent() + [(BEGIN + 50_000_000_000, linked(1, udp(rtp(6, vp8()))))]))
        self.assertIn("at most 1048576 events", ended.stderr)
        self.assertEqual(ended.stdout.count("\n"), 1 + 1_048_576)

    def test_what_is_no_capture_is_told_in_one_line(self):
        damaged = pcapng([(*packet, 0) for packet in self.sent()])
        for octets, words in ((b"", "is empty"), (b"hello, world\n", "is text"), (b"\x1f\x8b\x08", "is compressed"),
                              (MADE.encode(), "is a capture of this project already"),
                              (bytes(99), "is no packet capture"), (pcap([])[:20], "is cut off in its header"),
                              (pcap([]), "there is no RTP stream"),
                              (damaged[:32] + bytes(40), "is damaged"),
                              (pcap([(BEGIN, bytes(60))]), "there is no RTP stream")):
            with self.subTest(words=words):
                ended = self.made_of(octets)
                self.assertEqual((ended.stdout, ended.returncode, ended.stderr.count("\n")), ("", 1, 1))
                self.assertIn(words, ended.stderr)
        self.assertIn("No such file", run("pcap2vrx", self.path + ".none").stderr)

    def test_an_encrypted_call_is_told_in_one_line(self):
        noise = random.Random(1)
        packets = [(BEGIN, linked(1, udp(b"\x16\xfe\xfd" + bytes(30))))]
        packets += [(BEGIN + 9000 * n, linked(1, udp(rtp(n, noise.randbytes(200), 3000 * n)))) for n in range(60)]
        ended = self.made_of(pcap(packets))
        self.assertEqual((ended.stdout, ended.returncode, ended.stderr.count("\n")), ("", 1, 1))
        self.assertIn("the call is encrypted (SRTP)", ended.stderr)
        self.assertIn("SRTP", self.made_of(pcap(packets), "--list").stdout)

    def test_of_two_streams_one_must_be_named(self):
        other = [(moment + 5, linked(1, udp(rtp(n, vp8(), 3000 * n, ssrc=0xB0))))
                 for n, (moment, _) in enumerate(self.sent())]
        both = pcap(sorted(self.sent() + other))
        self.assertIn("2 streams of video: 0000000a, 000000b0", self.made_of(both).stderr)
        self.assertEqual(self.made_of(both, "--ssrc", "a").stdout, MADE)
        self.assertIn("no stream 0000000c", self.made_of(both, "--ssrc", "c").stderr)

    def test_red_fec_and_retransmissions_are_found(self):
        packets = []
        for n in range(40):
            moment, stamp = BEGIN + 33_000 * n, 3000 * n
            # numbers 3 n and 3 n + 1 are media in RED, 3 n + 2 is FEC over them, and each tenth comes by RTX only
            parts = [b"\x60" + vp8(n == 0), b"\x60" + vp8(start=False)]
            parts.append(b"\x65" + bytes(2) + (3 * n).to_bytes(2, "big") + bytes(6) + b"\0\x08\xc0\0" + bytes(8))
            for place, payload in enumerate(parts):
                number = 3 * n + place
                if number % 10 == 4:
                    again = rtp(900 + n, number.to_bytes(2, "big") + payload, stamp, 98, place == 1, 0xC)
                    packets.append((moment + 50_000, linked(1, udp(again))))
                else:
                    packets.append((moment + place, linked(1, udp(rtp(number, payload, stamp, 100, place == 1)))))
        call = pcap(sorted(packets))
        first = self.made_of(call).stdout.split("\n")[0]
        self.assertEqual(first, "vrx 1 codec=vp8 ssrc=0000000a pt=96 red=100 fec=101 rtxssrc=0000000c rtx=127 "
                                "rtxred=98 from=0000cafe")
        listed = self.made_of(call, "--list").stdout
        self.assertIn("RED of 96 (VP8) and FEC 101", listed)
        self.assertIn("RTX: retransmissions of 0000000a, type 100", listed)
        plain = self.made_of(call, "--codec", "h264", "--pt", "100", "--media-only", "--interval", "50").stdout
        self.assertEqual(plain.split("\n")[0], "vrx 1 codec=h264 ssrc=0000000a pt=100 from=0000cafe interval=50")


@made.with_dpkt
class RealCall(unittest.TestCase):
    def test_the_example_is_made_again(self):
        call = os.path.join(EXAMPLE, "call.pcap")
        for name, words in (("list", ["--list"]), ("capture", ["--media-only"])):
            with open(os.path.join(EXAMPLE, name), encoding="ascii") as file:
                self.assertEqual(run("pcap2vrx", call, *words).stdout, file.read())
