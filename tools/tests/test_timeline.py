"""tools/timeline: the story of a lost packet, on captures and transcripts worked by hand; its file is SVG."""
import os
import tempfile
import unittest
import xml.etree.ElementTree as xml

from tests.made import EXAMPLE, TOP, run

HEAD = "vrx 1 codec=vp8 ssrc=0000000a pt=96 red=100 fec=101 rtxssrc=0000000c rtx=97 rtxred=98 from=0000000b\n"
MEDIA, RTX = "80600001000000000000000a1000aa", "80610001000000000000000c000200bb"
# numbers 2, 3, 4 and 7 are missing. 2 comes by RTX, 3 by itself, 4 is repaired, and 7 is still missing at the end
CALL = HEAD + f"""d 0 {MEDIA}
d 10 {MEDIA}
d 20 {MEDIA}
t 110
d 120 {RTX}
d 130 {MEDIA}
d 140 {MEDIA}
p 150
p 160
d 170 {MEDIA}
"""
TOLD = """2 media 65537
3 fec 65541
3 nack 81cd00030000000b0000000a00020003
4 drop Repeat
5 tick
5 nack 81cd00030000000b0000000a00020003
6 media 65538
7 media 65539
8 fec 65542
8 repaired 65540
9 frame 65537 65540 key 0 00aabb
10 notready
11 media 65544
11 pli 81ce00020000000b0000000a
"""
STORIES = (
    "number 65538: missing since 0.010 s; asked for at: 0.010, 0.110; 0.120 s: it came as a retransmission",
    "number 65539: missing since 0.010 s; asked for at: 0.010, 0.110; 0.130 s: it came by itself",
    "number 65540: missing since 0.010 s; asked for at: 0.010, 0.110; 0.140 s: it was repaired by FEC",
    "number 65543: missing since 0.170 s; asked for at: never; 0.170 s: it was still missing at the end",
    "0.150 s: key frame, numbers 65537 to 65540, 3 octets, at 0.000 s of the video",
    "0.170 s: a keyframe is asked for (PLI)",
)
# ten requests, and an interval of 100 ms after the last one the number is given up
ASKED = HEAD + f"d 0 {MEDIA}\nd 0 {MEDIA}\n" + "".join(f"t {100 * n}\n" for n in range(1, 11))
REQUESTS = "2 media 65537\n3 media 65539\n3 nack 81cd00030000000b0000000a00020000\n" + "".join(
    f"{3 + n} tick\n{3 + n} nack 81cd00030000000b0000000a00020000\n" for n in range(1, 10)) + "13 tick\n"


class Timeline(unittest.TestCase):
    def setUp(self):
        self.folder = tempfile.TemporaryDirectory()
        self.addCleanup(self.folder.cleanup)
        self.svg = os.path.join(self.folder.name, "svg")

    def drawn(self, call, told, *words):
        paths = []
        for name, text in (("call", call), ("told", told)):
            paths.append(os.path.join(self.folder.name, name))
            with open(paths[-1], "w", encoding="ascii") as file:
                file.write(text)
        return run("timeline", *paths, "--svg", self.svg, *words)

    def words(self):
        return [piece.text for piece in xml.parse(self.svg).iter() if piece.text and piece.text.strip()]

    def test_each_ending_of_a_missing_number(self):
        ended = self.drawn(CALL, TOLD)
        self.assertEqual((ended.stderr, ended.returncode), ("", 0))
        words = self.words()
        for story in STORIES:
            self.assertIn(story, words)
        self.assertIn("3 packets of media, 1 retransmission, 2 FEC, 1 refused (1 Repeat). 2 NACKs, 1 PLI.", words)
        self.assertIn("4 numbers missing: 1 came late, 1 came by RTX, 1 repaired by FEC, 1 missing at the end. "
                      "1 frame pulled, 1 of them key; 1 pull found none.", words)

    def test_given_up_and_not_needed(self):
        self.assertEqual(self.drawn(ASKED, REQUESTS).returncode, 0)
        self.assertTrue(any(word.endswith("1.000 s: it was given up") for word in self.words()))
        self.assertEqual(self.drawn(ASKED + "p 1001\n", REQUESTS[:-8] + "13 tick\n14 frame 65539 65539 key 0 00\n",
                                    "--row", "0.3").returncode, 0)
        jump = HEAD + f"d 0 {MEDIA}\nd 0 {MEDIA}\nd 9 {MEDIA}\np 10\n"
        self.drawn(jump, "2 media 65537\n3 media 65637\n4 media 68000\n5 frame 68000 68000 key 0 00\n")
        words = self.words()
        self.assertIn("numbers 65538 to 65636: missing since 0.000 s; asked for at: never; 0.009 s: it was given up",
                      words)
        self.assertIn("numbers 65953 to 67999: missing since 0.009 s; asked for at: never; 0.010 s: a frame beyond "
                      "it was pulled, so it wasn't needed any more", words)

    def test_a_part_of_a_call_and_the_rows(self):
        call = HEAD + "".join(f"p {n}\n" for n in range(0, 60_000, 500))
        told = "".join(f"{n + 2} notready\n" for n in range(120))
        for words, rows in (((), 6), (("--row", "30"), 2), (("--since", "20", "--until", "25"), 1)):
            self.assertEqual(self.drawn(call, told, *words).returncode, 0)
            self.assertEqual(self.words().count("found none"), rows)

    def test_what_does_not_fit_is_told(self):
        for call, told, status, words in (
                (CALL, TOLD.replace("7 media", "8 media", 1), 1, "they aren't of the same call"),
                (CALL, "hello\n", 1, "line 1 is no line of a transcript"), ("hello\n", TOLD, 1, "no settings line"),
                (HEAD + "x 1\n", TOLD, 1, "line 2 is no event"),
                (CALL, TOLD[:14] + "error line 3 hex\n", 0, "ended at line 3"),
                (CALL, TOLD[:14], 0, "the transcript ends before line 3"), ("", TOLD, 1, "is empty")):
            with self.subTest(words=words):
                ended = self.drawn(call, told)
                self.assertEqual((ended.returncode, ended.stderr.count("\n")), (status, 1))
                self.assertIn(words, ended.stderr)

    def test_pictures_of_examples_are_svg(self):
        for capture, transcript in ((os.path.join(EXAMPLE, "capture"), os.path.join(EXAMPLE, "transcript")),
                                    *((os.path.join(TOP, "examples", name, "capture"),
                                       os.path.join(TOP, "examples", name, "transcript"))
                                      for name in ("long_call", "hostile_packets", "real_call"))):
            self.assertEqual(run("timeline", capture, transcript, "--svg", self.svg).returncode, 0)
            self.assertEqual(xml.parse(self.svg).getroot().tag, "{http://www.w3.org/2000/svg}svg")
