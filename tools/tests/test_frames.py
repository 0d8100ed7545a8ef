"""tools/frames: its files are what players read, and hold the frames of the transcript and no others."""
import glob
import os
import struct
import subprocess
import tempfile
import unittest

from tests import made
from tests.made import EXAMPLE, TOP, run, vp8

KEY, DELTA = vp8()[1:].hex(), vp8(key=False)[1:].hex()
# the second frame's timestamp has wrapped
TRANSCRIPT = f"""2 media 65537
3 frame 65537 65537 key 4294965796 {KEY}
4 media 65538
5 notready
6 frame 65538 65538 delta 1500 {DELTA}
"""
UNIT = "0000000165aabb"


def frames_of(path):
    """Moment and octets of each frame of an IVF file, and the fields of its header."""
    with open(path, "rb") as file:
        octets = file.read()
    head, at, frames = struct.unpack_from("<4sHH4sHHIIII", octets), 32, []
    while at < len(octets):
        size, moment = struct.unpack_from("<IQ", octets, at)
        frames.append((moment, octets[at + 12:at + 12 + size]))
        at += 12 + size
    return head, frames


class Frames(unittest.TestCase):
    def setUp(self):
        folder = tempfile.TemporaryDirectory()
        self.addCleanup(folder.cleanup)
        self.text, self.file = os.path.join(folder.name, "transcript"), os.path.join(folder.name, "file")

    def frames(self, text, *words):
        with open(self.text, "wb") as file:
            file.write(text if isinstance(text, bytes) else text.encode())
        return run("frames", self.text, *words)

    def test_ivf(self):
        self.assertEqual(self.frames(TRANSCRIPT, "--ivf", self.file).returncode, 0)
        head, frames = frames_of(self.file)
        self.assertEqual(head, (b"DKIF", 0, 32, b"VP80", 320, 180, 90000, 1, 6000, 0))
        self.assertEqual(frames, [(0, bytes.fromhex(KEY)), (3000, bytes.fromhex(DELTA))])

    def test_h264(self):
        text = f"2 frame 65537 65537 key 0 {UNIT}\n3 frame 65538 65538 delta 3000 {UNIT}\n"
        self.assertEqual(self.frames(text, "--h264", self.file).returncode, 0)
        with open(self.file, "rb") as file:
            self.assertEqual(file.read(), bytes.fromhex(UNIT * 2))

    def test_list(self):
        lines = self.frames(TRANSCRIPT, "--list").stdout.split("\n")
        self.assertEqual(lines[1:3], ["1 3 65537 65537 key 4294965796 0.000 30 320x180",
                                      "2 6 65538 65538 delta 1500 0.033 23 -"])

    def test_what_is_no_transcript_is_told_and_leaves_no_file(self):
        for text, words in (("", "is empty"), ("5 notready\n", "there is no frame"), ("hello\n", "line 1 is no line"),
                            (bytes([200, 10]), "isn't text"), (TRANSCRIPT + "7 fra", "line 6 is no line"),
                            (f"2 frame 65537 65537 key 0 {UNIT}\n", "isn't VP8: it begins as H.264 does"),
                            (f"2 frame 65537 65537 delta 0 {DELTA}\n", "the first frame is no keyframe")):
            with self.subTest(words=words):
                ended = self.frames(text, "--ivf", self.file)
                self.assertEqual((ended.returncode, ended.stderr.count("\n")), (1, 1))
                self.assertIn(words, ended.stderr)
                self.assertFalse(os.path.exists(self.file) or os.path.exists(self.file + ".part"))

    def test_the_frames_of_the_example_are_its_encoders(self):
        transcript = os.path.join(EXAMPLE, "transcript")
        self.assertEqual(run("frames", transcript, "--ivf", self.file).returncode, 0)
        _, out = frames_of(self.file)
        _, sent = frames_of(os.path.join(EXAMPLE, "sent.ivf"))
        left = iter([octets for _, octets in sent])
        self.assertTrue(all(octets in left for _, octets in out))
        with open(os.path.join(EXAMPLE, "frames"), encoding="ascii") as file:
            self.assertEqual(len(out), len(file.readlines()))

    def played(self):
        """How many frames FFmpeg finds in the file, which it must read and decode without a word."""
        counted = subprocess.run(
            ["ffprobe", "-v", "error", "-count_frames", "-of", "csv=p=0", "-show_entries", "stream=nb_read_frames",
             self.file], capture_output=True, text=True, check=False)
        decoded = subprocess.run(["ffmpeg", "-v", "error", "-i", self.file, "-f", "null", "-"],
                                 capture_output=True, text=True, check=False)
        self.assertEqual((counted.stderr, decoded.returncode, decoded.stderr), ("", 0, ""))
        return int(counted.stdout)

    @made.with_ffmpeg
    def test_players_read_the_examples(self):
        # the calls whose frames a real encoder made
        for listed in glob.glob(os.path.join(TOP, "examples", "*", "frames")):
            transcript = os.path.join(os.path.dirname(listed), "transcript")
            with open(os.path.join(os.path.dirname(listed), "capture"), encoding="ascii") as file:
                form = "--h264" if " codec=h264 " in file.readline() else "--ivf"
            if os.path.exists(transcript):
                with self.subTest(transcript=transcript), open(listed, encoding="ascii") as file:
                    self.assertEqual(run("frames", transcript, form, self.file).returncode, 0)
                    self.assertEqual(self.played(), len(file.readlines()))

    @made.with_ffmpeg
    def test_players_read_h264(self):
        made_so = subprocess.run(
            ["ffmpeg", "-v", "error", "-f", "lavfi", "-i", "testsrc=size=160x120", "-frames:v", "20", "-c:v", "libx264",
             "-bf", "0", "-bsf:v", "h264_metadata=aud=insert", "-f", "h264", "-"], capture_output=True, check=False)
        if made_so.returncode:
            self.skipTest("ffmpeg has no encoder of H.264 (libx264)")
        # each frame begins with an access unit delimiter
        begin = bytes.fromhex("0000000109")
        frames = [begin + rest for rest in made_so.stdout.split(begin)[1:]]
        text = "".join(f"{2 + n} frame {65537 + n} {65537 + n} {'delta' if n else 'key'} {3600 * n} {frame.hex()}\n"
                       for n, frame in enumerate(frames))
        self.assertEqual(self.frames(text, "--h264", self.file).returncode, 0)
        self.assertEqual(self.played(), 20)
