"""Captures and transcripts as docs/FORMATS.md has them, read line by line."""
import os
import re
from collections import namedtuple

from vrxtools.told import Progress, Told

# a line of a capture has at most so many octets, a capture so many events, and a moment so many milliseconds
LONGEST_LINE, MOST_EVENTS, MOST_MOMENT = 20_000, 1_048_576, 10**12 - 1
# the receiver asks again after so many milliseconds, where the settings say nothing else
USUAL_INTERVAL = 100

SETTINGS = re.compile(
    r"vrx 1 codec=(?P<codec>vp8|h264) ssrc=(?P<ssrc>[0-9a-f]{8}) pt=(?P<pt>\d{1,5})"
    r"( red=(?P<red>\d{1,5})( fec=(?P<fec>\d{1,5}))?)?"
    r"( rtxssrc=(?P<rtxssrc>[0-9a-f]{8}) rtx=(?P<rtx>\d{1,5})( rtxred=(?P<rtxred>\d{1,5}))?)?"
    r" from=(?P<own>[0-9a-f]{8})( interval=(?P<interval>\d{1,5}))?")
EVENT = re.compile(r"(?:(d) (0|[1-9]\d{0,11}) ((?:[0-9a-fA-F]{2})+)|([tp]) (0|[1-9]\d{0,11}))")
TRANSCRIPT = re.compile(
    r"(?P<line>[1-9]\d*) (?:(?P<taken>media|fec|empty|repaired) (?P<number>\d+)|(?P<plain>rtcp|tick|notready)"
    r"|(?P<drop>drop) (?P<reason>[A-Za-z]+(?: \d+)?)|(?P<feedback>nack|pli) (?P<octets>(?:[0-9a-f]{2})+)"
    r"|(?P<frame>frame) (?P<first>\d+) (?P<last>\d+) (?P<kind>key|delta) (?P<timestamp>\d+) "
    r"(?P<body>(?:[0-9a-f]{2})*))"
    r"|error line (?P<bad>\d+) (?P<why>[a-z]+)")

Settings = namedtuple("Settings", "codec ssrc pt red fec rtxssrc rtx rtxred own interval")
Event = namedtuple("Event", "line kind moment octets")
Frame = namedtuple("Frame", "line first last key timestamp octets")
# what a transcript says of the event of one line: each answer is (word, value)
Reply = namedtuple("Reply", "line answers")


def lines_of(path, told, longest=None):
    """The lines of a text file with their numbers. A file that isn't text isn't what `told` names."""
    if os.path.isdir(path):
        raise Told(f"{path}: is a folder, and not a {told}")
    with open(path, "rb") as file:
        progress = Progress(path, os.fstat(file.fileno()).st_size)
        offset = 0
        for number, line in enumerate(iter(lambda: file.readline(longest or -1), b""), 1):
            offset += len(line)
            progress.at(offset)
            if longest and len(line) == longest and line[-1:] != b"\n":
                raise Told(f"{path}: line {number} is longer than a line of a {told} may be")
            try:
                yield number, line.rstrip(b"\n").decode("ascii")
            except UnicodeDecodeError:
                raise Told(f"{path}: line {number} isn't text, so this isn't a {told}") from None
    if offset == 0:
        raise Told(f"{path}: is empty, and not a {told}")


def settings_line(settings):
    """The first line of a capture with these settings."""
    line = f"vrx 1 codec={settings.codec} ssrc={settings.ssrc:08x} pt={settings.pt}"
    if settings.red is not None:
        line += f" red={settings.red}"
        if settings.fec is not None:
            line += f" fec={settings.fec}"
    if settings.rtxssrc is not None:
        line += f" rtxssrc={settings.rtxssrc:08x} rtx={settings.rtx}"
        if settings.rtxred is not None:
            line += f" rtxred={settings.rtxred}"
    line += f" from={settings.own:08x}"
    return line if settings.interval is None else f"{line} interval={settings.interval}"


def read_settings(path, line):
    """The settings that the first line of a capture tells."""
    match = SETTINGS.fullmatch(line)
    if match is None:
        raise Told(f"{path}: isn't a capture of this project: its first line is no settings line, as "
                   "'vrx 1 codec=vp8 ssrc=0000000a pt=96 from=0000000b'. tools/pcap2vrx makes captures")
    found = {name: None if text is None else int(text, 16 if name in ("ssrc", "rtxssrc", "own") else 10)
             for name, text in match.groupdict().items() if name != "codec"}
    return Settings(codec=match["codec"], **found)


def events_of(path):
    """The settings of a capture, and then its events."""
    at_first = True
    for number, line in lines_of(path, "capture of this project", LONGEST_LINE + 1):
        if at_first:
            at_first = False
            yield read_settings(path, line)
            continue
        if not line or line[0] == "#":
            continue
        match = EVENT.fullmatch(line)
        if match is None:
            raise Told(f"{path}: line {number} is no event of a capture: 'd MOMENT HEX', 't MOMENT' or 'p MOMENT'")
        if match[1]:
            yield Event(number, "d", int(match[2]), bytes.fromhex(match[3]))
        else:
            yield Event(number, match[4], int(match[5]), None)


def answer_of(match, whole):
    """A line of a transcript as (word, value). The octets of a frame are read only if the caller wants them whole."""
    if match["taken"]:
        return match["taken"], int(match["number"])
    if match["plain"]:
        return match["plain"], None
    if match["drop"]:
        return "drop", match["reason"]
    if match["feedback"]:
        return match["feedback"], bytes.fromhex(match["octets"])
    octets = bytes.fromhex(match["body"]) if whole else len(match["body"]) // 2
    return "frame", Frame(int(match["line"]), int(match["first"]), int(match["last"]), match["kind"] == "key",
                          int(match["timestamp"]), octets)


def replies_of(path, whole=False):
    """What a transcript says, one reply for each event, in order. The last may be ('error', reason) of a bad line."""
    reply = None
    for number, line in lines_of(path, "transcript"):
        match = TRANSCRIPT.fullmatch(line)
        if match is None:
            raise Told(f"{path}: line {number} is no line of a transcript, as './vrx replay' prints them")
        if match["bad"]:
            at, answer = int(match["bad"]), ("error", match["why"])
        else:
            at, answer = int(match["line"]), answer_of(match, whole)
        if reply is not None and reply.line == at:
            reply.answers.append(answer)
            continue
        if reply is not None:
            yield reply
        reply = Reply(at, [answer])
    if reply is not None:
        yield reply
