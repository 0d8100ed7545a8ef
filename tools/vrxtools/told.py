"""How the tools speak: words and help, errors in one line, progress on standard error, files that are whole or not
there."""
import argparse
import contextlib
import os
import stat
import sys
import time

FAILED, USAGE, STOPPED = 1, 2, 130
# progress is told after so many seconds, and then each time that so many more have passed
PATIENCE, AGAIN = 3, 2


class Told(Exception):
    """A failure whose text is for a person: one line that says what is wrong, and with which file."""


def note(text):
    """Says something on standard error, under the tool's name."""
    print(f"{os.path.basename(sys.argv[0])}: {text}", file=sys.stderr)


def words(description, example):
    """The reader of a tool's words, whose help ends with an example."""
    return argparse.ArgumentParser(
        description=description, epilog="example:\n" + example, allow_abbrev=False,
        formatter_class=argparse.RawDescriptionHelpFormatter)


def run(main):
    """Runs a tool, and ends with its status: 0 done, 1 failed, 2 bad words, 130 stopped by the keyboard."""
    try:
        main()
        sys.stdout.flush()
    except Told as failure:
        note(str(failure))
        sys.exit(FAILED)
    except BrokenPipeError:
        # whoever read the text has enough of it
        os.dup2(os.open(os.devnull, os.O_WRONLY), sys.stdout.fileno())
        sys.exit(FAILED)
    except OSError as failure:
        note(f"{failure.filename}: {failure.strerror}" if failure.filename else str(failure.strerror or failure))
        sys.exit(FAILED)
    except KeyboardInterrupt:
        sys.exit(STOPPED)


class Progress:
    """Tells on standard error how much of a file was read, where that takes more than a few seconds."""

    def __init__(self, what, size):
        self.what, self.size = what, size
        self.next = time.monotonic() + PATIENCE

    def at(self, offset):
        now = time.monotonic()
        if now >= self.next:
            self.next = now + AGAIN
            share = f"{min(100, 100 * offset // self.size)} %" if self.size else f"{offset} octets"
            note(f"{self.what}: {share}")


@contextlib.contextmanager
def whole_file(path):
    """A file for octets that is there as a whole, or not at all: it gets its name after its last octet."""
    if os.path.exists(path) and not stat.S_ISREG(os.stat(path).st_mode):
        with open(path, "wb") as file:
            yield file
        return
    part = f"{path}.part"
    try:
        with open(part, "wb") as file:
            yield file
        os.replace(part, path)
    except BaseException:
        with contextlib.suppress(FileNotFoundError):
            os.unlink(part)
        raise
