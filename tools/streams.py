"""What the scripts read and write, where a stream may be closed, full or cut off."""
import contextlib
import errno
import os
import re
import sys

# how much of a text that somebody else wrote is shown; the line of any request is shorter
MOST_BYTES = 800


class Failed(Exception):
    """A script ends with a status, and says why in a sentence."""

    def __init__(self, status, why):
        super().__init__(why)
        self.status = status


def take(name=None, most=-1):
    """The bytes of a file, or of standard input without a name or with the name -; at most so many."""
    name = None if name == "-" else name
    if name is None and os.isatty(0):
        say("grs", "standard input is the terminal, which is read up to Ctrl-D")
    try:
        with open(0 if name is None else name, "rb", closefd=name is not None) as file:
            return file.read(most)
    except OSError as why:
        closed = name is None and why.errno == errno.EBADF
        said = "it can't be read, since it is closed, or a folder" if closed else why.strerror
        raise Failed(16, "%s: %s" % ("standard input" if name is None else name or "''", said)) from None


def give(text, encoding="utf-8"):
    """Writes a text to standard output."""
    rest = memoryview(text.encode(encoding, "replace"))
    try:
        while rest:
            rest = rest[os.write(1, rest):]
    except OSError as why:
        raise Failed(20, "the text could not be written whole: %s" % why.strerror) from None


def shown(text):
    """The front of a text that somebody else wrote, a letter for each byte, as a sentence may have it: what isn't printable ASCII stands as
    \\xNN, since a terminal would obey it."""
    front = re.sub("[^ -~]", lambda it: "\\x%02X" % ord(it[0]), text[:MOST_BYTES])
    return front + (" .. (%s bytes)" % format(len(text), ",") if len(text) > MOST_BYTES else "")


def say(name, sentence):
    """Says something on standard error, where that can be."""
    with contextlib.suppress(OSError):
        os.write(2, ("%s: %s\n" % (name, sentence)).encode("utf-8", "replace"))


def run(name, main):
    """Runs a script by its words, and ends with its status."""
    try:
        status = main(sys.argv[1:])
    except Failed as why:
        status = why.status
        say(name, why)
    except KeyboardInterrupt:
        status = 130
    sys.exit(status)
