"""How a log is read and written, and how messages are framed. All scripts that do this share it,
except the modules that users copy into their own test suites.

It cuts bytes where the lengths in them end. Whether they keep the rules is for lspcheck to say.
"""

import re
from collections import namedtuple

FIRST_LINE = b"lsp-session 2\n"
EDITOR, SERVER, SNAPSHOT = b"E", b"S", b"T"

# The limits of a log and of the Base Protocol, in bytes: of a record of one side, of the URI and
# the text of a snapshot, of a header part, of a content.
MOST_PIECE = 1 << 20
MOST_URI = 8192
MOST_TEXT = 1 << 24
MOST_HEADER = 4096
MOST_CONTENT = 1 << 26

# How a record begins: the sizes of what follows are in the line.
PIECE = re.compile(rb"([ES]) ([1-9][0-9]{0,6})\n")
TEXT = re.compile(rb"T (0|-?[1-9][0-9]{0,9}) ([1-9][0-9]{0,3}) (0|[1-9][0-9]{0,7})\n")
LONGEST_LINE = 64


class Damaged(ValueError):
    """Bytes that are not a log, or not a frame."""


def framed(content, length=None):
    """A message as a frame, whose header says another length if one is given."""
    length = len(content) if length is None else length
    return b"Content-Length: %d\r\n\r\n%s" % (length, content)


class Frames:
    """The frames of one side, in the pieces in which its bytes come."""

    length = re.compile(rb"^content-length:[ \t]*([0-9]{1,10})[ \t]*\r$", re.I | re.M)

    def __init__(self):
        self.held, self.start = bytearray(), 0

    def put(self, data):
        """Takes the next bytes."""
        del self.held[: self.start]
        self.start = 0
        self.held += data

    def next(self):
        """The content of the next frame, or None if it is not all there yet."""
        end = self.held.find(b"\r\n\r\n", self.start, self.start + MOST_HEADER)
        if end < 0:
            if len(self.held) - self.start >= MOST_HEADER:
                raise Damaged("a header part is too long")
            return None
        size = self.length.search(self.held[self.start : end + 2])
        if size is None:
            raise Damaged("a header part has no length")
        begin, size = end + 4, int(size[1])
        if size > MOST_CONTENT:
            raise Damaged("a message is too long")
        if len(self.held) < begin + size:
            return None
        self.start = begin + size
        return bytes(self.held[begin : self.start])

    def add(self, data):
        """Each content that is complete with these bytes."""
        self.put(data)
        while (content := self.next()) is not None:
            yield content


class Record(namedtuple("Record", "kind data version uri", defaults=(None, None))):
    """What the editor wrote or read, or a snapshot, which alone has a version and a URI."""

    __slots__ = ()

    def encoded(self):
        """The bytes of the record."""
        if self.kind == SNAPSHOT:
            sizes = (self.version, len(self.uri), len(self.data))
            return b"T %d %d %d\n%s\n%s\n" % (*sizes, self.uri, self.data)
        return b"%s %d\n%s\n" % (self.kind, len(self.data), self.data)


def as_records(kind, data):
    """Bytes of one side as records, of which none is too long."""
    for at in range(0, len(data), MOST_PIECE):
        yield Record(kind, data[at : at + MOST_PIECE]).encoded()


def read(file, size):
    """This many bytes and the line end after them."""
    data = file.read(size)
    if len(data) != size or file.read(1) != b"\n":
        raise Damaged("a record is cut short, or its line end is missing")
    return data


def records(file):
    """The records of a log whose first line has been read."""
    while line := file.readline(LONGEST_LINE):
        if piece := PIECE.fullmatch(line):
            yield Record(piece[1], read(file, int(piece[2])))
        elif text := TEXT.fullmatch(line):
            version, uri, size = map(int, text.groups())
            uri = read(file, uri)
            yield Record(SNAPSHOT, read(file, size), version, uri)
        else:
            raise Damaged("this is not a record")
