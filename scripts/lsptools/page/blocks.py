"""The data in a page: blocks, compressed, of which no byte of the log is outside."""

import base64
import json
import os
import threading
import zlib
from collections import deque
from queue import SimpleQueue

# The contents of events are in blocks of about this many bytes.
BLOCK = 1_000_000
# The level of deflate, and that for a log of more bytes, which takes half the time: what sessions
# repeat is found there, too.
LEVEL, LEVEL_OF_LARGE, LARGE = 6, 3, 10_000_000
# How many blocks are compressed at once, and how many may wait for that.
PACKERS = min(os.cpu_count() or 1, 4)
MOST_WAITING = 2 * PACKERS

encode = json.JSONEncoder(separators=(",", ":")).encode


def json_of(value):
    return encode(value).encode()


def level_for(size):
    """The level of deflate for the log of this size."""
    return LEVEL if size <= LARGE else LEVEL_OF_LARGE


def compressed(pieces, level):
    """Deflated bytes in base64, in pieces, so that none of them is in memory as a whole."""
    packer, rest = zlib.compressobj(level), b""
    for piece in pieces:
        rest += packer.compress(piece)
        whole = len(rest) // 3 * 3
        yield base64.b64encode(rest[:whole])
        rest = rest[whole:]
    yield base64.b64encode(rest + packer.flush())


def write_block(file, name, packed):
    file.write(b'<script type="application/octet-stream" id="%b">' % name.encode())
    for piece in packed:
        file.write(piece)
    file.write(b"</script>\n")


class Packer(threading.Thread):
    """Compresses the blocks that it finds in a queue, each with a queue for what it becomes."""

    def __init__(self, given, level):
        super().__init__(daemon=True)
        self.given, self.level = given, level
        self.start()

    def run(self):
        while True:
            block, packed = self.given.get()
            packed.put(b"".join(compressed([b"".join(block)], self.level)))


class Contents:
    """Writes the contents of events into a page, in blocks that are compressed on several
    processors while others are made."""

    def __init__(self, file, level):
        self.file, self.block, self.size = file, [], 0
        # How many blocks are complete, and those of them that are not written yet.
        self.blocks, self.waiting = 0, deque()
        self.given = SimpleQueue()
        for _ in range(PACKERS):
            Packer(self.given, level)

    def put(self, content):
        """Takes the content of an event, whole. Returns the number of its block."""
        number = self.blocks
        self.block.append(content)
        self.size += len(content)
        if self.size >= BLOCK:
            self.end_block()
        return number

    def end_block(self):
        packed = SimpleQueue()
        self.given.put((self.block, packed))
        self.waiting.append(packed)
        self.block, self.size = [], 0
        self.blocks += 1
        self.write(MOST_WAITING)

    def write(self, most):
        """Writes blocks until at most this many are left."""
        while len(self.waiting) > most:
            number = self.blocks - len(self.waiting)
            write_block(self.file, f"contents-{number}", [self.waiting.popleft().get()])

    def end(self):
        """Writes what is left. Returns the number of blocks."""
        if self.block:
            self.end_block()
        self.write(0)
        return self.blocks


def index_pieces(index, rows, violations):
    """The JSON of the index, whose largest members are made one by one."""
    yield json_of(index)[:-1] + b',"rows":{'
    for at, (name, column) in enumerate(rows.json()):
        yield b'%b"%b":' % (b"," if at else b"", name.encode()) + column
    yield b'},"violations":['
    for at, violation in enumerate(violations):
        yield (b"," if at else b"") + json_of(vars(violation))
    yield b"]}"
