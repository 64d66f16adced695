"""Logs and streams as lines of text, and the tables of worked sessions in this folder.

A log is built line by line:

    HEAD      begins a log with its first line; HEAD 2 one of format 2
    START     the same and the handshake; START 2 in format 2
    EMPTY     begins a log without any bytes
    E WORDS   adds a message of the editor, S one of the server: a template's name and what fills it
    E {..}    the same, with this content
    T 1 "ab"  adds a snapshot of file:///a: its version, and its text in quotes
    F WORDS   adds a frame outside of any record
    LONG 40   adds a frame whose header part has a field of 40 letters; E LONG 40, as a record
    + TEXT    adds bytes as they are; \\r, \\n, \\xff and \\\\ are one byte each
    CUT 64    from here on, a record of bytes has at most 64 bytes
    : 698     the log must have 698 bytes here

Then come the output of a run and the run itself, with the word for how it ends. Lines after a run
add to the same log:

    > LINE    a line on standard output
    | TEXT    bytes there without a line end
    KEEP      the bytes of the log as they are now; KEEP 2 with the first line of format 2
    ! LINE    a line of the report on standard error
    ? NAME    the hint of this name, a line on standard error after the fixed words
    = yes     the run

An empty line ends a table, and # begins a comment.
"""

import re
import sys
from pathlib import Path

FOLDER = Path(__file__).resolve().parent
sys.path.insert(0, str(FOLDER.parent / "cli"))
sys.dont_write_bytecode = True

from sessions import HEAD, HEAD_TWO, frame

# The templates of contents: `@` stands for the next word after the name, `*` for the contents that
# are named after each ` / `, separated by commas.
TEMPLATES = {
    "I": '{"jsonrpc":"2.0","id":@,"method":"initialize","params":{"capabilities":{}}}',
    "IT": '{"jsonrpc":"2.0","id":1,"method":"initialize","params":{"workDoneToken":"w","capabilities":{}}}',
    "IE": '{"jsonrpc":"2.0","id":1,"method":"initialize","params":{"capabilities":{"general":{"positionEncodings":[@]}}}}',
    "A": '{"jsonrpc":"2.0","id":@,"result":{"capabilities":@}}',
    "N1": '{"jsonrpc":"2.0","method":"initialized","params":{}}',
    "OPEN": '{"jsonrpc":"2.0","method":"textDocument/didOpen","params":{"textDocument":'
    '{"uri":"file:///a","languageId":"x","version":@,"text":@}}}',
    "CHG": '{"jsonrpc":"2.0","method":"textDocument/didChange","params":{"textDocument":'
    '{"uri":"file:///a","version":@},"contentChanges":[*]}}',
    "REP": '{"range":{"start":{"line":@,"character":@},"end":{"line":@,"character":@}},"text":@}',
    "LEN": '{"range":{"start":{"line":@,"character":@},"end":{"line":@,"character":@}},"rangeLength":@,"text":@}',
    "FULL": '{"text":@}',
    "CLOSE": '{"jsonrpc":"2.0","method":"textDocument/didClose","params":{"textDocument":{"uri":"file:///a"}}}',
    "SAVE": '{"jsonrpc":"2.0","method":"textDocument/didSave","params":{"textDocument":{"uri":"file:///a"},"text":@}}',
    "REQ": '{"jsonrpc":"2.0","id":@,"method":"textDocument/hover","params":{}}',
    "ASK": '{"jsonrpc":"2.0","id":@,"method":"textDocument/formatting","params":'
    '{"textDocument":{"uri":@},"options":{}}}',
    "EDITS": '{"jsonrpc":"2.0","id":@,"result":[*]}',
    "EDIT": '{"range":{"start":{"line":@,"character":@},"end":{"line":@,"character":@}},"newText":@}',
    "DIAG": '{"jsonrpc":"2.0","method":"textDocument/publishDiagnostics","params":'
    '{"uri":@,"version":@,"diagnostics":[]}}',
    "CANCEL": '{"jsonrpc":"2.0","method":"$/cancelRequest","params":{"id":@}}',
    "RES": '{"jsonrpc":"2.0","id":@,"result":null}',
    "ERR": '{"jsonrpc":"2.0","id":@,"error":{"code":@,"message":"c"}}',
    "LOG": '{"jsonrpc":"2.0","method":"window/logMessage","params":{"type":3,"message":"m"}}',
    "PROG": '{"jsonrpc":"2.0","method":"$/progress","params":{"token":@,"value":{}}}',
    "REG": '{"jsonrpc":"2.0","id":1,"method":"client/registerCapability","params":{"registrations":'
    '[{"id":"r","method":@}]}}',
    "SH": '{"jsonrpc":"2.0","id":2,"method":"shutdown","params":null}',
    "EX": '{"jsonrpc":"2.0","method":"exit"}',
    "EXTRA": '{"jsonrpc":"2.0","method":"exit","extra":@}',
}

# The handshake that most sessions begin with.
HANDSHAKE = [("E", "I 1"), ("S", 'A 1 {"textDocumentSync":2}'), ("E", "N1")]

ESCAPES = [(b"\\\\", b"\\"), (b"\\r", b"\r"), (b"\\n", b"\n"), (b"\\xff", b"\xff")]


def filled(words):
    """The template that the first word names, with the other words in the places of its `@`."""
    name, *given = words.split()
    pieces = TEMPLATES[name].split("@")
    if len(pieces) != len(given) + 1:
        raise ValueError(f"{name} takes {len(pieces) - 1} words: {words}")
    return "".join(piece + word for piece, word in zip(pieces, [*given, ""]))


def content_of(words):
    """The content that these words name, or that they are."""
    if words.startswith("{"):
        return words
    first, *others = words.split(" / ")
    return filled(first).replace("*", ",".join(map(filled, others)))


def unescaped(text):
    """The bytes of a text in which a backslash begins the name of one."""
    given, made = text.encode(), b""
    while given:
        name, byte = next((it for it in ESCAPES if given.startswith(it[0])), (given[:1], given[:1]))
        made, given = made + byte, given[len(name):]
    return made


def long(words):
    """A frame whose header part has a field of this many letters."""
    return b"Content-Length: 2\r\nX: " + b"a" * int(words.removeprefix("LONG ")) + b"\r\n\r\n{}"


class Log:
    """A log that is built line by line."""

    def __init__(self):
        self.bytes, self.most = b"", sys.maxsize

    def record(self, side, whole):
        """The bytes of a side, in records of a limited size."""
        for at in range(0, len(whole), self.most):
            piece = whole[at : at + self.most]
            self.bytes += b"%s %d\n%s\n" % (side.encode(), len(piece), piece)

    def begin(self, word, rest):
        self.bytes = b"" if word == "EMPTY" else HEAD_TWO if rest == "2" else HEAD
        for side, words in HANDSHAKE if word == "START" else []:
            self.record(side, frame(content_of(words)))

    def snapshot(self, words):
        version, _, text = words.partition(" ")
        text = unescaped(text.strip('"'))
        self.bytes += b"T %d 9 %d\nfile:///a\n%s\n" % (int(version), len(text), text)

    def add(self, word, rest):
        """Adds what a line says."""
        if word in ("EMPTY", "HEAD", "START"):
            self.begin(word, rest)
        elif word in ("E", "S"):
            self.record(word, long(rest) if rest.startswith("LONG ") else frame(content_of(rest)))
        elif word == "T":
            self.snapshot(rest)
        elif word == "F":
            self.bytes += frame(content_of(rest))
        elif word == "LONG":
            self.bytes += long(f"LONG {rest}")
        elif word == "+":
            self.bytes += unescaped(rest)
        elif word == "CUT":
            self.most = int(rest)
        elif word != ":" or int(rest) != len(self.bytes):
            raise ValueError(f"no line: {word} {rest} after {len(self.bytes)} bytes")


def log_of(lines, most=sys.maxsize):
    """The log that these lines build, with at most this many bytes in a record of bytes."""
    log = Log()
    log.most = most
    for line in lines.splitlines():
        word, _, rest = line.partition(" ")
        log.add(word, rest)
    return log.bytes


# The words of each run, except for those of `text` and `event`.
RUNS = {
    "=": ["check"],
    "complete": ["check", "--complete"],
    "all": ["check", "--all"],
    "every": ["check", "--every"],
    "all-and-every": ["check", "--all", "--every"],
    "all-complete": ["check", "--all", "--complete"],
    "show": ["show"],
    "long": ["show", "--long"],
    "show-all": ["show", "--all"],
    "long-all": ["show", "--all", "--long"],
    "explain": ["explain"],
    "explain-complete": ["explain", "--complete"],
    "explain-all": ["explain", "--all"],
    "explain-all-complete": ["explain", "--all", "--complete"],
    "check-ends": ["check", "--ignore-line-ends"],
    "complete-ends": ["check", "--complete", "--ignore-line-ends"],
    "all-ends": ["check", "--all", "--ignore-line-ends"],
    "every-ends": ["check", "--every", "--ignore-line-ends"],
    "explain-ends": ["explain", "--ignore-line-ends"],
    "explain-all-ends": ["explain", "--all", "--ignore-line-ends"],
    "explain-notes": ["explain", "--notes"],
    "all-notes": ["explain", "--all", "--notes"],
    "all-notes-complete": ["explain", "--all", "--notes", "--complete"],
    "all-notes-ends": ["explain", "--notes", "--all", "--ignore-line-ends"],
    "by-messages": ["explain", "--by-messages"],
    "in-editor": ["explain", "--in-editor"],
    "by-messages-all": ["explain", "--all", "--by-messages"],
    "by-messages-notes": ["explain", "--all", "--notes", "--by-messages"],
    "by-messages-complete": ["explain", "--by-messages", "--complete"],
    "by-messages-ends": ["explain", "--by-messages", "--ignore-line-ends"],
    "in-editor-ends": ["explain", "--in-editor", "--ignore-line-ends"],
    "normal": ["normal"],
    "upgrade": ["upgrade"],
    "redact": ["redact"],
    "redact-ends": ["redact", "--ignore-line-ends"],
    **{mode: ["frames", "--as", mode] for mode in ["lengths", "kinds", "canonical"]},
}

# The first words of the runs that take more words, and how many more.
TAKES = {"text": (["text"], 2), "text-all": (["text", "--all"], 2), "event": (["event"], 1)}

# What standard error has where the document is not open.
NO_DOCUMENT = b"no such document\nlspcheck: hint: 'lspcheck show --long' shows the URI of each document\n"

# For each word for how a run ends: the status, and what standard error has if there is no output.
ENDS = {
    "yes": (0, b""),
    "done": (0, b""),
    "no": (1, b""),
    "bad-log": (2, b""),
    "fault": (2, b""),
    "no-document": (5, NO_DOCUMENT),
    "too-few": (5, b"fewer editor messages\n"),
    "no-difference": (5, b"no texts differ: the verdict is neither 608 nor 702\n"),
    "no-content": (5, b"no content\n"),
    "fewer-events": (5, b"fewer events\n"),
}


# The hints about what an input may be that is not what the command reads.
HINTS = {
    "empty": b"the input is empty: the recorder wrote nothing",
    "stream": b"this looks like one raw stream of frames: try 'lspcheck frames'",
    "log": b"this looks like the log of a session: try 'lspcheck check'",
    "format": b"this version of lspcheck does not know the format of this log",
    "unknown": b"a log begins with the line 'lsp-session 2': see docs/LOG_FORMAT.md",
}


class Row:
    """A run: its words and input, and what it must give."""

    def __init__(self, name, words, given, out, err, hint, end):
        self.name, self.words, self.given, self.out = name, words, given, out
        self.status, remark = ENDS[end]
        self.err = err + remark + hint


def run_of(word, rest):
    """The words of the run that a line names, and the word for how it ends; or None."""
    if word in RUNS:
        return RUNS[word], rest
    if word in TAKES:
        *given, end = rest.split()
        first, count = TAKES[word]
        return ([*first, *given], end) if len(given) == count else None
    return None


def rows_of(name, table):
    """The runs of a table. There must be at least one."""
    log, out, err, hint, count = Log(), b"", b"", b"", 0
    for number, line in table:
        word, _, rest = line.partition(" ")
        run = run_of(word, rest)
        if run:
            yield Row(f"{name}:{number}", run[0], log.bytes, out, err, hint, run[1])
            out = err = hint = b""
            count += 1
        elif word == ">":
            out += rest.encode() + b"\n"
        elif word == "|":
            out += rest.encode()
        elif word == "!":
            err += rest.encode() + b"\n"
        elif word == "?":
            hint += b"lspcheck: hint: %s\n" % HINTS[rest]
        elif word == "KEEP":
            out += HEAD_TWO + log.bytes.removeprefix(HEAD) if rest == "2" else log.bytes
        else:
            log.add(word, rest)
    if out or err or hint:
        raise ValueError(f"{name}: lines after the last run")
    if not count:
        raise ValueError(f"{name}:{table[0][0]}: a table without a run")


def tables_of(path):
    """The tables of a file: their lines, each with its number."""
    table = []
    for number, line in enumerate([*path.read_text(encoding="utf-8").split("\n"), ""], 1):
        if line and not line.startswith("#"):
            table.append((number, line))
        elif not line and table:
            yield table
            table = []


def rows_in(path):
    """The runs of the tables of a file. There must be at least one table."""
    tables = [*tables_of(path)]
    if not tables:
        raise ValueError(f"{path.name}: no table")
    for table in tables:
        yield from rows_of(path.name, table)


def rows():
    """The runs of every table in this folder. There must be at least one file."""
    paths = sorted(FOLDER.glob("*.txt"))
    if not paths:
        raise ValueError(f"{FOLDER}: no tables")
    for path in paths:
        yield from rows_in(path)


# The rules and the faults of a log that can be explained. L6 takes a log of 2^40 bytes.
RULES = {
    *map(str, [*range(101, 108), *range(201, 210), *range(301, 304), *range(401, 408), 411, 412]),
    *map(str, [*range(501, 505), *range(601, 609), 701, 702]),
    *["L1", "L2", "L3", "L4", "L5"],
}

# What needs a text over the limit, and so is explained in tests/cli/sizes.py.
OF_SIZE = {"607", "bytes", "limit"}


def lines_of(page):
    """The kinds of lines that docs/REPORT.md lists for an explanation: the words that are fixed."""
    cells = re.findall(r"^\| ([^|]*) \| (?:\d|a bad log)", page, re.M)
    listed = re.findall(r"`([^`]*)`", "\n".join(cells))
    return {" ".join(re.sub(r"<[^>]*>|\.\.", "", it).split()) for it in listed}


def explained(outputs):
    """The rules and the kinds of lines that these explanations have."""
    found = set()
    for line in filter(None, b"\n".join(outputs).decode().split("\n")):
        word, *rest = line.split(" ")
        found |= {rest[0]} if word == "no" else {rest[1]} if line.startswith("bad log ") else {word}
        found |= {f"{word} whole"} if rest[1:] == ["whole"] else set()
        found |= {f"{word} {rest[0]}"} if word == "ends" else set()
        found |= {line} if rest[:1] in (["option"], ["never"]) else set()
    return found


def unexplained(page):
    """The rules and the kinds of lines of an explanation that no row here has."""
    wanted = lines_of(page) | RULES
    return sorted(wanted - OF_SIZE - explained(row.out for row in rows() if row.words[0] == "explain"))
