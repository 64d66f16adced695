"""Small worked sessions, streams and contents, on which each call of the libraries is tried."""

import json
import sys
from pathlib import Path

sys.path.insert(0, str(Path(__file__).resolve().parent.parent / "cli"))
sys.dont_write_bytecode = True

import sessions
from sessions import ANSWER, HEAD, HEAD_TWO, INITIALIZE, INITIALIZED, editor, frame, server

START = HEAD + INITIALIZE + ANSWER + INITIALIZED


def notified(method, **params):
    message = {"jsonrpc": "2.0", "method": method, "params": params}
    return editor(json.dumps(message, ensure_ascii=False, separators=(",", ":")))


def opened(version, text, uri="file:///a"):
    document = {"uri": uri, "languageId": "x", "version": version, "text": text}
    return notified("textDocument/didOpen", textDocument=document)


def changed(version, *changes):
    document = {"uri": "file:///a", "version": version}
    return notified("textDocument/didChange", textDocument=document, contentChanges=changes)


def part(line, column, last_line, last_column, text):
    start, end = {"line": line, "character": column}, {"line": last_line, "character": last_column}
    return {"range": {"start": start, "end": end}, "text": text}


def whole(text):
    return {"text": text}


def snapshot(version, text):
    text = text.encode()
    return b"T %d 9 %d\nfile:///a\n%s\n" % (version, len(text), text)


def answered(name):
    return server('{"jsonrpc":"2.0","id":%s,"result":null}' % name)


def handshake(encoding):
    """A session that agrees on this encoding."""
    offer = '{"capabilities":{"general":{"positionEncodings":["%s"]}}}' % encoding
    picked = '{"capabilities":{"positionEncoding":"%s","textDocumentSync":2}}' % encoding
    asked = editor('{"jsonrpc":"2.0","id":1,"method":"initialize","params":%s}' % offer)
    return HEAD + asked + server('{"jsonrpc":"2.0","id":1,"result":%s}' % picked) + INITIALIZED


HOVER = editor('{"jsonrpc":"2.0","id":7,"method":"textDocument/hover","params":{}}')
CANCELLED = HOVER + editor('{"jsonrpc":"2.0","method":"$/cancelRequest","params":{"id":7}}')
REFUSED = server('{"jsonrpc":"2.0","id":7,"error":{"code":-32800,"message":"c"}}')
LATER = START + opened(3, "a") + snapshot(5, "b")
IN_ORDER = [part(0, 0, 0, 1, ""), part(0, 1, 0, 1, "X")]
FACE = "\U0001f600a"


def face_changed(column):
    """A letter that is put between two others."""
    return opened(1, FACE) + changed(2, part(0, column, 0, column, "x")) + snapshot(2, "\U0001f600xa")


AGREED = editor(
    '{"jsonrpc":"2.0","id":1,"method":"initialize","params":{"workDoneToken":"w",'
    '"capabilities":{"general":{"positionEncodings":["utf-8","utf-16"]}}}}'
)
BEGUN = server('{"jsonrpc":"2.0","method":"$/progress","params":{"token":"w","value":{}}}')
ASKED = server('{"jsonrpc":"2.0","id":"seven","method":"window/showMessageRequest","params":{}}')
PICKED = server('{"jsonrpc":"2.0","id":1,"result":{"capabilities":{"positionEncoding":"utf-8","textDocumentSync":2}}}')
REGISTERED = server(
    '{"jsonrpc":"2.0","id":1,"method":"client/registerCapability","params":{"registrations":'
    '[{"id":"r","method":"a"},{"id":"s","method":"b"}]}}'
)

MANY = START + opened(1, "a") + b"".join(changed(version, whole("a")) for version in range(2, 19))

# A text of several blocks.
LONG = "one line\r\n" * 300
LONGER = LONG[:1505] + "xyz" + LONG[1505:]

# Logs by what they show. Each record of bytes is one frame.
LOGS = {
    "a session": sessions.WHOLE,
    "edits in turn": START + opened(1, "ab\r\ncd") + changed(2, part(0, 99, 0, 99, "X")) + snapshot(2, "abX\r\ncd")
    + changed(3, part(7, 0, 7, 0, "Y")) + snapshot(3, "abX\r\ncdY"),
    "line ends": START + opened(1, "a\rb\n") + changed(2, part(1, 0, 1, 1, "")) + changed(3, part(1, 0, 1, 0, "x"))
    + snapshot(3, "a\r\nx"),
    "a joined line end": START + opened(1, "a\r") + changed(2, part(1, 0, 1, 0, "\n")) + snapshot(2, "a\r\n"),
    "columns in utf-8": handshake("utf-8") + face_changed(4),
    "columns in utf-16": START + face_changed(2),
    "columns in utf-32": handshake("utf-32") + face_changed(1),
    "a column inside a character": START + opened(1, FACE) + changed(2, part(0, 1, 0, 1, "x")),
    "changes in order": START + opened(1, "ab") + changed(2, *IN_ORDER) + snapshot(2, "bX"),
    "a change refused": START + opened(1, "ab") + changed(2, *IN_ORDER, part(0, 1, 0, 0, "")),
    "an early snapshot": LATER + changed(5, whole("b")),
    "a snapshot that differs": LATER + changed(5, whole("c")),
    "a skipped version": LATER + changed(6, whole("b")),
    "a request cancelled": START + CANCELLED,
    "a request answered": START + CANCELLED + REFUSED,
    "a request answered twice": START + CANCELLED + REFUSED + REFUSED,
    "an answer to the text 7": START + CANCELLED + answered('"7"'),
    "an answer to null": START + CANCELLED + answered("null"),
    "a request asked twice": START + HOVER + HOVER,
    "requests of both sides": HEAD + AGREED + BEGUN + ASKED + PICKED + INITIALIZED + HOVER + REGISTERED
    + editor('{"jsonrpc":"2.0","id":"seven","result":null}') + opened(1, "é\ré\n")
    + changed(2, part(1, 0, 1, 2, "one\ntwo\rthree"), whole("whole\nother")) + changed(3, whole("")),
    "an early snapshot of what is opened": START + opened(4, "other\ntext", "file:///b") + snapshot(3, "a\nb")
    + opened(3, "a\nb") + changed(4, part(1, 0, 1, 1, "x"), part(0, 0, 0, 0, "y")) + snapshot(9, "later"),
    "an early snapshot that differs from what is opened": START + snapshot(3, "a\nb") + opened(3, "a\nc"),
    "a whole text that is longer": START + opened(1, "a") + changed(2, whole("first line\nsecond line\rthird line")),
    "a whole text of which most is held": START + opened(1, LONG) + changed(2, whole(LONGER)) + snapshot(2, LONGER)
    + changed(3, part(150, 5, 150, 8, "x"), part(150, 6, 150, 6, "y")) + changed(4, whole(LONG)) + snapshot(4, LONG),
    "a session without an answer": sessions.UNANSWERED,
    "a late snapshot": START + opened(3, "a") + changed(4, whole("b")) + snapshot(3, "a"),
    "a late snapshot of each version": START + opened(3, "a") + changed(4, whole("b")) + snapshot(3, "a")
    + changed(5, whole("c")) + snapshot(4, "b"),
    "a late snapshot that differs": START + opened(3, "a") + changed(4, whole("b")) + snapshot(3, "x"),
    "a snapshot of no version": START + opened(3, "a") + changed(4, whole("b")) + snapshot(2, "a"),
    "a snapshot between versions": START + opened(3, "a") + changed(5, whole("b")) + snapshot(4, "x"),
    "as many versions as are kept": MANY + snapshot(2, "a"),
    "more versions than are kept": MANY + snapshot(1, "a"),
}

# Each in both formats.
LOGS = {
    name + words: head + log[len(HEAD):]
    for name, log in LOGS.items() for words, head in [("", HEAD), (" in format 2", HEAD_TWO)]
}

# The same session in records of one byte.
IN_BYTES = {
    "a session in records of one byte": sessions.in_bytes(sessions.WHOLE),
    "a session in records of one byte in format 2": HEAD_TWO + sessions.in_bytes(sessions.WHOLE)[len(HEAD):],
}

# A content that is cut off, since its length counts characters, and the rest of it.
NOTE = '{"jsonrpc":"2.0","method":"window/logMessage","params":{"type":3,"message":"é"}}'
SHORT = b"Content-Length: %d\r\n\r\n%s" % (len(NOTE), NOTE.encode())
CUT_OFF = {
    "a content that is cut off" + words: head + START[len(HEAD):] + b"S %d\n%s\n" % (len(SHORT), SHORT)
    for words, head in [("", HEAD), (" in format 2", HEAD_TWO)]
}

EXIT = frame('{"jsonrpc":"2.0","method":"exit"}')


def numbered(digits):
    return b"Content-Length: %s\r\n\r\n{}" % digits


# Streams by what they show.
STREAMS = {
    "nothing": b"",
    "ten bytes": b"Content-Length: 10\r\n\r\n" + '{"a":"é"}'.encode(),
    "nine bytes": sessions.ONE_TOO_FEW,
    "two lengths": b"Content-Length: 2\r\nContent-Length: 2\r\n\r\n{}",
    "no header": b"Content-Length: 2\n\n{}",
    "a bad header": b"Content-Length: 2\n\n{}" + sessions.CANONICAL,
    "a charset": b"Content-Length: 2\r\nContent-Type: a; charset=utf8\r\n\r\n{}",
    "another charset": b"Content-Length: 2\r\nContent-Type: a; charset=utf-16\r\n\r\n{}",
    "messages": sessions.LOOSE + sessions.CANONICAL,
    "a long header": b"Content-Length: 2\r\nX: " + b"a" * 4070 + b"\r\n\r\n{}",
    "a header that is too long": b"Content-Length: 2\r\nX: " + b"a" * 4071 + b"\r\n\r\n{}",
    "leading zeros": numbered(b"0000000002"),
    "a sign": numbered(b"+2"),
    "eleven digits": numbered(b"00000000002"),
    "no digit": numbered(b""),
    "a content that is too long": EXIT + numbered(b"67108865"),
}

# A content that is pushed in parts.
LONG = frame('{"jsonrpc":"2.0","method":"exit","extra":"%s"}' % ("x" * 20_000))

# The rules that a stream can break; 0 stands for one that is too long.
STREAM_RULES = [0, 101, 102, 103, 104, 105, 106, 107, 201, 202, 203, 204, 205, 206, 207, 208]

# Contents that no message can be read from, and messages, one for each rule that a content alone can break.
NO_MESSAGES = [
    b"",
    b"{",
    b"[" * 128 + b"]" * 128,
    b"[" * 127 + b"]" * 127,
    b"[]",
    b"{}",
    b'{"jsonrpc":"2.1","method":"exit"}',
    b'{"jsonrpc":"2.0","method":null}',
    b'{"jsonrpc":"2.0","id":null,"method":"initialize"}',
    b'{"jsonrpc":"2.0","id":true,"method":"initialize"}',
    b'{"jsonrpc":"2.0","id":2147483648,"method":"initialize"}',
    b'{"jsonrpc":"2.0","id":[],"result":1,"error":1}',
    b'{"jsonrpc":"2.0","method":"exit","params":1}',
    b'{"jsonrpc":"2.0"}',
    b'{"jsonrpc":"2.0","id":1}',
    b'{"jsonrpc":"2.0","id":1,"result":null,"error":{"code":1,"message":""}}',
    b'{"jsonrpc":"2.0","result":null}',
    b'{"jsonrpc":"2.0","id":1,"error":{"message":"m"}}',
]
MESSAGES = [
    b'{"jsonrpc":"2.0","id":1,"method":"initialize"}',
    b'{"jsonrpc":"2.0","id":1,"method":"initialize","params":{}}',
    b'{"jsonrpc":"2.0","method":"textDocument/didClose","params":[]}',
    b'{"jsonrpc":"2.0","method":"$/cancelRequest","params":{"id":null}}',
    b'{"jsonrpc":"2.0","id":1,"result":null}',
    b'{"jsonrpc":"2.0","method":"initialize","params":{"capabilities":{}}}',
    b'{"jsonrpc":"2.0","method":"exit","extra":[1],"params":null}',
    b'{"jsonrpc":"2.0","method":"textDocument/publishDiagnostics","params":{"uri":"file:///a","version":1}}',
    b'{"jsonrpc":"2.0","method":"textDocument/publishDiagnostics","params":{"uri":"a","version":1e0,"uri":"b"}}',
]


def records(log):
    """The records of a log: the letter, and the frame's content or the text."""
    for letter, last, _ in placed(log):
        yield letter, last if letter == b"T" else last.partition(b"\r\n\r\n")[2]


def beginning(log, count):
    """The log up to the end of this record, counted from 1."""
    ends = [end for _, _, end in placed(log)]
    return log[: ends[count - 1]]


def placed(log):
    """The records of a log: the letter, the last of its parts, and where it ends."""
    at = len(HEAD)
    while at < len(log):
        line_end = log.index(b"\n", at) + 1
        words = log[at:line_end].split()
        sizes = [int(word) for word in words[1:]][-2 if words[0] == b"T" else -1:]
        at = line_end + sum(size + 1 for size in sizes)
        yield words[0], log[at - 1 - sizes[-1] : at - 1], at
