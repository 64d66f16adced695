"""Logs in which it is hard to say what is left: spellings of JSON, characters, names, large records,
and what comes after the verdict."""

import json

ONE, TWO = b"lsp-session 1\n", b"lsp-session 2\n"
INITIALIZE = {"id": 1, "method": "initialize", "params": {"capabilities": {}}}
ANSWER = {"id": 1, "result": {"capabilities": {"textDocumentSync": 2}}}
INITIALIZED = {"method": "initialized", "params": {}}
URI = "file:///home/someone/hidden%20name.c"

# Characters of one to four bytes, marks that combine, line ends that are none in LSP, a byte order
# mark, a joiner, NUL, and words.
TEXT = (
    "Hidden words 1234\n\tif (hidden_name != 0x7f) {\r\n\r return \"gr\u00f6\u00dfe\";\u0000\u007f\n"
    "e\u0301\u00e9 \u0416\u0663 \u2028\u2029\u0085\u000b\f \ufeff\u200d \u8a9e\ud7ff\uffff \U0001f1e9\U0001f1ea \U0010ffff\n"
)


def framed(content):
    """A content as a frame."""
    content = content if isinstance(content, bytes) else content.encode()
    return b"Content-Length: %d\r\n\r\n%s" % (len(content), content)


def record(side, data):
    """Bytes of a side as a record."""
    return b"%s %d\n%s\n" % (side, len(data), data)


def sent(side, message):
    """A message of a side, as it is spelled or as a value."""
    if isinstance(message, dict):
        message = json.dumps({"jsonrpc": "2.0", **message}, ensure_ascii=False)
    return record(side, framed(message))


def editor(message):
    """A message of the editor."""
    return sent(b"E", message)


def server(message):
    """A message of the server."""
    return sent(b"S", message)


def shown(version, text, uri=URI):
    """A snapshot."""
    return b"T %d %d %d\n%s\n%s\n" % (version, len(uri.encode()), len(text.encode()), uri.encode(), text.encode())


def opened(version=1, text=TEXT, uri=URI):
    """A `didOpen`."""
    document = {"uri": uri, "languageId": "hidden", "version": version, "text": text}
    return editor({"method": "textDocument/didOpen", "params": {"textDocument": document}})


def changed(version, *changes, uri=URI):
    """A `didChange`."""
    params = {"textDocument": {"uri": uri, "version": version}, "contentChanges": changes}
    return editor({"method": "textDocument/didChange", "params": params})


def replaced(first, second, text, **more):
    """A change of a range."""
    start, end = ({"line": line, "character": column} for line, column in (first, second))
    return {"range": {"start": start, "end": end}, "text": text, **more}


START = editor(INITIALIZE) + server(ANSWER) + editor(INITIALIZED)


def agreed(encoding):
    """A handshake that agrees on an encoding."""
    offer = {"capabilities": {"general": {"positionEncodings": ["hidden-encoding", encoding]}}}
    choice = {"capabilities": {"positionEncoding": encoding, "textDocumentSync": {"change": 2}}}
    return editor({**INITIALIZE, "params": offer}) + server({"id": 1, "result": choice}) + editor(INITIALIZED)


def of_texts():
    """Texts in each encoding, with edits beside characters of each length."""
    for encoding, column in (("utf-8", 4), ("utf-16", 2), ("utf-32", 1)):
        start = ONE + agreed(encoding) + opened(text="\U0001f600a\u00e9\nHidden")
        edit = changed(2, replaced((0, column), (0, column + 1), "\u8a9eB", rangeLength=1))
        text = "\U0001f600\u8a9eB\u00e9\nHidden"
        yield encoding, start + edit + shown(2, text)
        yield f"{encoding}, another text", start + edit + shown(2, text.replace("B", "C"))
        yield f"{encoding}, inside a character", start + changed(2, replaced((0, 0), (0, column - 1), "x")) + shown(2, "q")
    yield "every character", ONE + START + opened() + shown(1, TEXT)
    for place in range(0, len(TEXT), 7):
        for other in ("q", "Q", "7", "\u00fc", "\u4e09", "\U0001f44d", " ", ""):
            if other != TEXT[place]:
                text = TEXT[:place] + other + TEXT[place + 1 :]
                yield f"{other!r} at {place}", ONE + START + opened() + shown(1, text)
    for own, other in (("xy", "xx"), ("xx", "xy"), ("yx", "yy"), ("XY", "XX"), ("01", "00"), ("\u00e9", "\u00e8"), ("", "hidden")):
        yield f"{own} and {other}", ONE + START + opened(text=own) + shown(1, other)
        yield f"{own} saved as {other}", ONE + START + opened(text=own) + saved(other)


def saved(text):
    """A `didSave`."""
    return editor({"method": "textDocument/didSave", "params": {"textDocument": {"uri": URI}, "text": text}})


def of_versions():
    """Snapshots that wait, are late, are skipped, or are of a document that was closed."""
    full = [changed(version, {"text": f"hidden{version}"}) for version in range(2, 21)]
    for head in (ONE, TWO):
        start = head + START + opened(text="hidden1") + b"".join(full[:3])
        yield "late", start + shown(2, "hidden2")
        yield "late and different", start + shown(2, "hiddem2")
        yield "too late", head + START + opened(text="hidden1") + b"".join(full) + shown(2, "hidden2")
        early = head + START + shown(1, "hidden") + shown(2, "word") + shown(2, "work")
        yield "early", early + opened(text="hidden") + changed(2, {"text": "word"})
        yield "early, at the opening", head + START + shown(1, "hidden") + opened(text="hiddem")
        yield "early, skipped", early + opened(text="hidden") + changed(3, {"text": "word"})
    close = editor({"method": "textDocument/didClose", "params": {"textDocument": {"uri": URI}}})
    yield "closed", ONE + START + opened() + shown(9, "hidden") + close + opened(1, "word") + changed(9, {"text": "work"})
    yield "two documents", ONE + START + opened() + opened(uri=URI + "x") + shown(1, TEXT, URI + "x") + shown(1, "", URI)


def of_spellings():
    """Contents that say the same in other ways."""
    yield "escapes in names", ONE + START + editor(
        '{"\\u006asonrpc":"2\\u002e0","method":"text\\u0044ocument/didOpen","params":{"text\\u0044ocument":'
        '{"\\u0075ri":"file:///hidden","\\u0076ersion":1,"text":"h\\u0069dden \\ud83d\\ude00"}}}'
    )
    yield "names twice", ONE + START + editor(
        '{"jsonrpc":"1","jsonrpc":"2.0","method":"textDocument/didOpen","params":[],"params":{"textDocument":'
        '{"uri":"hidden","uri":"word","version":9,"version":1,"text":"hidden","text":"word"}}}'
    ) + shown(1, "word", "word")
    for number in ("1.0", "1e0", "-0", "2147483648", "1" * 40, "null", '"1"'):
        start = '{"jsonrpc":"2.0","method":"textDocument/didOpen","params":{"textDocument":{"uri":"hidden","text":"word",'
        yield f"version {number}", ONE + START + editor(f'{start}"version":{number}}}}}}}')
        yield f"id {number}", ONE + START + editor(f'{{"jsonrpc":"2.0","id":{number},"method":"hidden/word"}}')
        yield f"code {number}", ONE + START + server(f'{{"jsonrpc":"2.0","id":null,"error":{{"code":{number},"message":"hidden"}}}}')
        length = f'{{"jsonrpc":"2.0","method":"textDocument/didChange","params":{{"textDocument":{{"uri":"{URI}","version":2}},'
        yield f"length {number}", ONE + START + opened() + editor(f'{length}"contentChanges":[{{"text":"","rangeLength":{number}}}]}}}}')
    for content in ("\ufeff{}", '{"hidden":"\\ud800"}', "[" * 200, "nan", '{"a":1}hidden', "\u0000", '"hidden"', "[{}]"):
        yield f"content {content[:20]!r}", ONE + editor(content)
    yield "content that is not UTF-8", ONE + editor(b'{"hidden":"\xff"}')
    yield "no params", ONE + editor('{"jsonrpc":"2.0","id":7,"method":"initialize","params":null}')
    yield "header parts", ONE + record(b"E", b"content-length:  33 \r\nX-Hidden: words\r\n\r\n" + b'{"jsonrpc":"2.0","method":"exit"}')


def of_names():
    """Names that are alike, and methods in other kinds of messages than those that rules read."""
    documents = [f"file:///hidden{number}" for number in range(12)]
    yield "many documents", ONE + START + b"".join(opened(uri=uri) for uri in [*documents, *documents[:1]])
    calls = [{"id": it, "method": "hidden/call"} for it in ("1", 1, "2", "hidden", 2, "")]
    answers = [{"id": it["id"], "result": "hidden"} for it in calls]
    yield "ids", TWO + START + b"".join(map(editor, calls)) + b"".join(map(server, reversed(answers)))
    yield "another id", ONE + START + editor({"id": "1", "method": "hidden"}) + server({"id": 1, "result": 1})
    for method in ("exit", "initialized", "textDocument/didOpen", "$/progress", "method/1", "hidden", "window/logMessage"):
        yield f"{method} as a request", ONE + START + editor({"id": 7, "method": method})
        yield f"{method} of the server", ONE + START + server({"method": method, "params": {"token": "hidden"}})
    for methods in (["textDocument/didSave", "hidden"], ["hidden", "textDocument/didChange"]):
        registered = {"registrations": [{"id": "hidden", "method": it} for it in methods]}
        yield f"registers {methods}", ONE + START + server({"id": 1, "method": "client/registerCapability", "params": registered})
    token = {"capabilities": {}, "workDoneToken": "hidden"}
    for it in ("hidden", "other", 7):
        progress = server({"method": "$/progress", "params": {"token": it, "value": "words"}})
        yield f"progress with {it}", ONE + editor({**INITIALIZE, "params": token}) + progress
    failed = server({"id": 1, "error": {"code": -1, "message": "hidden"}})
    yield "a second handshake", ONE + editor(INITIALIZE) + failed + START + opened()
    yield "a result before a handshake", ONE + server(ANSWER)
    yield "an id of another type", ONE + editor({**INITIALIZE, "id": "1"}) + server(ANSWER)


def of_sizes():
    """Records of the greatest size, and one character more."""
    most = 1 << 18
    for extra in (-1, 0, 1):
        text = "\u8a9e" * (most + extra)
        yield f"{extra} characters", ONE + START + b"".join(cut(opened(text=text))) + shown(1, text)


def cut(log):
    """A record as records that are not too long."""
    data = log[log.index(b"\n") + 1 : -1]
    for at in range(0, len(data), 1 << 20):
        yield record(b"E", data[at : at + (1 << 20)])


def of_faults():
    """Faults of the frames and of the log, before and after an offence."""
    bad = record(b"S", b"Content-Length: hidden\r\n\r\n")
    rest = record(b"E", b"Content-Length: 9\r\n\r\nhidden")
    for name, end in (("a frame", bad), ("a rest", rest), ("a record", b"X hidden\n"), ("a size", b"E 0\n"), ("a cut", b"E 9\nhid")):
        yield name, ONE + START + opened() + end
        yield f"{name}, after an offence", ONE + START + opened() + opened() + end
    yield "a snapshot that is not UTF-8", ONE + START + opened() + b"T 1 1 1\na\n\xff\n"
    yield "another first line", b"lsp-session 9\n" + START
    yield "nothing", b""


def logs():
    """Each log with its name."""
    for part in (of_texts, of_versions, of_spellings, of_names, of_sizes, of_faults):
        for name, log in part():
            yield f"{part.__name__}: {name}", log
