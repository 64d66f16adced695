"""Logs for the tests of the page, and how the data of a page is read again."""

import base64
import json
import random
import re
import zlib

BLOCK = re.compile(r'<script type="application/octet-stream" id="([^"]*)">(.*?)</script>', re.S)

# What would break a page that put any of it into its HTML.
EVIL = "</script><img src=x onerror=alert(1)><!--\"'&lt;${1}"
EVIL_URI = f"file:///a/{EVIL}\u2028\x85.c"


def frame(side, message):
    body = message if isinstance(message, bytes) else json.dumps(message).encode()
    data = b"Content-Length: %d\r\n\r\n%s" % (len(body), body)
    return b"%s %d\n%s\n" % (side, len(data), data)


def snapshot(uri, version, text):
    uri, text = uri.encode(), text.encode()
    return b"T %d %d %d\n%s\n%s\n" % (version, len(uri), len(text), uri, text)


def request(id, method, params=None):
    return {"jsonrpc": "2.0", "id": id, "method": method, "params": params or {}}


def notification(method, params):
    return {"jsonrpc": "2.0", "method": method, "params": params}


def result(id, value):
    return {"jsonrpc": "2.0", "id": id, "result": value}


def opened(uri, version, text):
    document = {"uri": uri, "version": version, "languageId": "c", "text": text}
    return notification("textDocument/didOpen", {"textDocument": document})


def served(start, end, text):
    """An edit as servers send it."""
    own = edit(start, end, text)
    return {"range": own["range"], "newText": own["text"]}


def changed(uri, version, *changes):
    document = {"uri": uri, "version": version}
    return notification("textDocument/didChange", {"textDocument": document, "contentChanges": changes})


def edit(start, end, text):
    places = [{"line": line, "character": column} for line, column in (start, end)]
    return {"range": {"start": places[0], "end": places[1]}, "text": text}


def handshake(encoding="utf-16"):
    offers = {"capabilities": {"general": {"positionEncodings": [encoding]}}}
    answer = {"capabilities": {"textDocumentSync": 2, "positionEncoding": encoding}}
    return b"lsp-session 2\n" + b"".join([
        frame(b"E", request(1, "initialize", offers)),
        frame(b"S", result(1, answer)),
        frame(b"E", notification("initialized", {})),
    ])


def joined():
    """Requests of both sides, answered in another order, one cancelled and one never answered."""
    return handshake() + b"".join([
        frame(b"E", request(7, "textDocument/hover")),
        frame(b"E", request("7", "textDocument/completion")),
        frame(b"S", request(7, "workspace/configuration")),
        frame(b"E", notification("$/cancelRequest", {"id": 7})),
        frame(b"S", result("7", {"items": [1, 2]})),
        frame(b"E", result(7, [None])),
        frame(b"S", {"jsonrpc": "2.0", "id": 7, "error": {"code": -32800, "message": "stopped"}}),
        frame(b"E", request(8, "shutdown")),
    ])


# The request that each event of `joined` belongs to, and for a request its answer; then its cancel.
JOINS = {1: (2, 0), 2: (1, 0), 4: (10, 7), 5: (8, 0), 6: (9, 0), 7: (4, 0), 8: (5, 0), 9: (6, 0), 10: (4, 0)}


def hostile():
    """A session with hostile texts wherever a log can hold one, and a 702."""
    text = f"{EVIL}\n\u202e\u0301 no\xa0break\r\n"
    return handshake() + b"".join([
        frame(b"E", opened(EVIL_URI, 1, text)),
        snapshot(EVIL_URI, 1, text),
        frame(b"E", request(EVIL, f"textDocument/{EVIL}", {EVIL: EVIL, "textDocument": {"uri": EVIL_URI}})),
        frame(b"S", {"jsonrpc": "2.0", "id": EVIL, "error": {"code": 1, "message": EVIL}}),
        frame(b"S", notification("window/logMessage", {"type": [EVIL], "message": {EVIL: EVIL}})),
        frame(b"E", changed(EVIL_URI, 2, edit((0, 0), (0, 1), EVIL))),
        snapshot(EVIL_URI, 2, f"{EVIL}other"),
        frame(b"E", changed(EVIL_URI, 3, {"range": EVIL, "text": EVIL})),
        frame(b"S", EVIL.encode() + b"\xff\xfe"),
    ])


WORDS = ["a", "\n", "\r", "\r\n", "é", "😀", "e\u0301", "\t", " ", "", "ab\ncd"]


def places_of(text, units):
    """The positions between the characters of a text, none inside a CR LF."""
    places, line, column = [], 0, 0
    for at, character in enumerate(text):
        places.append((line, column))
        if character == "\n" or (character == "\r" and text[at + 1 : at + 2] != "\n"):
            line, column = line + 1, 0
        elif character != "\r":
            column += units(character)
    return [*places, (line, column)]


UNITS = {
    "utf-8": lambda it: len(it.encode()),
    "utf-16": lambda it: len(it.encode("utf-16-le")) // 2,
    "utf-32": lambda it: 1,
}


def edited(encoding, seed):
    """Random edits with line ends of all kinds, in columns of an encoding, some past a line's end."""
    chance = random.Random(seed)
    uri, log = "file:///e", handshake(encoding)
    text = "".join(chance.choices(WORDS, k=30))
    log += frame(b"E", opened(uri, 0, text))
    for version in range(1, 60):
        places = places_of(text, UNITS[encoding])
        start, end = sorted(chance.choices(places, k=2))
        beyond = (end[0] + 99, 5) if chance.random() < 0.05 else end
        new = "".join(chance.choices(WORDS, k=3))
        log += frame(b"E", changed(uri, version, edit(start, beyond, new)))
        last = len(text) if beyond != end else places.index(end)
        text = text[: places.index(start)] + new + text[last:]
    return log


def long(events, difference=None, lines=400, label="x" * 20):
    """A session of edits and answered requests; the snapshot after one of the edits differs. The answers
    have twenty items with this label."""
    uri = "file:///long.c"
    lines = [f"int value_{number};\n" for number in range(lines)]
    parts, event, version = [handshake(), frame(b"E", opened(uri, 0, "".join(lines)))], 4, 0
    answer = {"items": [{"label": label, "kind": 3}] * 20}
    while event + 4 <= events:
        version += 1
        line = version % len(lines)
        lines[line] = "+" + lines[line]
        id = 10 + version
        parts.append(frame(b"E", changed(uri, version, edit((line, 0), (line, 0), "+"))))
        parts.append(frame(b"E", request(id, "textDocument/completion", {"textDocument": {"uri": uri}})))
        parts.append(frame(b"S", result(id, answer)))
        shown = "".join(lines)
        parts.append(snapshot(uri, version, shown.replace("_9;", "-9;") if event + 1 == difference else shown))
        event += 4
    return b"".join(parts)


def saved(uri, text):
    return notification("textDocument/didSave", {"textDocument": {"uri": uri}, "text": text})


def differs():
    """A snapshot that differs after one of several edits, a follower of it, and then an equal one."""
    uri, lines = "file:///d/differs.c", [f"int value_{at};\n" for at in range(40)]
    log = handshake("utf-8") + frame(b"E", opened(uri, 1, "".join(lines)))
    log += snapshot(uri, 1, "".join(lines))
    for version, line in ((2, 3), (3, 20), (4, 30)):
        lines[line] = f"int é_{version};\n"
        end = len(f"int value_{line};")
        log += frame(b"E", changed(uri, version, edit((line, 0), (line, end), lines[line][:-1])))
        log += frame(b"E", request(version, "textDocument/hover", {"textDocument": {"uri": uri}, "position": {"line": line, "character": 4}}))
        log += frame(b"S", result(version, {"contents": "text"}))
        if version == 3:
            lines[20] = "int e_3;\r\n"
        log += snapshot(uri, version, "".join(lines))
    return log + frame(b"S", notification("window/logMessage", {"type": 3, "message": "done"}))


def longer():
    """The editor's text continues where that of the messages ends."""
    uri = "file:///longer.c"
    return handshake() + frame(b"E", opened(uri, 1, "a\nb\n")) + snapshot(uri, 1, "a\nb\nc")


def saves():
    """A saved text that differs from what the messages say."""
    uri = "file:///s.c"
    return handshake() + b"".join([
        frame(b"E", opened(uri, 1, "a\nb\nc\n")),
        frame(b"E", changed(uri, 2, edit((1, 0), (1, 1), "B"))),
        frame(b"E", saved(uri, "a\nb\nc\n")),
    ])


def unanswered():
    """Requests whose answers break a rule, come after a broken frame, or never come."""
    bad = {"jsonrpc": "2.0", "id": 5, "result": None, "error": {"code": 1, "message": "both"}}
    return handshake() + b"".join([
        frame(b"E", request(4, "textDocument/hover")),
        frame(b"S", request(5, "workspace/configuration")),
        frame(b"E", bad),
        frame(b"E", request(6, "textDocument/rename")),
        frame(b"S", b"{not json"),
        b"S 14\nhello\nworld\r\n\n",
        frame(b"S", result(6, None)),
        frame(b"E", request(7, "shutdown")),
    ])


def refused():
    """An answer to `initialize` that picks an encoding that was not offered, and one that is cut off."""
    answer = {"capabilities": {"positionEncoding": "utf-8"}, "serverInfo": {"name": "picky"}}
    params = {"capabilities": {}, "clientInfo": {"name": "editor", "version": "version 1.2.3 (new)"}}
    return b"lsp-session 1\n" + b"".join([
        frame(b"E", request(1, "initialize", params)),
        frame(b"S", result(1, answer)),
        b"S 25\nContent-Length: 90\r\n\r\n{}{\n",
    ])


def damaged():
    """A log that breaks a rule, and is cut off later."""
    log = handshake() + frame(b"E", changed("file:///never.c", 1, {"text": "x"}))
    return log + frame(b"E", request(3, "textDocument/hover")) + frame(b"S", result(3, None))[:-9]


def noted():
    """A session that breaks no rule, with a note of each kind that messages can have."""
    uri, old = "file:///n <b>.c", "file:///old.c"
    about = {"textDocument": {"uri": uri}}
    answer = {"capabilities": {"textDocumentSync": 2}, "offsetEncoding": "utf-8"}
    renamed = {"files": [{"oldUri": old, "newUri": "file:///new.c"}]}
    return b"lsp-session 2\n" + frame(b"E", request(1, "initialize", {"capabilities": {}})) + b"".join([
        frame(b"S", result(1, answer)),
        frame(b"E", notification("initialized", {})),
        frame(b"E", opened(uri, 1, "a\N{GRINNING FACE}b\nc")),
        snapshot(uri, 1, "a\N{GRINNING FACE}b\nc"),
        frame(b"E", changed(uri, 2, edit((0, 4), (0, 9), "!"))),
        frame(b"E", changed(uri, 3, {**edit((0, 0), (0, 3), "a\N{GRINNING FACE}"), "rangeLength": 2})),
        frame(b"E", request(2, "textDocument/hover", about)),
        frame(b"S", {"jsonrpc": "2.0", "id": 2, "error": {"code": -32602, "message": "not open"}}),
        frame(b"E", opened(old, 1, "x\n")),
        frame(b"E", changed(old, 2, edit((7, 0), (7, 0), "y"))),
        frame(b"E", changed(old, 3, {**edit((0, 0), (0, 1), "z"), "rangeLength": 5})),
        frame(b"E", notification("workspace/didRenameFiles", renamed)),
        frame(b"E", changed(old, 4, edit((0, 0), (0, 0), "w"))),
        frame(b"E", notification("textDocument/completion", about)),
        frame(b"S", request(1, "textDocument/publishDiagnostics")),
        frame(b"E", request(3, "workspace/configuration")),
        frame(b"S", notification("textDocument/didSave", about)),
        frame(b"S", notification("textDocument/publishDiagnostics", {"uri": "file:///N%20%3cb>.c", "diagnostics": []})),
        frame(b"S", notification("textDocument/publishDiagnostics", {"uri": uri, "version": 9, "diagnostics": []})),
        frame(b"E", request(4, "textDocument/formatting", about)),
        frame(b"E", changed(uri, 4, edit((0, 0), (0, 0), "x"))),
        frame(b"S", result(4, [served((1, 0), (1, 1), "d")])),
        frame(b"E", changed(uri, 5, edit((1, 0), (1, 1), "d"))),
        frame(b"E", request(5, "textDocument/rangeFormatting", about)),
        frame(b"S", result(5, [served((0, 0), (0, 2), ""), served((0, 1), (9, 0), "")])),
        frame(b"E", notification("exit", {})),
    ])


def said():
    """Messages of each kind of which a page says something of its own, and some of odd forms."""
    start, end = {"line": 0, "character": 2}, {"line": 4, "character": 0}
    one, other = {"range": {"start": start, "end": end}, "text": "a\n\"é\N{GRINNING FACE}\""}, {"range": {"start": start, "end": start}, "text": ""}
    uri = "file:///said.c"
    progress = {"kind": "report", "title": "t", "message": "m  n", "percentage": 7}
    editor = [
        opened(uri, 1, "x\N{GRINNING FACE}" * 700),
        opened("file:///other.c", 1, "x"),
        changed(uri, 2, one), changed(uri, 3, one, other), changed(uri, 4), changed(uri, 5, {"text": "\N{GRINNING FACE}" * 90}),
        changed(uri, 6, {"range": {"start": start, "end": start}, "text": "\N{GRINNING FACE}" * 50}),
        saved(uri, "x"), notification("textDocument/didSave", {"textDocument": {"uri": uri}}),
        notification("$/cancelRequest", {"id": "x"}), notification("$/cancelRequest", {"id": None}),
        request(2, "workspace/executeCommand", {"command": "do \u2028 this", "arguments": [1]}),
        request(3, "textDocument/rename", {"textDocument": {"uri": uri}, "position": end, "newName": "new\tname"}),
        request(4, "textDocument/hover", {"textDocument": {"uri": uri}, "position": {"line": 2.5, "character": None}}),
        request(5, "textDocument/formatting", {"textDocument": {"uri": uri}, "options": {"tabSize": 4}, "b": 1}),
        request(6, "textDocument/rangeFormatting", {"range": {"start": start, "end": start}}),
        request(7, "textDocument/completion", [1, {"a": [2, None]}]), request(8, "other", {}),
    ]
    server = [
        notification("textDocument/publishDiagnostics", {"uri": uri, "diagnostics": [{"message": "bad"}, {}]}),
        notification("textDocument/publishDiagnostics", {"uri": uri, "diagnostics": []}),
        *(notification(f"window/{name}Message", {"type": kind, "message": "said"}) for kind, name in enumerate(("show", "log"))),
        notification("window/logMessage", {"type": "x", "message": ["a", {"b": 1}, 2.5, None, True]}),
        notification("$/progress", {"token": 7, "value": progress}), notification("$/progress", {"token": "t", "value": {}}),
        request(1, "client/registerCapability", {"registrations": [{"method": "a"}, {}]}),
        request(2, "client/unregisterCapability", {"unregisterations": [{"method": "a"}] * 30}),
        request(3, "workspace/configuration", {"items": [{"section": "s"}, {"section": None}]}),
        result(2, [1, 2]), result(3, {"items": [1], "isIncomplete": True}), result(4, {"contents": {"value": "v"}}),
        result(5, {"contents": ["w", {"x": 1}]}), result(6, "a " * 400), result(7, {"b": 1, "a": {}}),
        {"jsonrpc": "2.0", "id": 8, "error": {"code": -32601, "message": "no\n such"}},
        notification("window/logMessage", {"type": 4, "message": {"1": 99999999999999999999, "x": [99999999999999999999]}}),
    ]
    return handshake() + b"".join([*(frame(b"E", it) for it in editor), *(frame(b"S", it) for it in server)])


def evil():
    """Small logs that attack whoever shows them, by name: in every place that a session has."""
    mark, bytes_of = "\u202e\u2066\x1b[31m", lambda message: json.dumps(message, ensure_ascii=False).encode("utf-8", "surrogatepass")
    offers = {"capabilities": {"general": {"positionEncodings": [f"utf-16{mark}", EVIL]}},
              "clientInfo": {"name": f"{EVIL}{mark}", "version": f"{EVIL} 1.2{mark}"}}
    picks = {"capabilities": {"positionEncoding": f"{EVIL}{mark}"}, "serverInfo": {"name": mark, "version": mark}}
    start = handshake()
    contents = {
        "prototypes": bytes_of({"jsonrpc": "2.0", "id": "__proto__", "method": "constructor", "params": {"__proto__": {"uri": EVIL}}}),
        "surrogates": b'{"jsonrpc":"2.0","method":"m","params":["\\ud800"]}',
        "bytes": b"\xff\xfe\x00{",
        "deep": b'{"jsonrpc":"2.0","method":"m","params":%s1%s}' % (b"[" * 3000, b"]" * 3000),
        "numbers": b'{"jsonrpc":"2.0","id":99999999999999999999,"method":"m","params":[1e999]}',
        "batch": b"[1,2]",
        "keys": bytes_of({"jsonrpc": "2.0", "method": "m", "params": {f"{EVIL}{mark}": mark}}),
        "nothing": b"null",
        "versions": bytes_of({"jsonrpc": "2.0", "method": "textDocument/didChange", "params": {"textDocument": {"uri": mark, "version": 2**70}, "contentChanges": EVIL}}),
    }
    return {
        "encodings": b"lsp-session 2\n" + frame(b"E", request(1, "initialize", offers)) + frame(b"S", result(1, picks)),
        "header": start + b"S 60\n%s\r\n\r\n\n" % f"Content-{EVIL}{mark}: 1".encode()[:56].ljust(56, b"."),
        "snapshot": start + snapshot(f"file:///{mark}{EVIL}", 3, f"\0{mark}{EVIL}\u2028"),
        "damaged": start + f"{EVIL}{mark} 12\n".encode(),
        "only the first line": b"lsp-session 1\n",
        **{name: start + frame(b"E", content) + frame(b"S", content) for name, content in contents.items()},
    }


def unshaken():
    """A message of the server before any of the editor, and a snapshot that nothing is compared with."""
    return b"lsp-session 2\n" + frame(b"S", notification("window/showMessage", {"type": 3, "message": "a"})) + snapshot("file:///u", 1, "u")


def telling():
    """Logs that show what the examples do not, by name."""
    return {
        "differs.log": differs(),
        "longer.log": longer(),
        "saves.log": saves(),
        "unanswered.log": unanswered(),
        "refused.log": refused(),
        "damaged.log": damaged(),
        "joined.log": joined(),
        "noted.log": noted(),
        "unshaken.log": unshaken(),
        "nothing.log": b"lsp-session 2\n",
    }


def unquoted():
    """Documents whose URIs a shell would obey."""
    uris = ["file:///a.c'; touch x; echo '", "file:///$(touch y)`touch z`.c", "file:///a b\n\u202e\x1b.c", "-x"]
    log = handshake()
    for version, uri in enumerate(uris):
        log += frame(b"E", opened(uri, version, f"text of {uri}\n"))
        log += frame(b"E", changed(uri, version + 1, edit((0, 0), (0, 4), "TEXT")))
    return log


def many(events):
    """A session of many small events."""
    uri = "file:///many.c"
    parts = [handshake(), frame(b"E", opened(uri, 0, "a\nb\nc\n"))]
    for version in range(1, (events - 4) // 3 + 1):
        asked = {"textDocument": {"uri": uri}, "position": {"line": 1, "character": 0}}
        parts.append(frame(b"E", changed(uri, version, edit((1, 0), (1, 1), "bcdef"[version % 5]))))
        parts.append(frame(b"E", request(10 + version, "textDocument/hover", asked)))
        parts.append(frame(b"S", result(10 + version, None)))
    return b"".join(parts)


def blocks_of(page):
    """The bytes of each block of data of a page."""
    return {name: zlib.decompress(base64.b64decode(text)) for name, text in BLOCK.findall(page)}


def data_of(page):
    """The index of a page, with its rows as objects, and the contents of its events, None for those that
    were left out."""
    blocks = blocks_of(page)
    index = json.loads(blocks["session"])
    assert len(blocks) == index["blocks"] + 1 + (index["case"] is not None)
    index["rows"] = [dict(zip(index["rows"], row)) for row in zip(*index["rows"].values())]
    contents, filled = [], {}
    for row in index["rows"]:
        name, size = f"contents-{row['block']}", row["bytes"]
        start = filled.get(name, 0)
        contents.append(None if row["block"] < 0 else blocks[name][start : start + size])
        filled[name] = start + (size if row["block"] >= 0 else 0)
    assert all(filled[name] == len(block) for name, block in blocks.items() if name not in ("session", "case"))
    return index, contents
