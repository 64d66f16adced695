"""Damaged sessions and raw streams, each a function of a seed. An undamaged input is generated from
a few messages, or is one of the recorded examples; it is then cut, damaged, repeated, or put in
another order."""

import json
import random
from pathlib import Path

EXAMPLES = Path(__file__).resolve().parent.parent.parent / "examples"
HEADS = [b"lsp-session 1\n", b"lsp-session 2\n"]
LOGS = [head + path.read_bytes()[len(head) :] for path in sorted(EXAMPLES.glob("*.log")) for head in HEADS]
STREAMS = [path.read_bytes() for path in sorted(EXAMPLES.glob("*.bin"))]
if not LOGS or not STREAMS:
    raise FileNotFoundError(f"there are no examples in {EXAMPLES}")
URIS = ["file:///a", "file:///b", "untitled:\u00e9", "", "file:///a%20b"]
TEXTS = ["", "a", "ab\r\ncd", "a\rb\n", "\U0001f600a\u00e9\n", "x" * 300, "\n" * 50, "\u0000", "\ud7ff"]
NUMBERS = [0, 1, 2, 3, -1, 7, 99, 2147483647, 2147483648, -2147483649, 1.5, 1e300, None, "1", [], {}, True]
METHODS = [
    "initialize", "initialized", "shutdown", "exit", "$/cancelRequest", "$/progress", "textDocument/hover",
    "textDocument/didOpen", "textDocument/didChange", "textDocument/didClose", "textDocument/didSave",
    "window/logMessage", "window/showMessageRequest", "client/registerCapability", "telemetry/event", "",
]
ENCODINGS = ["utf-8", "utf-16", "utf-32"]
FIELDS = [b"Content-Type: a; charset=utf-8\r\n", b"Content-Type: a; charset=x\r\n", b"X: y\r\n"]
SPOILS = [b"\x00", b"\n", b"\r", b"{", b"}", b'"', b"\\", b"\xff", b"0", b"9", b" ", b":", b"-", b"E", b"T"]


def number(rng):
    return rng.choice(NUMBERS) if rng.random() < 0.1 else rng.randrange(6)


def document(rng):
    value = {"uri": rng.choice(URIS), "version": number(rng), "text": rng.choice(TEXTS), "languageId": "x"}
    if rng.random() < 0.05:
        del value[rng.choice(sorted(value))]
    return value


def change(rng):
    value = {"text": rng.choice(TEXTS)}
    if rng.random() < 0.7:
        line, column = rng.randrange(4), rng.randrange(6)
        end = {"line": line + rng.randrange(2), "character": column + rng.randrange(-1, 3)}
        value["range"] = {"start": {"line": line, "character": column}, "end": end}
    return value


def params(rng, method):
    if rng.random() < 0.03:
        return rng.choice(NUMBERS)
    return {
        "initialize": {
            "capabilities": {"general": {"positionEncodings": rng.sample([*ENCODINGS, "x"], 2)}},
            "workDoneToken": number(rng),
        },
        "$/cancelRequest": {"id": number(rng)},
        "$/progress": {"token": number(rng), "value": {}},
        "textDocument/didOpen": {"textDocument": document(rng)},
        "textDocument/didChange": {
            "textDocument": document(rng),
            "contentChanges": [change(rng) for _ in range(rng.randrange(4))],
        },
        "textDocument/didClose": {"textDocument": document(rng)},
        "textDocument/didSave": {"textDocument": document(rng), "text": rng.choice(TEXTS)},
        "client/registerCapability": {"registrations": [{"id": "r", "method": rng.choice(METHODS)}]},
    }.get(method, {})


def message(rng):
    value = {"jsonrpc": "2.0"}
    kind = rng.random()
    if kind < 0.3:
        value["id"] = number(rng)
        picked = {"textDocumentSync": rng.randrange(4), "positionEncoding": rng.choice(ENCODINGS)}
        value["result"] = {"capabilities": picked}
    elif kind < 0.35:
        value["id"] = number(rng)
        value["error"] = {"code": number(rng), "message": "m"}
    else:
        method = rng.choice(METHODS)
        value["method"] = method
        value["params"] = params(rng, method)
        if method in ("initialize", "shutdown", "textDocument/hover") or rng.random() < 0.1:
            value["id"] = number(rng)
    if rng.random() < 0.03:
        value.pop(rng.choice(sorted(value)))
    if rng.random() < 0.03:
        return rng.choice([b"", b"[]", b"{", b"null", b"[" * 200, b'{"jsonrpc":"2.0","method":"exit"}x'])
    return json.dumps(value, ensure_ascii=rng.random() < 0.5, separators=(",", ":")).encode("utf-8", "surrogatepass")


def frame(rng, content):
    length = len(content) + (rng.choice([-1, 1, 10**12]) if rng.random() < 0.02 else 0)
    name = b"Content-Length" if rng.random() < 0.98 else rng.choice([b"content-length", b"Content-Lengt", b"X", b""])
    extra = rng.choice(FIELDS) if rng.random() < 0.05 else b""
    return b"%s: %d\r\n%s\r\n%s" % (name, length, extra, content)


def session(rng):
    """The beginning of a session that keeps the rules, and messages that may not."""
    sync = rng.randrange(3)
    yield b"E", b'{"jsonrpc":"2.0","id":0,"method":"initialize","params":{"capabilities":{}}}'
    yield b"S", b'{"jsonrpc":"2.0","id":0,"result":{"capabilities":{"textDocumentSync":%d}}}' % sync
    yield b"E", b'{"jsonrpc":"2.0","method":"initialized","params":{}}'
    for version in range(rng.choice([0, 1, 2, 3, 4, 5, 6, 7, 20])):
        document, text = {"uri": "file:///a", "version": version}, rng.choice(TEXTS[:5])
        if version == 0:
            params = {"textDocument": {**document, "languageId": "x", "text": text}}
        else:
            params = {"textDocument": document, "contentChanges": [{"text": text}]}
        method = "textDocument/didChange" if version else "textDocument/didOpen"
        yield b"E", json.dumps({"jsonrpc": "2.0", "method": method, "params": params}, separators=(",", ":")).encode()
    for _ in range(rng.choice([0, 0, 1, 2, 8])):
        yield rng.choice([b"E", b"S"]), message(rng)


def generated_log(rng):
    out = [rng.choice(HEADS)]
    for side, content in session(rng):
        whole = frame(rng, content)
        cut = rng.randrange(len(whole)) if rng.random() < 0.2 and whole else 0
        for piece in (whole[:cut], whole[cut:]):
            if piece:
                out.append(b"%s %d\n%s\n" % (side, len(piece), piece))
        if rng.random() < 0.2:
            uri, text = rng.choice(URIS).encode(), rng.choice(TEXTS).encode("utf-8", "surrogatepass")
            version = rng.randrange(rng.choice([9, 9, 20]))
            out.append(b"T %d %d %d\n%s\n%s\n" % (version, len(uri), len(text), uri, text))
    return b"".join(out)


def generated_stream(rng):
    return b"".join(frame(rng, content) for _, content in session(rng))


def damaged(rng, data):
    """The bytes with up to four changes."""
    data = bytearray(data)
    for _ in range(rng.choice([0, 0, 0, 1, 1, 2, 4])):
        if not data:
            break
        at = rng.randrange(len(data))
        end = min(len(data), at + 1 + rng.randrange(40))
        kind = rng.randrange(7)
        if kind == 0:
            del data[at:]
        elif kind == 1:
            del data[at:end]
        elif kind == 2:
            data[at : at + 1] = rng.choice(SPOILS)
        elif kind == 3:
            data[at:at] = data[at:end]
        elif kind == 4:
            data[at:at] = bytes(rng.randrange(256) for _ in range(rng.randrange(6)))
        elif kind == 5:
            lines = bytes(data).split(b"\n")
            first, second = rng.randrange(len(lines)), rng.randrange(len(lines))
            lines[first], lines[second] = lines[second], lines[first]
            data = bytearray(b"\n".join(lines))
        else:
            data[at : at + 1] = bytes([data[at] ^ (1 << rng.randrange(8))])
    return bytes(data)


def some(rng, *options):
    """Some of the options, or none."""
    return [option for option in options if rng.random() < 0.3]


def log_words(rng):
    """The words of a run on a log. Those that judge it come more often."""
    count, uri = str(1 + rng.randrange(12)), rng.choice(URIS[:2])
    ends = some(rng, "--ignore-line-ends")
    listed = ["check", rng.choice(["--all", "--every"]), *some(rng, "--complete"), *ends]
    explain = ["explain", *some(rng, "--all", "--complete"), *ends]
    two_texts = ["explain", rng.choice(["--by-messages", "--in-editor"]), *ends]
    show = ["show", *some(rng, "--all", "--long")]
    text = ["text", *some(rng, "--all"), count, uri]
    check = ["check", *ends]
    often = [check, check, ["check", "--complete"], listed, listed, explain, explain, show, show, ["upgrade"], text]
    redact = ["redact", *ends]
    return rng.choice([*often, ["normal"], ["event", count], two_texts, redact])


def case(seed):
    """The words of a run and its standard input."""
    rng = random.Random(seed)
    if rng.random() < 0.25:
        data = rng.choice(STREAMS) if rng.random() < 0.05 else generated_stream(rng)
        words = ["frames", "--as", rng.choice(["lengths", "canonical", "kinds"])]
    else:
        data = rng.choice(LOGS) if rng.random() < 0.05 else generated_log(rng)
        words = log_words(rng)
    return words, damaged(rng, data)
