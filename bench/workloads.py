"""Generated sessions for measuring: each function yields the pieces of one log, from a fixed seed."""
import json
import random

RECORD = 1 << 20
URI = "file:///src/main.rs"
WORDS = "let mut value count items self result match return where struct trait impl for in of {} () => ;".split()


def words(rng, size):
    """Source text without line ends, of about this many characters."""
    out = []
    while size > 0:
        out.append(rng.choice(WORDS))
        size -= len(out[-1]) + 1
    return " ".join(out)


def as_json(value):
    return json.dumps(value, ensure_ascii=False, separators=(",", ":"))


def records(side, content):
    """The records of one message, as its frame."""
    content = content.encode()
    frame = b"Content-Length: %d\r\n\r\n%s" % (len(content), content)
    for at in range(0, len(frame), RECORD):
        piece = frame[at : at + RECORD]
        yield b"%s %d\n%s\n" % (side, len(piece), piece)


def call(method, params, id=None):
    message = {"jsonrpc": "2.0", "method": method, "params": params}
    if id is not None:
        message["id"] = id
    return as_json(message)


def answer(id, result):
    return as_json({"jsonrpc": "2.0", "id": id, "result": result})


def snapshot(uri, version, text):
    uri, text = uri.encode(), text.encode()
    yield b"T %d %d %d\n%s\n%s\n" % (version, len(uri), len(text), uri, text)


def start(sync):
    yield b"lsp-session 1\n"
    yield from records(b"E", call("initialize", {"processId": 1, "rootUri": None, "capabilities": {}}, 0))
    yield from records(b"S", answer(0, {"capabilities": {"textDocumentSync": sync, "hoverProvider": True}}))
    yield from records(b"E", call("initialized", {}))


def end():
    yield from records(b"E", call("shutdown", None, 0))
    yield from records(b"S", answer(0, None))
    yield from records(b"E", call("exit", None))


def opens(uri, text):
    document = {"uri": uri, "languageId": "rust", "version": 1, "text": text}
    return records(b"E", call("textDocument/didOpen", {"textDocument": document}))


def changes(uri, version, change):
    # Written out, since most of a workload consists of these.
    return records(b"E", '{"jsonrpc":"2.0","method":"textDocument/didChange","params":{"textDocument":{"uri":"%s","version":%d},'
                   '"contentChanges":[%s]}}' % (uri, version, change))


def replaces(line, first, to, second, text):
    return '{"range":{"start":{"line":%d,"character":%d},"end":{"line":%d,"character":%d}},"text":%s}' % (line, first, to, second, as_json(text))


class Document:
    """Lines of ASCII, and a cursor that types in them."""

    def __init__(self, rng, uri, count, width=40):
        self.uri, self.version = uri, 1
        self.lines = [words(rng, rng.randint(width // 2, width * 3 // 2)) for _ in range(count)]
        self.line = self.column = 0

    def text(self):
        return "\n".join(self.lines)

    def key(self, rng, line_ends=4):
        """One key: a letter, a backspace, or, with this percentage, an added or removed line end."""
        self.version += 1
        what = rng.randrange(100)
        if rng.randrange(100) == 0:
            self.line = rng.randrange(len(self.lines))
            self.column = rng.randint(0, len(self.lines[self.line]))
        line, column, text = self.line, self.column, self.lines[self.line]
        if what < line_ends // 2:
            self.lines[line : line + 1] = [text[:column], text[column:]]
            self.line, self.column = line + 1, 0
            return replaces(line, column, line, column, "\n")
        if what < line_ends and line + 1 < len(self.lines):
            self.lines[line : line + 2] = [text + self.lines[line + 1]]
            return replaces(line, len(text), line + 1, 0, "")
        if what < line_ends + 8 and column > 0:
            self.lines[line] = text[: column - 1] + text[column:]
            self.column -= 1
            return replaces(line, column - 1, line, column, "")
        letter = rng.choice("abcdefghijklmnopqrstuvwxyz (){};._")
        self.lines[line] = text[:column] + letter + text[column:]
        self.column += 1
        return replaces(line, column, line, column, letter)


def typing(rng, lines=10_000, line_ends=4):
    """Typing in one document, with a snapshot every 1,000 changes."""
    yield from start(2)
    document = Document(rng, URI, lines)
    yield from opens(URI, document.text())
    while True:
        change = document.key(rng, line_ends)
        yield from changes(URI, document.version, change)
        if document.version % 1000 == 0:
            yield from snapshot(URI, document.version, document.text())


def long_document(rng):
    """Typing that adds and removes lines in a document of 100,000 lines."""
    yield from typing(rng, 100_000, 40)


def many_documents(rng, count=2000):
    """Typing in 2,000 documents by turns, some of them closed and others opened."""
    yield from start(2)
    made = 0
    documents = []
    while len(documents) < count:
        made += 1
        documents.append(Document(rng, "file:///src/module_%d/file_%d.rs" % (made % 97, made), rng.randint(20, 400)))
        yield from opens(documents[-1].uri, documents[-1].text())
    while True:
        at = rng.randrange(count)
        document = documents[at]
        if rng.randrange(100) == 0:
            yield from records(b"E", call("textDocument/didClose", {"textDocument": {"uri": document.uri}}))
            made += 1
            documents[at] = Document(rng, "file:///src/module_%d/file_%d.rs" % (made % 97, made), rng.randint(20, 400))
            yield from opens(documents[at].uri, documents[at].text())
            continue
        change = document.key(rng)
        yield from changes(document.uri, document.version, change)
        if rng.randrange(50) == 0:
            yield from snapshot(document.uri, document.version, document.text())


def requests(rng):
    """Requests whose results have 1 to 200 KB, the small ones more often."""
    yield from start(2)
    samples = [words(rng, 300) for _ in range(64)]
    id = 0
    while True:
        id += 1
        position = {"line": rng.randrange(9000), "character": rng.randrange(80)}
        params = {"textDocument": {"uri": URI}, "position": position}
        yield from records(b"E", call("textDocument/completion", params, id))
        size = rng.choice([2_000, 4_000, 8_000, 20_000, 50_000, 200_000]) * rng.random() + 1000
        items = []
        while size > 0:
            label, text = "method_%d" % rng.randrange(100_000), rng.choice(samples)
            edit = {"range": {"start": position, "end": position}, "newText": label + "($1)$0"}
            items.append({"label": label, "kind": rng.randint(1, 25), "detail": text[:40], "documentation": {"kind": "markdown", "value": text},
                          "sortText": "%08x" % rng.randrange(1 << 32), "insertTextFormat": 2, "textEdit": edit, "data": {"hash": rng.randrange(1 << 52)}})
            size -= 560
        yield from records(b"S", answer(id, {"isIncomplete": False, "items": items}))


def full_texts(rng):
    """A document of 200 KB that is sent whole with each change."""
    yield from start(1)
    document = Document(rng, URI, 5000)
    yield from opens(URI, document.text())
    while True:
        document.key(rng)
        yield from changes(URI, document.version, as_json({"text": document.text()}))
        if document.version % 10 == 0:
            yield from snapshot(URI, document.version, document.text())


def one_line(rng):
    """Edits in one line of 1 MB of mixed characters; columns count UTF-16 units."""
    yield from start(2)
    pieces = ["漢字", "かな", "\U0001f600", "var x=1;", "é", "𠮷野", "한국어", "f(a,b);", "ж", " "]
    blocks = ["".join(rng.choice(pieces) for _ in range(400)) for _ in range(500)]
    units = [len(block.encode("utf-16-le")) // 2 for block in blocks]
    yield from opens(URI, "".join(blocks))
    version, block, at = 1, 0, 0
    while True:
        version += 1
        if rng.randrange(20) == 0:
            block = rng.randrange(len(blocks))
            at = rng.randint(0, len(blocks[block]))
        text = blocks[block]
        column = sum(units[:block]) + len(text[:at].encode("utf-16-le")) // 2
        if rng.randrange(10) == 0 and at < len(text):
            blocks[block] = text[:at] + text[at + 1 :]
            change = replaces(0, column, 0, column + len(text[at].encode("utf-16-le")) // 2, "")
        else:
            letter = rng.choice(pieces)[0]
            blocks[block] = text[:at] + letter + text[at:]
            at += 1
            change = replaces(0, column, 0, column, letter)
        units[block] = len(blocks[block].encode("utf-16-le")) // 2
        yield from changes(URI, version, change)
        if version % 1000 == 0:
            yield from snapshot(URI, version, "".join(blocks))


def cancels(rng):
    """Requests that are cancelled at once and answered with an error."""
    yield from start(2)
    id = 0
    while True:
        id += 1
        position = {"line": rng.randrange(9000), "character": rng.randrange(80)}
        yield from records(b"E", call("textDocument/hover", {"textDocument": {"uri": URI}, "position": position}, id))
        yield from records(b"E", call("$/cancelRequest", {"id": id}))
        yield from records(b"S", as_json({"jsonrpc": "2.0", "id": id, "error": {"code": -32800, "message": "cancelled"}}))


def empty_lines(rng, count=3_000_000):
    """Typing at the fronts of the empty lines of one document."""
    yield from start(2)
    yield from opens(URI, "\n" * count)
    version = 1
    while True:
        version += 1
        line = rng.randrange(count)
        yield from changes(URI, version, replaces(line, 0, line, 0, rng.choice("abcdefghijklmnopqrstuvwxyz")))


WORKLOADS = {
    "typing": typing,
    "long-document": long_document,
    "many-documents": many_documents,
    "requests": requests,
    "full-texts": full_texts,
    "one-line": one_line,
    "cancels": cancels,
    "empty-lines": empty_lines,
}


def in_format(pieces, format):
    """The pieces of a log, whose first line is that of the format."""
    next(pieces)
    yield b"lsp-session %d\n" % format
    yield from pieces


def write(name, size, path, format=1):
    """Writes the workload of this name, of about this many bytes, as a log of the format."""
    rng = random.Random(1)
    written = 0
    with open(path, "wb") as out:
        for piece in in_format(WORKLOADS[name](rng), format):
            out.write(piece)
            written += len(piece)
            if written >= size:
                break
        for piece in end():
            out.write(piece)
