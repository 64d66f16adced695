#!/usr/bin/env python3
"""A server for the tests of lspcheck-fuzz, with faults that its arguments name. It has none of the
stores of that command.

  characters, bytes        counts columns in these               units       counts UTF-16 units, whatever was agreed
  cr                       a lone CR ends no line                crlf        CR LF ends two lines
  formfeed, separators     a form feed ends a line; and all that Python splits lines at
  past=HOW                 a column past the end of a line: next (runs into the next line), after (is after
                           the line end), ignored (the change), dropped (the document), go (ignored, and so is
                           a line past the last one; but the first column of the line after that is the end,
                           and an empty text has no line)
  beyond[=alone]           a change with a line past the last one is ignored, with all of its message or alone
  disk                     the text of a didOpen is ignored: there is no file
  ignores=WORD             ignores a change to a text with this word   drops=WORD   drops the document at one
  dies=WORD                ends at one                                 backwards    makes the changes of a message backwards
  first, final             makes the first change of a message, or the last one
  together                 takes all ranges of a message for those of the text before it
  whole                    ignores changes without a range             gaps         ignores a version that leaves some out
  keeps                    keeps the text of a closed document         lf           takes CR LF for LF in what is opened
  nfc                      composes characters                         newline      adds a line end to the last line
  length                   ignores a change with a rangeLength         busy         ignores changes while a request is open
  closed                   ends a range one column later               narrow       has 8 bits for a column
  many=N                   ignores changes of documents that are opened after N others
  ends=N                   ends at its N-th message                    offerless    answers no questions
  utf-8, utf-32            takes this encoding, if it is offered       full         wants whole texts
  late=S                   answers by the text of S seconds ago        now          answers otherwise each time
  silent                   answers no question                         breaks       answers without "jsonrpc"
  child=F                  starts a process, and writes its id to F    none         wants no changes
  slow=S                   answers after S seconds                    formats      formats, and so shows its text
  noisy                    writes a megabyte to standard error at each change   large   sends 30 MB at once
  asks                     sends a request at each change             stays        ends only if it is killed
  deep=N                   answers with lists in lists, N of them      errors      answers with errors alone
  strict                   ends at a question about a document that is not open
  hangs=N                  answers nothing any more once it dropped N documents that it was not asked about
"""

import json
import os
import re
import signal
import sys
import time
import unicodedata

FAULTS = dict(word.partition("=")[::2] for word in sys.argv[1:])
DECLARED = re.compile(r"\bint (\w+)\s*;|^(\w+) = 0$")
OFFERS = {"documentSymbolProvider": True, "foldingRangeProvider": True}
PYTHON = "\v\f\x1c\x1d\x1e\x85\u2028\u2029"


class Lost(Exception):
    """A change that is not made, or a document that is dropped."""


# How a text is encoded, and how many bytes a column then has.
ENCODED = {"utf-8": ("utf-8", 1), "utf-16": ("utf-16-le", 2), "utf-32": ("utf-32-le", 4)}
COUNTED = {"characters": "utf-32", "bytes": "utf-8", "units": "utf-16"}


def counted(encoding):
    return ENCODED[next((COUNTED[it] for it in COUNTED if it in FAULTS), encoding)]


def line_ends():
    """What ends a line, as a pattern."""
    if "cr" in FAULTS:
        kinds = ["\r\n", "\n"]
    else:
        kinds = ["\n", "\r"] if "crlf" in FAULTS else ["\r\n", "\n", "\r"]
    return "|".join([*kinds, *(PYTHON if "separators" in FAULTS else "\f" if "formfeed" in FAULTS else "")])


LINE_END = re.compile(line_ends())


def walked(text, at, end, column, encoding):
    """Where one is after this many columns, but not past an end, and how many are left. What a column
    cuts is passed."""
    name, size = counted(encoding)
    encoded = text[at:end].encode(name)
    passed = len(encoded[: size * column].decode(name, "ignore"))
    is_cut = len(text[at : at + passed].encode(name)) < min(size * column, len(encoded))
    return at + passed + is_cut, column - len(encoded) // size


class Document:
    def __init__(self, text, version, encoding):
        self.text, self.version, self.encoding = text, version, encoding
        self.earlier = [(time.monotonic(), text)]

    def set(self, text):
        self.text = text
        self.earlier.append((time.monotonic(), text))

    def shown(self):
        late = time.monotonic() - float(FAULTS.get("late", 0))
        return next((text for when, text in reversed(self.earlier) if when <= late), self.earlier[0][1])

    def index(self, text, place):
        """Where a position is, walking through its line."""
        ends = list(LINE_END.finditer(text))
        line, column = place["line"], place["character"]
        column = column & 255 if "narrow" in FAULTS else column
        is_go, count = FAULTS.get("past") == "go", len(ends) + 1 if text else 0
        if line > len(ends) or is_go and (line, column) == (count, 0):
            if "beyond" in FAULTS or is_go and (line, column) != (count, 0):
                raise Lost
            return len(text)
        start = ends[line - 1].end() if line else 0
        end, after = ends[line].span() if line < len(ends) else (len(text), len(text))
        at, left = walked(text, start, end, column, self.encoding)
        return self.past(text, at, left, after) if left > 0 else at

    def past(self, text, at, left, after):
        """Where a column is that is this far past the end of its line, which ends `at`."""
        how = FAULTS.get("past")
        if how in ("ignored", "dropped", "go"):
            raise Lost
        if how == "next":
            return walked(text, at, len(text), left, self.encoding)[0]
        return after if how == "after" else at

    def change(self, change, meant=None):
        text = self.text if meant is None else meant
        new = change["text"]
        if "nfc" in FAULTS:
            new = unicodedata.normalize("NFC", new)
        if "range" not in change:
            if "whole" not in FAULTS:
                self.set(new)
            return
        if "length" in FAULTS and "rangeLength" in change:
            return
        try:
            start, end = (self.index(text, change["range"][it]) for it in ("start", "end"))
        except Lost:
            if FAULTS.get("beyond") == "alone":
                return
            raise
        if "closed" in FAULTS and end > start:
            end += end < len(text) and text[end] not in "\r\n"
        self.set(self.text[:start] + new + self.text[max(start, end) :])


def folds(text):
    """Each run of lines that are indented."""
    start = None
    for number, line in enumerate([*re.split("\r\n|\n|\r", text), ""]):
        if line.startswith((" ", "\t")):
            start = number if start is None else start
        elif start is not None:
            yield {"startLine": start, "endLine": number - 1}
            start = None


def symbols(text):
    """What is declared, by lines and columns of whatever kind."""
    for number, line in enumerate(re.split("\r\n|\n|\r", text)):
        for found in DECLARED.finditer(line):
            places = [{"line": number, "character": it} for it in found.span(1 if found[1] else 2)]
            place = dict(zip(("start", "end"), places))
            yield {"name": found[1] or found[2], "kind": 13, "range": place, "selectionRange": place}


def formatted(text):
    """The whole text, as it is."""
    place = {"start": {"line": 0, "character": 0}, "end": {"line": text.count("\n") + 1, "character": 0}}
    yield {"range": place, "newText": text}


ANSWERS = {"textDocument/documentSymbol": symbols, "textDocument/foldingRange": folds}
if "formats" in FAULTS:
    ANSWERS["textDocument/formatting"], OFFERS["documentFormattingProvider"] = formatted, True


class Server:
    def __init__(self):
        self.documents, self.closed, self.encoding = {}, {}, "utf-16"
        self.heard, self.is_asked, self.opened, self.asked = 0, False, 0, 0
        # How many documents were dropped that are not among those that it was asked about.
        self.dropped, self.known = 0, set()

    def send(self, **message):
        head = {} if "breaks" in FAULTS and "result" in message else {"jsonrpc": "2.0"}
        self.put(json.dumps({**head, **message}))

    def put(self, content):
        sys.stdout.buffer.write(b"Content-Length: %d\r\n\r\n%s" % (len(content.encode()), content.encode()))
        sys.stdout.buffer.flush()

    def greet(self, id, params):
        offered = params["capabilities"]["general"]["positionEncodings"]
        wanted = next((it for it in ("utf-8", "utf-32") if it in FAULTS and it in offered), None)
        self.encoding = wanted or "utf-16"
        sync = 0 if "none" in FAULTS else 1 if "full" in FAULTS else 2
        offers = {} if "offerless" in FAULTS else OFFERS
        chosen = {"positionEncoding": wanted} if wanted else {}
        self.send(id=id, result={"capabilities": {"textDocumentSync": sync, **offers, **chosen}})

    def answer(self, message):
        method, params = message["method"], message.get("params") or {}
        time.sleep(float(FAULTS.get("slow", 0)))
        uri = (params.get("textDocument") or {}).get("uri")
        document = self.documents.get(uri)
        self.known.add(uri)
        if method == "initialize":
            self.greet(message["id"], params)
        elif method not in ANSWERS or "silent" in FAULTS:
            if method == "shutdown":
                self.send(id=message["id"], result=None)
            elif "silent" not in FAULTS:
                self.send(id=message["id"], error={"code": -32601, "message": "no such method"})
        elif document is None and "strict" in FAULTS:
            sys.exit(3)
        elif document is None or "errors" in FAULTS:
            self.send(id=message["id"], error={"code": -32602, "message": "no such document"})
        elif "deep" in FAULTS:
            lists = "[" * int(FAULTS["deep"]) + "]" * int(FAULTS["deep"])
            self.put(f'{{"jsonrpc":"2.0","id":{json.dumps(message["id"])},"result":{lists}}}')
        else:
            found = list(ANSWERS[method](document.shown()))
            self.send(id=message["id"], result=[*found, *([{"now": time.time()}] if "now" in FAULTS else [])])

    def open(self, document):
        text, uri = document["text"], document["uri"]
        text = "" if "disk" in FAULTS else text
        text = text.replace("\r\n", "\n") if "lf" in FAULTS else text
        text = unicodedata.normalize("NFC", text) if "nfc" in FAULTS else text
        text += "\n" if "newline" in FAULTS and not text.endswith(("\r", "\n")) else ""
        if "keeps" in FAULTS:
            text = self.closed.get(uri, text)
        self.documents[uri] = Document(text, document["version"], self.encoding)
        self.documents[uri].is_late = self.opened >= int(FAULTS.get("many", 1 << 30))
        self.opened += 1

    def change(self, uri, version, changes):
        document = self.documents[uri]
        is_lost = "gaps" in FAULTS and version > document.version + 1 or "busy" in FAULTS and self.is_asked
        document.version = version
        if is_lost or document.is_late:
            return
        changes = changes[::-1] if "backwards" in FAULTS else changes
        changes = changes[:1] if "first" in FAULTS else changes[-1:] if "final" in FAULTS else changes
        before, meant = document.text, document.text if "together" in FAULTS else None
        try:
            for it in changes:
                self.check(it["text"])
                document.change(it, meant)
        except Lost as lost:
            document.set(before)
            if FAULTS.get("past") == "dropped" or lost.args:
                del self.documents[uri]
                self.dropped += uri not in self.known
            if self.dropped >= int(FAULTS.get("hangs", 1 << 30)):
                signal.pause()

    def check(self, text):
        if FAULTS.get("dies", "\0") in text:
            sys.exit(3)
        if FAULTS.get("ignores", "\0") in text:
            raise Lost
        if FAULTS.get("drops", "\0") in text:
            raise Lost("document")

    def hear(self, method, params):
        document = (params or {}).get("textDocument") or {}
        uri = document.get("uri")
        if method == "exit":
            if "stays" in FAULTS:
                signal.pause()
            sys.exit(0)
        elif method == "textDocument/didOpen":
            self.open(document)
        elif method == "textDocument/didClose" and uri in self.documents:
            self.closed[uri] = self.documents.pop(uri).text
        elif method == "textDocument/didChange" and uri in self.documents:
            self.change(uri, document["version"], params["contentChanges"])
            self.disturb()
        elif method == "initialized" and "large" in FAULTS:
            self.send(method="window/logMessage", params={"type": 4, "message": "x" * 30_000_000})

    def disturb(self):
        """Sends what a client should bear."""
        if "noisy" in FAULTS:
            sys.stderr.write("out of luck\n" * 90_000)
        if "asks" in FAULTS:
            self.asked += 1
            self.send(id=f"of-server-{self.asked}", method="workspace/configuration", params={"items": [{}]})

    def take(self, message):
        self.heard += 1
        if self.heard == int(FAULTS.get("ends", -1)):
            sys.exit(3)
        if "id" in message and "method" in message:
            self.is_asked = message["method"] == "textDocument/hover"
            self.answer(message)
        elif "method" in message:
            self.hear(message["method"], message.get("params"))
            self.is_asked = False


def messages():
    """Each message that comes."""
    file = sys.stdin.buffer
    while head := file.readline():
        size = int(head.partition(b":")[2])
        file.readline()
        yield json.loads(file.read(size))


def main():
    if "stays" in FAULTS:
        signal.signal(signal.SIGTERM, signal.SIG_IGN)
    if "child" in FAULTS:
        # The servers are many, and few of them need it.
        import subprocess
        child = subprocess.Popen(["sleep", "1000"], stdout=subprocess.DEVNULL, stderr=subprocess.DEVNULL)
        with open(FAULTS["child"], "a") as file:
            file.write(f"{os.getpid()} {child.pid}\n")
    server = Server()
    for message in messages():
        server.take(message)


if __name__ == "__main__":
    main()
