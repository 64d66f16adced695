#!/usr/bin/env python3
"""A server for the tests, with faults that its arguments name. It keeps texts in its own simple way.

  lose=N       loses the Nth didChange                      gaps       ignores a version that skips one
  characters   counts columns in characters                 bytes      counts them in bytes
  backwards    applies the changes of a message backwards   last       is one column off in the last line
  twolineends  takes CR LF for two line ends                nolineend  takes a lone CR for none
  length       drops a document if a rangeLength is wrong   open       drops what comes before a hover's answer
  otherwise    answers otherwise each time                  late=S     answers by the text of S seconds ago
  first=N:F    loses a change to "b" in the first N processes that get one, which it counts in the file F
  keeps      has the old text if a document is reopened
  silent=N     answers no request from the Nth on           ends=N     ends at its Nth message
  slow=S       answers after S seconds                      noisy      floods standard error
  large        sends a frame of 50 MB after a change        child=F    starts a process, and writes its id
  deaf         reads nothing, and ignores signals           refuse=M   answers the method M with an error
  broken       sends bytes that are not frames              utf-8      counts columns in bytes, and says so
  ask          asks the editor after each didOpen for its settings, for two edits, and for nonsense
  mute=M       never answers the method M                   offerless  offers none of the questions
  closed       knows no document                            picky      fails if a text has an X
  careless     answers without "jsonrpc"                    own        has an answer of its own in each process
  one          takes one change of a message, the first
  defs[=WORD]  has nothing but the names that `def` or `int`, or this word, declare
  complains    publishes these names as diagnostics, and has nothing else  pulls   has them as such if it is asked
  trails       publishes how each line ends, as diagnostics                lags=S  takes S seconds to set a text
  dies=T       ends at a change to the text T                              wholeless  ignores changes of the whole text
  opens=HOW    takes the text of a didOpen otherwise: as "" (ignored), from the disk, without CR (crlf), up to a NUL
               (nul), without a byte order mark (bom), composed (nfc), or with a line end too many (newline)
  forgets=N    loses the Nth didOpen
  saved        answers by the text that was opened or saved last   says=T     says so on standard error at a change to T
  modified=N   answers the first N questions in each process with an error that passes
  scoped       has the names of settings, which it asks for in turns   folders  has the folders that are added
  busy=N:F     does not answer symbols in the first N processes that are asked, which it counts in the file F
  tells        gives its text itself                                 refuses    answers initialize with an error
  deep=N       answers with lists in lists, N of them
"""

import json
import os
import re
import select
import signal
import sys
import time
import unicodedata

FAULTS = dict(word.partition("=")[::2] for word in sys.argv[1:])
UNITS = {"characters": lambda it: 1, "bytes": lambda it: len(it.encode()), "utf-8": lambda it: len(it.encode())}
WIDTH = next((UNITS[it] for it in UNITS if it in FAULTS), lambda it: 1 + (it > "\uffff"))
ENDS = "\r|\n" if "twolineends" in FAULTS else "\r\n|\n" if "nolineend" in FAULTS else "\r\n|\n|\r"


class Text:
    """A document; `earlier` are its texts with the times at which they were set."""

    def __init__(self, text, version):
        self.earlier, self.version, self.is_lost, self.saved = [], version, False, text
        self.set(text)

    def set(self, text):
        self.text = text
        self.earlier.append((time.monotonic(), text))

    def shown(self):
        """The text that answers are about."""
        if "saved" in FAULTS:
            return self.saved
        late = time.monotonic() - float(FAULTS.get("late", 0))
        return next((text for when, text in reversed(self.earlier) if when <= late), self.earlier[0][1])

    def offset(self, position):
        starts = [0, *(it.end() for it in re.finditer(ENDS, self.text))]
        if position["line"] >= len(starts):
            return len(self.text)
        at, column = starts[position["line"]], position["character"]
        if "last" in FAULTS and position["line"] == len(starts) - 1:
            column -= column > 0
        while column > 0 and at < len(self.text) and self.text[at] not in "\r\n":
            column -= WIDTH(self.text[at])
            at += 1
        return at

    def change(self, change):
        if change.get("range") is None:
            return self.set(self.text if "wholeless" in FAULTS else change["text"])
        start, end = (self.offset(change["range"][it]) for it in ("start", "end"))
        length = sum(1 + (it > "\uffff") for it in self.text[start:end])
        self.is_lost |= "length" in FAULTS and change.get("rangeLength", length) != length
        return self.set(self.text[:start] + change["text"] + self.text[end:])


def lines(text):
    return re.split("\r\n|\n|\r", text)


def position(line, character):
    return {"line": line, "character": character}


def folds(text):
    """A range for each line with more deeply indented ones below it."""
    depths = [len(it) - len(it.lstrip()) if it.strip() else None for it in lines(text)]
    for first, depth in enumerate(depths):
        last = first
        while depth is not None and last + 1 < len(depths) and (depths[last + 1] or 0) > depth:
            last += 1
        if last > first:
            yield {"startLine": first, "endLine": last}


def whole(text):
    return {"start": position(0, 0), "end": position(len(lines(text)), 0)}


def symbols(text):
    for number, line in enumerate(lines(text)):
        place = {"start": position(number, 0), "end": position(number, sum(map(WIDTH, line)))}
        yield {"name": line or "-", "kind": 13, "range": place, "selectionRange": place, "data": time.time()}


DECLARED = re.compile(rf"(?:{FAULTS.get('defs') or 'def|int'}) (\w+)|void (\w+)\(\) \{{")


def declared(text):
    """Symbols of what is declared, wherever it is. A function is never closed, so it ends with the text."""
    split = lines(text)
    for number, line in enumerate(split):
        for found in DECLARED.finditer(line):
            start, end = found.span(found.lastindex)
            place = {"start": position(number, start), "end": position(number, end)}
            reach = place if found[1] else {**place, "end": position(len(split) - 1, len(split[-1]))}
            yield {"name": found[found.lastindex], "kind": 13, "range": reach, "selectionRange": place}


def has_come(fault):
    """Whether this process is one of the first N that get here, which are counted in a file."""
    most, _, counted = FAULTS[fault].partition(":")
    with open(counted, "a+") as file:
        file.write("x")
        return file.tell() <= int(most)


def text_on_disk(uri):
    """The text of a file, or an empty one. What it needs takes long to import, and tests start many servers."""
    from pathlib import Path
    from urllib.parse import unquote

    path = Path(unquote(uri[7:]))
    return path.read_text() if path.is_file() else ""


# How a didOpen is taken otherwise.
TAKEN = {
    "ignored": lambda uri, text: "",
    "disk": lambda uri, text: text_on_disk(uri),
    "crlf": lambda uri, text: text.replace("\r\n", "\n"),
    "nul": lambda uri, text: text.partition("\0")[0],
    "bom": lambda uri, text: text.lstrip("\ufeff"),
    "nfc": lambda uri, text: unicodedata.normalize("NFC", text),
    "newline": lambda uri, text: text + "\n",
}

def complaints(text):
    """A diagnostic about each name that is declared."""
    return [{"range": it["range"], "message": f"unused: {it['name']}"} for it in declared(text)]


def trailing(text):
    """A diagnostic about the end of each line."""
    return [{"range": whole(text), "message": it[-2:]} for it in lines(text)]


# What is published about a text.
PUBLISHED = {"complains": complaints, "trails": trailing}

ANSWERS = {
    "textDocument/formatting": lambda text: [{"range": whole(text), "newText": text}],
    "textDocument/foldingRange": lambda text: list(folds(text)),
    "textDocument/documentSymbol": lambda text: list(symbols(text)),
    "textDocument/hover": lambda text: {"contents": str(len(text))},
    "textDocument/diagnostic": lambda text: {"kind": "full", "items": complaints(text)},
}
OFFERS = {"documentFormattingProvider": True, "foldingRangeProvider": True, "documentSymbolProvider": True,
          "hoverProvider": True, "textDocumentSync": {"openClose": True, "change": 2}}
# What is offered with faults that are about that.
FEWER = {
    "offerless": {},
    "defs": {it: OFFERS[it] for it in ("documentSymbolProvider", "textDocumentSync")},
    "complains": {"textDocumentSync": OFFERS["textDocumentSync"]},
    "pulls": {"textDocumentSync": OFFERS["textDocumentSync"], "diagnosticProvider": {}},
}


class Server:
    def __init__(self):
        self.texts, self.closed, self.held = {}, {}, b""
        self.count = self.requests = self.changes = self.answered = self.opened = 0
        # What shows in its answers, but in no text.
        self.more = []
        self.is_busy = None

    def send(self, **message):
        head = {} if "careless" in FAULTS and "result" in message else {"jsonrpc": "2.0"}
        depth = int(FAULTS.get("deep", 0))
        content = json.dumps({**head, **message}).replace('"deep"', "[" * depth + "]" * depth).encode()
        sys.stdout.buffer.write(b"Content-Length: %d\r\n\r\n%s" % (len(content), content))
        sys.stdout.buffer.flush()

    def next(self, seconds=None):
        """The next message, or None after some seconds."""
        while not (head := re.match(rb"Content-Length: (\d+)\r\n\r\n", self.held)) or len(
            self.held) < head.end() + int(head[1]):
            if not select.select([0], [], [], seconds)[0]:
                return None
            data = os.read(0, 1 << 16)
            if not data:
                sys.exit(0)
            self.held += data
        content = self.held[head.end() : head.end() + int(head[1])]
        self.held = self.held[head.end() + int(head[1]) :]
        return json.loads(content)

    def take(self, message):
        self.count += 1
        if self.count == int(FAULTS.get("ends", -1)):
            print("out of luck\n\x1b[31mat the end", file=sys.stderr)
            sys.exit(3)
        if "settings-" in str(message.get("id")) and "scoped" in FAULTS:
            self.more = [{"name": str(it)} for it in message["result"]]
        if "method" in message:
            self.answer(message) if "id" in message else self.hear(message["method"], message.get("params"))

    def answer(self, message):
        self.requests += 1
        time.sleep(float(FAULTS.get("slow", 0)))
        method, params = message["method"], message.get("params") or {}
        if "open" in FAULTS and method == "textDocument/hover":
            self.next(10)
        if self.requests >= int(FAULTS.get("silent", 1 << 30)) or method == FAULTS.get("mute"):
            return
        text = self.texts.get(params.get("textDocument", {}).get("uri"))
        if method == "initialize":
            self.greet(message["id"])
        elif method == "rust-analyzer/viewFileText":
            self.send(id=message["id"], result=self.texts[params["uri"]].text)
        elif method == FAULTS.get("refuse") or method in ANSWERS and (
                text is None or text.is_lost or "picky" in FAULTS and "X" in text.text):
            self.send(id=message["id"], error={"code": -32602, "message": "no such document"})
        else:
            self.send_result(message["id"], method, text)

    def greet(self, id):
        if "refuses" in FAULTS:
            return self.send(id=id, error={"code": -32603, "message": "not today"})
        offers = next((FEWER[it] for it in FEWER if it in FAULTS), OFFERS)
        offers = {**offers, **({"positionEncoding": "utf-8"} if "utf-8" in FAULTS else {})}
        name = {"serverInfo": {"name": "rust-analyzer"}} if "tells" in FAULTS else {}
        return self.send(id=id, result={"capabilities": offers, **name})

    def send_result(self, id, method, text):
        result = ANSWERS[method](text.shown()) if method in ANSWERS else None
        if method == "textDocument/documentSymbol":
            result = [*(declared(text.shown()) if "defs" in FAULTS else result), *self.more]
            if "busy" in FAULTS and self.is_busy is None:
                self.is_busy = has_come("busy")
            if self.is_busy:
                return
        self.answered += 1
        if self.answered <= int(FAULTS.get("modified", 0)):
            return self.send(id=id, error={"code": -32801, "message": "content modified"})
        if "otherwise" in FAULTS and isinstance(result, list):
            result = [*result, {"now": self.answered}]
        if "own" in FAULTS and isinstance(result, list):
            result = [*result, {"own": os.getpid()}]
        self.send(id=id, result="deep" if "deep" in FAULTS and isinstance(result, list) else result)

    def open(self, uri, document):
        self.opened += 1
        if self.opened == int(FAULTS.get("forgets", -1)):
            return
        kept = self.closed.get(uri) if "keeps" in FAULTS else None
        text = TAKEN.get(FAULTS.get("opens"), lambda _, text: text)(uri, document["text"])
        self.texts[uri] = kept or Text(text, document["version"])

    def ask_settings(self, count):
        """For one folder after the other, and from the last on, if it was asked before."""
        items = [{"scopeUri": f"file:///{it}", "section": "a"} for it in ("one", "two")]
        self.send(id=f"settings-{count}", method="workspace/configuration", params={"items": items})

    def ask_the_editor(self):
        self.send(id=f"ask-{self.count}", method="workspace/configuration", params={"items": [{}, {}]})
        for it in ("edit", "again"):
            self.send(id=f"{it}-{self.count}", method="workspace/applyEdit", params={"edit": {}})
        self.send(id=self.count, method="nonsense")

    def hear(self, method, params):
        if method == "exit":
            sys.exit(0)
        document = (params or {}).get("textDocument", {})
        uri = document.get("uri")
        if method == "workspace/didChangeWorkspaceFolders" and "folders" in FAULTS:
            self.more += [{"name": it["uri"]} for it in params["event"]["added"]]
        if method == "textDocument/didSave" and uri in self.texts:
            self.texts[uri].saved = self.texts[uri].text
        if method == "textDocument/didOpen" and "closed" not in FAULTS:
            self.open(uri, document)
            if "scoped" in FAULTS:
                self.ask_settings(self.count)
            if "ask" in FAULTS:
                self.ask_the_editor()
        elif method == "textDocument/didClose":
            self.closed[uri] = self.texts.pop(uri, None)
        elif method == "textDocument/didChange" and uri in self.texts:
            self.change(self.texts[uri], document["version"], params["contentChanges"])
        else:
            return
        text = self.texts.get(uri)
        found = [it for fault in PUBLISHED if fault in FAULTS and text for it in PUBLISHED[fault](text.text)]
        self.send(method="textDocument/publishDiagnostics", params={"uri": uri, "diagnostics": found})

    def change(self, text, version, changes):
        self.changes += 1
        time.sleep(float(FAULTS.get("lags", 0)))
        is_lost = self.changes == int(FAULTS.get("lose", -1)) or "gaps" in FAULTS and version > text.version + 1
        text.version = version
        if "first" in FAULTS and changes and changes[0]["text"] == "b":
            is_lost = has_come("first")
        for new in (it["text"] for it in changes):
            if new == FAULTS.get("says"):
                print("cannot apply a change", file=sys.stderr, flush=True)
            if new == FAULTS.get("dies"):
                os.kill(os.getpid(), signal.SIGSEGV)
        for change in [] if is_lost else changes[::-1] if "backwards" in FAULTS else changes[: 1 if "one" in FAULTS else None]:
            text.change(change)
        if "large" in FAULTS and self.changes == 1:
            self.send(method="large", params={"text": "x" * 50_000_000})


def main():
    if "child" in FAULTS:
        import subprocess
        child = subprocess.Popen(["sleep", "1000"], stdout=subprocess.DEVNULL, stderr=subprocess.DEVNULL)
        with open(FAULTS["child"], "a") as file:
            file.write(f"{os.getpid()} {child.pid}\n")
    if "deaf" in FAULTS:
        signal.signal(signal.SIGTERM, signal.SIG_IGN)
        time.sleep(1000)
    if "broken" in FAULTS:
        print("hello\r\n\r\n", flush=True)
    server = Server()
    while True:
        if "noisy" in FAULTS:
            sys.stderr.write("noise\n" * 200_000)
        server.take(server.next())


if __name__ == "__main__":
    main()
