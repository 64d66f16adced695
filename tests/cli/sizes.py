"""Large sessions, generated here, and what must be reported about them, derived from what was put
in.

Each is a name, the words of the run, the input, the status, and both outputs.
"""

import json
import random

from sessions import ANSWER, HEAD, INITIALIZE, INITIALIZED

# The maximum sizes of the profile: a record's bytes, a snapshot's URI and text, a content.
CHUNK, URI, TEXT, CONTENT = 1_048_576, 8_192, 16_777_216, 67_108_864

START = HEAD + INITIALIZE + ANSWER + INITIALIZED


def compact(value):
    return json.dumps(value, ensure_ascii=False, separators=(",", ":"))


def framed(content):
    """The canonical frame of a content."""
    return b"Content-Length: %d\r\n\r\n%s" % (len(content), content)


def message(side, **members):
    """The records of a message, as many as it needs."""
    return cut(side, framed(compact({"jsonrpc": "2.0", **members}).encode()))


def cut(side, data):
    """Bytes as records that are all full except the last."""
    pieces = (data[at : at + CHUNK] for at in range(0, len(data), CHUNK))
    return b"".join(b"%s %d\n%s\n" % (side, len(piece), piece) for piece in pieces)


def snapshot(version, uri, text):
    uri, text = uri.encode(), text.encode()
    return b"T %d %d %d\n%s\n%s\n" % (version, len(uri), len(text), uri, text)


def did_open(uri, version, text):
    document = {"uri": uri, "languageId": "x", "version": version, "text": text}
    return message(b"E", method="textDocument/didOpen", params={"textDocument": document})


def did_change(uri, version, changes):
    params = {"textDocument": {"uri": uri, "version": version}, "contentChanges": changes}
    return message(b"E", method="textDocument/didChange", params=params)


def did_close(uri):
    return message(b"E", method="textDocument/didClose", params={"textDocument": {"uri": uri}})


def did_save(uri):
    return message(b"E", method="textDocument/didSave", params={"textDocument": {"uri": uri}})


def replaced(first, second, text):
    """A change of the text from one line and column to another."""
    start, end = ({"line": line, "character": column} for line, column in (first, second))
    return {"range": {"start": start, "end": end}, "text": text}


def yes(messages, snapshots, lines):
    """The report of a session that keeps the rules, with these lines of documents and requests."""
    head = f"yes\nmessages {messages[0]} {messages[1]}\nsnapshots {snapshots[0]} unmatched {snapshots[1]}\n"
    return (head + "encoding utf-16 sync incremental\n" + "".join(f"{line}\n" for line in lines)).encode()


def many_documents(count=2000):
    """Documents that are opened in order; every third is closed, and some are opened again: 1,400
    are left."""
    log, held, sent = [START], {}, 2
    for number in range(count):
        held[f"file:///{number}"] = (number, f"text {number}\n")
        log.append(did_open(f"file:///{number}", number, f"text {number}\n"))
    for number in reversed(range(0, count, 3)):
        del held[f"file:///{number}"]
        log.append(did_close(f"file:///{number}"))
    for number in range(0, count, 30):
        held[f"file:///{number}"] = (1, "again")
        log.append(did_open(f"file:///{number}", 1, "again"))
    sent += len(log) - 1
    lines = [f'document {version} {len(text)} "{uri}"' for uri, (version, text) in held.items()]
    return b"".join(log), yes((sent, 1), (0, 0), lines)


def many_requests(count=2400):
    """Requests of both sides, answered in another order; some are cancelled, and 1,200 of each side
    stay open."""
    log, numbers = [START], list(range(10, 10 + count))
    for number in numbers:
        log.append(message(b"E", id=number, method="textDocument/hover", params={}))
        log.append(message(b"S", id=str(number), method="workspace/configuration", params={}))
    scattered = random.Random(1).sample(numbers, len(numbers))
    answered, cancelled = scattered[: count // 2], scattered[count // 4 : 3 * count // 4]
    for number in cancelled:
        log.append(message(b"E", method="$/cancelRequest", params={"id": number}))
    for number in answered:
        log.append(message(b"S", id=number, result=None))
        log.append(message(b"E", id=str(number), result=[]))
    left = [number for number in numbers if number not in set(answered)]
    mark = {number: " cancelled" for number in cancelled}
    lines = [f'request editor {number} "textDocument/hover"{mark.get(number, "")}' for number in left]
    lines += [f'request server "{number}" "workspace/configuration"' for number in left]
    sent = (2 + count + len(cancelled) + len(answered), 1 + count + len(answered))
    return b"".join(log), yes(sent, (0, 0), lines)


def many_snapshots(count=1000):
    """Snapshots that come before their versions, in another order, and others whose version never
    comes."""
    log, uri = [START], "file:///a"
    for version in random.Random(2).sample(range(2, 2 + count), count):
        log.append(snapshot(version, uri, f"text {version}"))
        log.append(snapshot(count + 1 + version, uri, "never"))
        log.append(snapshot(version, "file:///b", "never opened"))
    log.append(did_open(uri, 1, "text 1"))
    for version in range(2, 2 + count):
        log.append(did_change(uri, version, [{"text": f"text {version}"}]))
    line = f'document {count + 1} {len(f"text {count + 1}")} "{uri}"'
    return b"".join(log), yes((3 + count, 1), (3 * count, 2 * count), [line])


def many_misfits(count=66):
    """Documents that are changed up to a column past their end, with a length of which most lies
    there: the first 64 of them are noted."""
    log, past_ends, lengths = [START], [], []
    for number in range(count):
        uri, event = f"file:///{number}", f"event {3 * number + 5} editor {3 * number + 4}"
        change = {**replaced((0, 1), (0, 9), ""), "rangeLength": 8}
        log += [did_open(uri, 1, "ab"), did_change(uri, 2, [change]), did_close(uri)]
        past_ends.append(f"note past-end 0 9 length 2 {event}")
        lengths.append(f"note range-length 8 length 1 {event}")
    notes = ["note nothing-compared", *past_ends[:64], *lengths[:64], "notes 129"]
    return b"".join(log), yes((3 * count + 2, 1), (0, 0), notes)


def asked(number, uri):
    """A request about a document."""
    return message(b"E", id=number, method="textDocument/hover", params={"textDocument": {"uri": uri}})


def refused(number):
    """The answer that refuses the params of a request."""
    return message(b"S", id=number, error={"code": -32602, "message": "c"})


def noted_refusal(uri, event, server):
    """The note on such an answer."""
    return f'note refused -32602 "{uri}" event {event} server {server}'


def many_refusals(count=66):
    """Documents about which a request is refused: the first 64 of them are noted."""
    log, notes, lines = [START], [], []
    for number in range(count):
        uri = f"file:///{number}"
        log += [did_open(uri, 1, "ab"), asked(number + 10, uri), refused(number + 10)]
        notes.append(noted_refusal(uri, 3 * number + 6, number + 2))
        lines.append(f'document 1 2 "{uri}"')
    lines += ["note nothing-compared", *notes[:64], "notes 65"]
    return b"".join(log), yes((2 * count + 2, count + 1), (0, 0), lines)


def forgotten_request(later=1024):
    """Two requests that are refused. When the first one is answered, 1,024 have been sent after it,
    and it is forgotten; the second one is among the last 1,024."""
    first, second = "file:///a", "file:///b"
    log = [START, did_open(first, 1, "ab"), did_open(second, 1, "ab"), asked(10, first)]
    log += [asked(11 + number, second) for number in range(later)]
    log += [refused(10), refused(11)]
    lines = [f'document 1 2 "{uri}"' for uri in (first, second)]
    lines += [f'request editor {12 + number} "textDocument/hover"' for number in range(later - 1)]
    lines += ["note nothing-compared", noted_refusal(second, 8 + later, 3), "notes 2"]
    return b"".join(log), yes((5 + later, 3), (0, 0), lines)


def many_openings(count=1100):
    """A request about a document that is open, others that are opened and closed after it, and the
    answer that refuses it."""
    uri, others = "file:///a", [f"file:///{number}" for number in range(count)]
    passing = [did_open(other, 1, "x") + did_close(other) for other in others]
    log = [START, did_open(uri, 1, "ab"), asked(10, uri), *passing, refused(10)]
    note = noted_refusal(uri, 6 + 2 * count, 2)
    lines = [f'document 1 2 "{uri}"', "note nothing-compared", note, "notes 2"]
    return b"".join(log), yes((4 + 2 * count, 2), (0, 0), lines)


def long_requests():
    """Requests about two documents, whose contents have the greatest size that is held, and one
    byte more, and the answers that refuse them."""
    uris, log, lines, notes = ["file:///a", "file:///b"], [START], [], []
    for number, (uri, size) in enumerate(zip(uris, [16_384, 16_385])):
        params = {"textDocument": {"uri": uri}, "name": ""}
        short = {"jsonrpc": "2.0", "id": number + 10, "method": "own/ask", "params": params}
        params["name"] = "x" * (size - len(json.dumps(short)))
        content = json.dumps(short).encode()
        assert len(content) == size
        log += [did_open(uri, 1, "ab"), cut(b"E", framed(content)), refused(number + 10)]
        lines.append(f'document 1 2 "{uri}"')
        notes.append(noted_refusal(uri, 3 * number + 6, number + 2))
    lines += ["note nothing-compared", *notes, "notes 3"]
    return b"".join(log), yes((6, 3), (0, 0), lines)


def diagnosed(uri):
    """A message of the server about a document."""
    return message(b"S", method="textDocument/publishDiagnostics", params={"uri": uri, "diagnostics": []})


def many_spellings(count=66):
    """Documents of which the server spells each URI in another way: the first 64 are noted."""
    log, notes, lines = [START], [], []
    for number in range(count):
        uri, other = f"file:///{number}/a", f"file:///{number}/A"
        log += [did_open(uri, 1, "ab"), diagnosed(other)]
        notes.append(f'note similar "{other}" "{uri}" event {2 * number + 5} server {number + 2}')
        lines.append(f'document 1 2 "{uri}"')
    lines += ["note nothing-compared", *notes[:64], "notes 65"]
    return b"".join(log), yes((count + 2, count + 1), (0, 0), lines)


def opened_before(later):
    """A document, others that are opened after it, and a message that spells its URI in another
    way. The last 64 openings are looked at."""
    uris = ["file:///a", *(f"file:///{number}" for number in range(later))]
    log = [START, *(did_open(uri, 1, "ab") for uri in uris), diagnosed("file:///A")]
    lines = [*(f'document 1 2 "{uri}"' for uri in uris), "note nothing-compared"]
    if later < 64:
        lines.append(f'note similar "file:///A" "file:///a" event {later + 5} server 2')
    lines.append(f"notes {len(lines) - len(uris)}")
    return b"".join(log), yes((later + 3, 2), (0, 0), lines)


def changes_of(size):
    """Two changes of this size: 64 bytes for each, and those of the texts."""
    return [{"text": "é" * 30_000}, {"text": "x" * (size - 60_000 - 2 * 64)}]


def sent_twice(change, is_same):
    """Changes that are sent twice, and compared or not."""
    uri = "file:///a"
    log = [START, did_open(uri, 1, "ab"), did_change(uri, 2, change), did_change(uri, 2, change)]
    report = 'no 603 editor 5 event 6\nversion does not rise\nevent 6 editor 5 notification "textDocument/didChange"\n'
    report += f'uri "file:///a"\nheld 2 event 5 editor 4\nsent 2\nchanges {len(change)}\n'
    report += "same event 5 editor 4\n" if is_same else ""
    told = 'so "The editor sent the same changes twice."\n' if is_same else ""
    return b"".join(log), f"{report}usually editor\n{told}".encode()


def saved_before(later):
    """A document that is saved and was never open, others after it, and a change of the first one.
    The last 64 of these are remembered."""
    uri = "file:///a"
    log = [START, *(did_save(it) for it in [uri, *(f"file:///{number}" for number in range(later))])]
    report = f"no 602 editor {later + 4} event {later + 5}\ndocument is not open\n"
    report += f'event {later + 5} editor {later + 4} notification "textDocument/didChange"\nuri "file:///a"\n'
    report += "sent 2\nchanges 0\nopened never\n" + ("saved-as event 4 editor 3\n" if later < 64 else "")
    told = "The editor saved a document under this name, and did not open it." if later < 64 else "The document was never opened."
    return b"".join([*log, did_change(uri, 2, [])]), f'{report}usually editor\nso "{told}"\n'.encode()


def units(text):
    """How many units of UTF-16 a text has."""
    return len(text.encode("utf-16-le")) // 2


class Lines:
    """A text as a list of lines that end with LF. Its only edit replaces lines by others."""

    def __init__(self, lines):
        self.lines = lines

    def replace(self, rng):
        """Makes a scattered change, and returns it as the editor sends it."""
        first = rng.randrange(len(self.lines))
        last = min(len(self.lines) - 1, first + rng.choice([0, 0, 0, 1, 3]))
        before = self.lines[first][: rng.randrange(len(self.lines[first]) + 1)]
        start = len(before) if first == last else 0
        kept = rng.randrange(start, len(self.lines[last]) + 1)
        end = self.lines[last][:kept]
        text = rng.choice(["", "x", "é\U0001f600", "\n", "one\ntwo 漢\n"])
        self.lines[first : last + 1] = (before + text + self.lines[last][kept:]).split("\n")
        return replaced((first, units(before)), (last, units(end)), text)

    def text(self):
        return "\n".join(self.lines)


def long_document(count, changes=300):
    """A document of this many lines, scattered changes, and a snapshot of the result: the log, the
    report and the text."""
    rng, uri = random.Random(count), "file:///a"
    document = Lines([f"line {number} é\U0001f600 x" if number % 7 == 0 else f"let x{number} = {number};" for number in range(count)])
    log = [START, did_open(uri, 0, document.text())]
    for version in range(1, changes + 1):
        log.append(did_change(uri, version, [document.replace(rng) for _ in range(rng.choice([1, 1, 1, 2]))]))
        if version % 100 == 0:
            log.append(snapshot(version, uri, document.text()))
    text = document.text()
    line = f'document {changes} {len(text.encode())} "{uri}"'
    return b"".join(log), yes((3 + changes, 1), (changes // 100, 0), [line]), text


def long_texts(size=TEXT):
    """A text of the maximum size, in one line and in lines of 64 letters, whose ends are changed;
    and one of a byte more."""
    for text in ["a" * size, ("a" * 63 + "\n") * (size // 64)]:
        uri = "file:///" + "u" * (URI - 8)
        line, column = text.count("\n"), len(text) - text.rfind("\n") - 1
        spots = [(0, 0), (line, max(column - 1, 0)), (line // 2, 31)]
        log, text = [START, did_open(uri, 0, text)], text
        for version, (line, column) in enumerate(spots, 1):
            at = line * 64 + column
            if at < size:
                text = text[:at] + "x" + text[at + 1 :]
                log.append(did_change(uri, version, [replaced((line, column), (line, column + 1), "x")]))
            else:
                log.append(did_change(uri, version, []))
        log.append(snapshot(len(spots), uri, text))
        line = f'document {len(spots)} {size} "{uri}"'
        yield b"".join(log), yes((3 + len(spots), 1), (1, 0), [line])
        refused = b"no 607 editor 7 event 9\ndocument over the limit\n"
        yield b"".join([*log, did_change(uri, 9, [replaced((0, 0), (0, 0), "x")])]), refused


def explained_texts(size=TEXT):
    """An opening with a byte too many, and a change that makes a text of the maximum size longer by
    one, with the explanation of each refusal."""
    uri, over = "file:///a", size + 1
    sizes = f"bytes {over}\nlimit {size}\nusually outside\n"
    opened = START + did_open(uri, 1, "a" * over)
    told = 'event 4 editor 3 notification "textDocument/didOpen"\nuri "file:///a"\nsent 1\n'
    yield opened, f"no 607 editor 3 event 4\ndocument over the limit\n{told}{sizes}".encode()
    log = START + did_open(uri, 1, ("a" * 63 + "\n") * (size // 64))
    told = 'event 5 editor 4 notification "textDocument/didChange"\nuri "file:///a"\n'
    told += "held 1 event 4 editor 3\nsent 2\nchanges 1\nencoding utf-16\n"
    report = f"no 607 editor 4 event 5\ndocument over the limit\n{told}"
    changed = log + did_change(uri, 2, [replaced((1, 63), (1, 63), "x")])
    yield changed, f"{report}change 1 1 63 1 63\nlength 63\n{sizes}".encode()
    changed = log + did_change(uri, 2, [{"text": "b" * over}])
    yield changed, f"{report}change 1 whole\n{sizes}".encode()


def fitting_changes(beyond):
    """A column that counts characters, in changes of 1 MiB and this many bytes more: each counts 64
    bytes and those of its text. No other encoding is named where they are larger."""
    uri, long = "file:///a", "a" * (CHUNK - 2 * 64 - 1 + beyond)
    log = START + did_open(uri, 1, "x😀yz\n") + snapshot(1, uri, "x😀yz\n")
    log += did_change(uri, 2, [replaced((0, 3), (0, 3), "!")])
    log += did_change(uri, 3, [replaced((1, 0), (1, 0), long)])
    log += snapshot(3, uri, f"x😀y!z\n{long}")
    report = ["no 702 snapshot 2 event 8", "snapshot differs", "event 8 snapshot 2"]
    report += ['uri "file:///a"', "held 3 event 7 editor 5", "version 3", "encoding utf-16"]
    report += ["at 0 3", 'by-messages "x😀!yz\\n"', 'in-editor "x😀y!z\\n"', "codes U+0021 U+0079"]
    report += ["snapshot event 8 snapshot 2", "equal 1 event 5 snapshot 1", "suspects 2"]
    report += ["suspect 2 event 6 editor 4", "suspect 3 event 7 editor 5"]
    report += ["fits utf-32"] if beyond == 0 else []
    report += ["usually editor"]
    report += ['so "The editor seems to count columns in utf-32; utf-16 was agreed."'] if beyond == 0 else []
    return log, "".join(f"{it}\n" for it in report).encode()


def padded(size):
    """The content of a message of the server, of this many bytes."""
    front, back = b'{"jsonrpc":"2.0","method":"window/logMessage","params":{"type":3,"message":"', b'"}}'
    return front + b"m" * (size - len(front) - len(back)) + back


def opened(uri):
    """A `didOpen` of this URI whose content has the greatest size, in the form that `redact` writes."""
    front = '{"jsonrpc":"2.0","method":"textDocument/didOpen","params":{"textDocument":{"text":"'
    back = f'","uri":"{uri}","version":1}}}}}}'
    return (front + "x" * (CONTENT - len(front) - len(back)) + back).encode()


def redacted():
    """Contents of the greatest size: the log that is left, where its name is as long, and none where it
    is longer than the name that it stands for."""
    whole = framed(opened("file:///1"))
    pieces = [whole[at : at + CHUNK // 4] for at in range(0, len(whole), CHUNK // 4)]
    left = b"lsp-session 1\n" + b"".join(b"E %d\n%s\n" % (len(it), it) for it in pieces)
    yield b"lsp-session 1\n" + cut(b"E", whole), 0, left, b""
    told = b"this log can't be redacted: without its words it has another verdict\n"
    yield b"lsp-session 1\n" + cut(b"E", framed(opened("a"))), 6, b"", told


def small():
    """Sessions of more than a thousand items of each kind, and of records of the maximum size."""
    for name, (log, report) in [
        ("many documents", many_documents()),
        ("many requests", many_requests()),
        ("many snapshots", many_snapshots()),
    ]:
        yield name, ["check"], log, 0, report, b""
        yield name, ["normal"], log, 0, log, b""
    log, report = many_misfits()
    yield "many documents that are noted", ["explain"], log, 0, report, b""
    for beyond in [0, 1]:
        log, report = fitting_changes(beyond)
        for given in [log, log.replace(b"lsp-session 1", b"lsp-session 2", 1)]:
            yield "large changes in another encoding", ["explain"], given, 1, report, b""
    for name, (log, report) in [
        ("many refused requests", many_refusals()),
        ("a refused request that is forgotten", forgotten_request()),
        ("1,100 openings since a request", many_openings()),
        ("long refused requests", long_requests()),
        ("many documents under two spellings", many_spellings()),
        ("a document opened before 63 others", opened_before(63)),
        ("a document opened before 64 others", opened_before(64)),
    ]:
        yield name, ["explain"], log, 0, report, b""
    for name, (log, report) in [
        ("changes of 65,536 bytes sent twice", sent_twice(changes_of(65_536), True)),
        ("changes of 65,537 bytes sent twice", sent_twice(changes_of(65_537), False)),
        ("a save before 63 others", saved_before(63)),
        ("a save before 64 others", saved_before(64)),
    ]:
        yield name, ["explain"], log, 1, report, b""
    for count in [1000, 100_000]:
        log, report, text = long_document(count)
        yield f"a document of {count} lines", ["check"], log, 0, report, b""
        yield f"a document of {count} lines", ["text", "303", "file:///a"], log, 0, text.encode(), b""
    one = framed(padded(CHUNK - len(b"Content-Length: 1048550\r\n\r\n")))
    assert len(one) == CHUNK
    log = START + cut(b"S", one) + cut(b"S", framed(padded(3 * CHUNK)))
    yield "records of the greatest size", ["check"], log, 0, yes((2, 3), (0, 0), []), b""
    yield "records of the greatest size", ["normal"], log, 0, log, b""
    report = b"bad log L3 record 4\nsize out of range\n"
    yield "a record that is too long", ["check"], START + b"S %d\n%s\n" % (CHUNK + 1, one + b"x"), 2, report, b""


def large():
    """Texts and contents of the maximum size, and of one byte more."""
    for number, (log, report) in enumerate(long_texts()):
        yield "a text of the greatest size", ["check"], log, number % 2, report, b""
    for log, told in explained_texts():
        yield "a text that is too long", ["explain"], log, 1, told, b""
    most = padded(CONTENT)
    log = START + cut(b"S", framed(most))
    yield "a content of the greatest size", ["check"], log, 0, yes((2, 2), (0, 0), []), b""
    yield "a content of the greatest size", ["event", "4"], log, 0, most, b""
    yield "a content of the greatest size", ["frames"], framed(most), 0, b"1 %d\n" % CONTENT, b""
    words = b'1 %d notification "window/logMessage"\n' % CONTENT
    yield "a content of the greatest size", ["frames", "--as", "kinds"], framed(most), 0, words, b""
    for log, status, out, err in redacted():
        yield "a message of the greatest size", ["redact"], log, status, out, err
    over = b"no 105 server 2 event 4\ncontent too long\n"
    yield "a content that is too long", ["check"], START + cut(b"S", framed(padded(CONTENT + 1))), 1, over, b""


def cases():
    """All of them, one after another."""
    yield from small()
    yield from large()
