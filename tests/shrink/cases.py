"""What is left of sessions with one known fault among many messages, written out by hand."""

import json
from io import BytesIO

from logs import changed, edit, frame, notification, opened, request, result, saved, snapshot
from lsptools.base import session_log
from scripts import explained, put, small_of

URI = "file:///home/someone/secret%20project/main.c"
OTHER = "file:///home/someone/other.c"
# What editors and servers say about themselves: rules read nothing of it but the last two.
OFFERS = {
    "processId": 4215,
    "clientInfo": {"name": "Editor", "version": "1.2\nof today"},
    "rootUri": "file:///home/someone",
    "capabilities": {"textDocument": {"hover": {"dynamicRegistration": True}}, "workspace": {"a": [1, 2]}},
}
ANSWER = {"serverInfo": {"name": "server"}, "capabilities": {"hoverProvider": True, "textDocumentSync": 2}}

INITIALIZE = 'E {"jsonrpc":"2.0","id":1,"method":"initialize","params":{"capabilities":{}}}'
SYNCS = 'S {"jsonrpc":"2.0","id":1,"result":{"capabilities":{"textDocumentSync":2}}}'
INITIALIZED = 'E {"jsonrpc":"2.0","method":"initialized","params":{}}'
HEAD = [INITIALIZE, SYNCS, INITIALIZED]


def head(answer=ANSWER, form=2):
    return b"lsp-session %d\n" % form + b"".join([
        frame(b"E", request(1, "initialize", OFFERS)),
        frame(b"S", result(1, answer)),
        frame(b"E", notification("initialized", {})),
    ])


def sent(*messages):
    return b"".join(frame(b"E", it) for it in messages)


def heard(*messages):
    return b"".join(frame(b"S", it) for it in messages)


def chatter(first, count=20):
    """Requests with their answers, notifications of both sides, and another document."""
    other = f"{OTHER}{first}"
    parts = [sent(opened(other, 1, "other\n"))]
    for id in range(first, first + count):
        parts += [
            sent(request(id, "textDocument/hover", {"textDocument": {"uri": URI}})),
            heard(notification("textDocument/publishDiagnostics", {"uri": URI, "diagnostics": []})),
            heard(result(id, {"contents": "something to read"})),
            sent(changed(other, id, edit((0, 0), (0, 0), "x"))),
        ]
    return b"".join(parts)


def open_of(version, text, uri="file:///a"):
    text = json.dumps(text, ensure_ascii=False)
    document = f'{{"uri":"{uri}","languageId":"c","version":{version},"text":{text}}}'
    method = "textDocument/didOpen"
    return f'E {{"jsonrpc":"2.0","method":"{method}","params":{{"textDocument":{document}}}}}'


def opened_with(version, text, uri="file:///a"):
    """The same of a `didOpen` that is in the log, with its own order of members."""
    text = json.dumps(text, ensure_ascii=False)
    document = f'{{"uri":"{uri}","version":{version},"languageId":"c","text":{text}}}'
    method = "textDocument/didOpen"
    return f'E {{"jsonrpc":"2.0","method":"{method}","params":{{"textDocument":{document}}}}}'


def change_of(version, *changes, uri="file:///a"):
    """A `didChange`. A change is a line, a column, another two, and a text; or a whole text."""
    shown = [
        '{"range":{"start":{"line":%d,"character":%d},"end":{"line":%d,"character":%d}},"text":%s}'
        % (*it[:4], json.dumps(it[4], ensure_ascii=False)) if isinstance(it, tuple)
        else '{"text":%s}' % json.dumps(it, ensure_ascii=False)
        for it in changes
    ]
    document = f'{{"uri":"{uri}","version":{version}}}'
    params = f'{{"textDocument":{document},"contentChanges":[{",".join(shown)}]}}'
    return f'E {{"jsonrpc":"2.0","method":"textDocument/didChange","params":{params}}}'


def listed(log):
    """The first line of a log, and its records as texts."""
    file = BytesIO(log)
    yield file.readline().decode()
    for record in session_log.records(file):
        if record.kind == session_log.SNAPSHOT:
            yield f"T {record.version} {record.uri.decode()} {record.data.decode()!r}"
        else:
            yield f"{record.kind.decode()} {record.data.partition(bytes([13, 10] * 2))[2].decode()}"


def leaves(program, place, log, wanted, *options, form=2):
    """Asserts that these records are left of a log."""
    found = list(listed(small_of(program, place, log, *options)))
    shown = "\n".join(found)
    assert found == [f"lsp-session {form}\n", *wanted], f"{len(log)} bytes became\n{shown}"


LINES = [f"int value_{at};\n" for at in range(80)]


def shortens_a_702(program, place):
    """One wrong column among two hundred messages. The change before it stays: it may be wrong."""
    text = [*LINES]
    log = head() + chatter(100) + sent(opened(URI, 1, "".join(text))) + snapshot(URI, 1, "".join(text))
    for version in range(2, 12):
        text[version] = f"x{text[version]}"
        log += sent(changed(URI, version, edit((version, 0), (version, 0), "x")))
    log += snapshot(URI, 11, "".join(text)) + chatter(200)
    text[30] = "long value_30;\n"
    log += sent(changed(URI, 12, edit((30, 0), (30, 3), "long")))
    text[60] = "int new_60;\n"
    log += chatter(300) + sent(changed(URI, 14, edit((60, 5), (60, 9), "new")))
    log += snapshot(URI, 14, "".join(text)) + sent(changed(URI, 15, edit((0, 0), (0, 1), "")))
    held = "int value_30;\nint value_60;\n"
    leaves(program, place, log, [
        *HEAD,
        open_of(11, held),
        f"T 11 file:///a {held!r}",
        change_of(12, (0, 0, 0, 3, "long")),
        change_of(14, (1, 5, 1, 9, "new")),
        "T 14 file:///a 'long value_30;\\nint new_60;\\n'",
    ])


def keeps_line_ends_and_characters(program, place):
    """CR LF, a character of two units, and format 1. Two lines are pasted, and one is deleted."""
    text = ["😀 one\r\n", "two\r\n", "three é\r\n", "four\r\n", "five\r\n", "six\r\n"]
    log = head(form=1) + sent(opened(URI, 1, "".join(text))) + chatter(50)
    log += snapshot(URI, 1, "".join(text))
    log += sent(changed(URI, 2, edit((3, 0), (4, 0), "4\r\n4½\r\n"), edit((0, 2), (0, 2), "!")))
    text = ["😀! one\r\n", "two\r\n", "three é\r\n", "4\r\n", "4½\r\n", "five\r\n", "6\r\n"]
    log += snapshot(URI, 2, "".join(text))
    leaves(program, place, log, [
        *HEAD,
        opened_with(1, "😀 one\r\nfour\r\nfive\r\nsix\r\n"),
        "T 1 file:///a '😀 one\\r\\nfour\\r\\nfive\\r\\nsix\\r\\n'",
        change_of(2, (1, 0, 2, 0, "4\r\n"), (0, 2, 0, 2, "!")),
        "T 2 file:///a '😀! one\\r\\n4\\r\\nfive\\r\\n6\\r\\n'",
    ], form=1)


def keeps_all_suspects(program, place):
    """What is typed and deleted again after the last equal text may be the cause, although the texts
    differ elsewhere."""
    text = [*LINES]
    log = head() + sent(opened(URI, 1, "".join(text))) + snapshot(URI, 1, "".join(text))
    log += sent(changed(URI, 2, edit((7, 0), (7, 0), "q"))) + chatter(10)
    log += sent(changed(URI, 3, edit((7, 0), (7, 1), "")))
    text[50] = "never sent\n"
    leaves(program, place, log + snapshot(URI, 3, "".join(text)), [
        *HEAD,
        opened_with(1, "int value_7;\nint value_50;\n"),
        "T 1 file:///a 'int value_7;\\nint value_50;\\n'",
        change_of(2, (0, 0, 0, 0, "q")),
        change_of(3, (0, 0, 0, 1, "")),
        "T 3 file:///a 'int value_7;\\nnever sent\\n'",
    ])


def keeps_texts_that_are_compared(program, place):
    """A long text that was sent, as it is in the editor, stays: without it, more would differ."""
    long = "a long comment " * 9
    text = ["one\n", "two\n", "three\n"]
    log = head() + sent(opened(URI, 1, "".join(text))) + snapshot(URI, 1, "".join(text))
    log += sent(changed(URI, 2, edit((2, 0), (2, 5), long)))
    leaves(program, place, log + snapshot(URI, 2, f"1\ntwo\n{long}\n"), [
        *HEAD,
        opened_with(1, "one\nthree\n"),
        "T 1 file:///a 'one\\nthree\\n'",
        change_of(2, (1, 0, 1, 5, long)),
        f"T 2 file:///a '1\\n{long}\\n'",
    ])


def leaves_out_changes_of_other_lines(program, place):
    """If the texts never were equal, a change goes with all lines that it touches, unless one of them
    differs: what is typed and deleted again on such a line stays, and so do a change of nothing and
    the last change."""
    log = head() + sent(opened(URI, 1, "".join(LINES)))
    for version, change in enumerate([
        edit((3, 0), (3, 0), "x"),
        edit((40, 0), (41, 3), "pasted\nlines\nof\n"),
        edit((70, 0), (70, 0), "y"),
        edit((50, 0), (50, 0), "q"),
        edit((50, 0), (50, 1), ""),
        edit((3, 0), (3, 1), ""),
        edit((60, 0), (60, 0), ""),
        edit((0, 3), (0, 3), "eger"),
    ], 2):
        log += sent(changed(URI, version, change)) + chatter(version * 100, 3)
    # In the editor, lines 50 and 60 are others. At first, they were lines 48 and 58.
    text = [*LINES]
    text[0], text[68], text[48], text[58] = "integer value_0;\n", f"y{LINES[68]}", "other\n", "also\n"
    text[40:42] = ["pasted\n", "lines\n", "of\n", " value_41;\n"]
    leaves(program, place, log + snapshot(URI, 9, "".join(text)), [
        *HEAD,
        opened_with(1, "int value_0;\nint value_48;\nint value_58;\n"),
        change_of(5, (1, 0, 1, 0, "q")),
        change_of(6, (1, 0, 1, 1, "")),
        change_of(8, (2, 0, 2, 0, "")),
        change_of(9, (0, 3, 0, 3, "eger")),
        "T 9 file:///a 'integer value_0;\\nother\\nalso\\n'",
    ])


def shortens_a_late_702(program, place):
    """Format 2: a late snapshot of version 4 differs, after an equal one of version 5. The text at
    version 3 was equal, too, so what precedes it is left out, and a late snapshot of it."""
    text = [*LINES]
    log = head() + sent(opened(URI, 1, "".join(text)))
    taken = {}
    for version in (2, 3, 4, 5, 6):
        text[version] = f"v{version}\n"
        log += sent(changed(URI, version, edit((version, 0), (version, 99), f"v{version}")))
        taken[version] = "".join(text)
    log += snapshot(URI, 3, taken[3]) + snapshot(URI, 5, taken[5]) + snapshot(URI, 2, taken[2])
    log += snapshot(URI, 4, taken[4].replace("v4", "4"))
    leaves(program, place, log, [
        *HEAD,
        open_of(3, "".join(LINES[4:7])),
        change_of(4, (0, 0, 0, 99, "v4")),
        change_of(5, (1, 0, 1, 99, "v5")),
        change_of(6, (2, 0, 2, 99, "v6")),
        f"T 5 file:///a {'v4{0}v5{0}int value_6;{0}'.format(chr(10))!r}",
        f"T 4 file:///a {'4{0}int value_5;{0}int value_6;{0}'.format(chr(10))!r}",
    ])


def keeps_each_snapshot_that_differs(program, place):
    """Two snapshots of a version that is set after them: both differ, and both stay."""
    text = [*LINES]
    log = head() + sent(opened(URI, 1, "".join(text))) + snapshot(URI, 1, "".join(text)) + chatter(40)
    for letter in "yz":
        text[7] = f"{letter}int value_7;\n"
        log += snapshot(URI, 2, "".join(text)) + chatter(ord(letter))
    leaves(program, place, log + sent(changed(URI, 2, edit((7, 0), (7, 0), "x"))), [
        *HEAD,
        opened_with(1, "int value_7;\n"),
        "T 1 file:///a 'int value_7;\\n'",
        "T 2 file:///a 'yint value_7;\\n'",
        "T 2 file:///a 'zint value_7;\\n'",
        change_of(2, (0, 0, 0, 0, "x")),
    ])


def shortens_a_608(program, place):
    """Whole texts: of each, a line that it changes stays."""
    answer = {"capabilities": {"textDocumentSync": {"openClose": True, "change": 1, "save": True}}}
    text = [*LINES]
    log = head(answer) + sent(opened(URI, 1, "".join(text))) + snapshot(URI, 1, "".join(text))
    for version, line in ((2, 20), (3, 40)):
        text[line] = f"v{version}\n"
        log += sent(changed(URI, version, {"text": "".join(text)}))
        log += sent(request(version, "textDocument/hover", {})) + heard(result(version, None))
    log += sent(saved(URI, "".join(text[:60])))
    held = ["int value_20;\n", "int value_40;\n", "int value_60;\n"]
    leaves(program, place, log, [
        INITIALIZE,
        'S {"jsonrpc":"2.0","id":1,"result":{"capabilities":{"textDocumentSync":{"change":1}}}}',
        INITIALIZED,
        opened_with(1, "".join(held)),
        f"T 1 file:///a {''.join(held)!r}",
        change_of(2, "".join(["v2\n", *held[1:]])),
        change_of(3, "".join(["v2\n", "v3\n", held[2]])),
        'E {"jsonrpc":"2.0","method":"textDocument/didSave","params":'
        '{"textDocument":{"uri":"file:///a"},"text":"v2\\nv3\\n"}}',
    ])


def shortens_what_breaks_rules_of_changes(program, place):
    """601 and 603 to 606: the document is opened with the text that it has by then, but for a 603
    before another message (`precedes`), which stays. Of several changes, those that make no
    difference go."""
    middle = chatter(40) + sent(changed(URI, 5, edit((9, 0), (9, 3), "😀"))) + chatter(80)
    log = head() + sent(opened(URI, 1, "".join(LINES))) + middle
    held = opening = None
    for last, held, opening, wanted in [
        (opened(URI, 6, "again\n"), "", 5, opened_with(6, "")),
        (changed(URI, 5), "", 5, change_of(5)),
        (
            changed(URI, 7, edit((2, 0), (2, 0), "x"), edit((9, 1), (9, 1), "y"), edit((9, 0), (9, 0), "z")),
            "😀 value_9;\n", 5, change_of(7, (0, 1, 0, 1, "y")),
        ),
        (changed(URI, 7, edit((9, 4), (9, 3), "y")), "😀 value_9;\n", 5, change_of(7, (0, 4, 0, 3, "y"))),
    ]:
        wanted = [*HEAD, open_of(opening, held), wanted]
        leaves(program, place, log + sent(last) + chatter(900), wanted)
    log = head() + sent(opened(URI, 3, "".join(LINES))) + middle
    leaves(program, place, log + sent(changed(URI, 4, edit((9, 1), (11, 0), ""))) + chatter(900), [
        *HEAD,
        opened_with(3, "int value_9;\nint value_11;\n"),
        change_of(5, (0, 0, 0, 3, "😀")),
        change_of(4, (0, 1, 1, 0, "")),
    ])
    full = head({"capabilities": {"textDocumentSync": 1}}) + sent(opened(URI, 1, "a\nb\nc\n"))
    leaves(program, place, full + chatter(40, 0) + sent(changed(URI, 2, edit((1, 0), (1, 1), ""))), [
        INITIALIZE,
        SYNCS.replace("2}", "1}"),
        INITIALIZED,
        opened_with(1, "b\n"),
        change_of(2, (0, 0, 0, 1, "")),
    ])


def shortens_what_comes_too_late(program, place):
    """602 after a `didClose`, and 701 in both formats: in format 2, a version before the current one
    that is kept stays."""
    log = head() + sent(opened(URI, 1, "".join(LINES))) + chatter(40)
    log += sent(notification("textDocument/didClose", {"textDocument": {"uri": URI}})) + chatter(80)
    leaves(program, place, log + sent(changed(URI, 2, edit((9, 0), (9, 0), "x"))), [
        *HEAD,
        opened_with(1, "int value_9;\n"),
        'E {"jsonrpc":"2.0","method":"textDocument/didClose","params":{"textDocument":{"uri":"file:///a"}}}',
        change_of(2, (0, 0, 0, 0, "x")),
    ])
    kept = [open_of(22, "int value_23;\n"), change_of(23, (0, 0, 0, 0, ""))]
    for form, wanted in ((1, [open_of(23, "")]), (2, kept)):
        log = head(form=form) + sent(opened(URI, 1, "".join(LINES)))
        for version in range(2, 24):
            log += sent(changed(URI, version, edit((version, 0), (version, 0), "")))
        log += snapshot(URI, 2, "".join(LINES))
        leaves(program, place, log, [*HEAD, *wanted, "T 2 file:///a ''"], form=form)


def keeps_how_names_are_spelled(program, place):
    """602: the document that is open under a similar name stays."""
    log = head() + sent(opened(URI, 1, "".join(LINES))) + chatter(40)
    wrong = URI.replace("%20", " ")
    log += sent(changed(wrong, 2, edit((9, 0), (9, 0), "x")))
    leaves(program, place, log, [
        *HEAD,
        opened_with(1, "", "file:///secret%20project/main.c"),
        change_of(2, (9, 0, 9, 0, "x"), uri="file:///secret project/main.c"),
    ])


def shortens_what_breaks_rules_of_requests(program, place):
    """301, 302, 406, 412, 502 and 504."""
    asked = request(7, "textDocument/hover", {"position": {"line": 1, "character": 2}})
    hover = 'E {"jsonrpc":"2.0","id":7,"method":"textDocument/hover"}'
    answer = 'S {"jsonrpc":"2.0","id":7,"result":{}}'
    both = chatter(40) + sent(asked) + heard(result(7, {"contents": "text"})) + chatter(80)
    log = head() + both + heard(result(7, {"contents": "text"})) + chatter(120)
    leaves(program, place, log, [*HEAD, hover, answer, answer])
    log = head() + chatter(40) + sent(asked) + chatter(80) + sent(asked) + chatter(120)
    leaves(program, place, log, [*HEAD, hover, hover])
    log = head() + both + sent({"jsonrpc": "2.0", "method": "exit"})
    log += sent(request(9, "shutdown"))
    leaves(program, place, log, [
        *HEAD,
        'E {"jsonrpc":"2.0","method":"exit"}',
        'E {"jsonrpc":"2.0","id":9,"method":"shutdown"}',
    ])
    offers = {"capabilities": {"general": {"positionEncodings": ["utf-16", "utf-8"], "a": {}}, "b": 1}}
    log = b"lsp-session 2\n" + sent(request(1, "initialize", offers))
    log += heard(result(1, {"capabilities": {"positionEncoding": "utf-32", "hoverProvider": {}}}))
    leaves(program, place, log, [
        INITIALIZE.replace("{}", '{"general":{"positionEncodings":["utf-16","utf-8"]}}'),
        'S {"jsonrpc":"2.0","id":1,"result":{"capabilities":{"positionEncoding":"utf-32"}}}',
    ])
    methods = [f"textDocument/{it}" for it in ("hover", "didOpen", "rename")]
    registered = [{"id": it, "method": it, "registerOptions": {"a": 1}} for it in methods]
    log = head() + chatter(40) + heard(request(3, "client/registerCapability", {"registrations": registered}))
    leaves(program, place, log, [
        *HEAD,
        'S {"jsonrpc":"2.0","id":3,"method":"client/registerCapability","params":'
        '{"registrations":[{"method":"textDocument/didOpen"}]}}',
    ])


def shortens_contents(program, place):
    """201, 207 and 209: the message that can't be read stays as far as it shows why."""
    long = "x" * 5000
    log = head() + chatter(40)
    broken = opened(URI, None, long)
    leaves(program, place, log + sent(broken), [*HEAD, opened_with("null", "").replace('"null"', "null")])
    log += heard({"jsonrpc": "2.0", "id": 40, "contents": long, "more": [long] * 9})
    leaves(program, place, log, [*HEAD, 'S {"jsonrpc":"2.0","id":40}'])
    content = json.dumps(changed(URI, 2, {"text": long})).encode()[:-1]
    wanted = [*HEAD, f"E {content.decode().replace(long, 'x' * 16 * 2)}"]
    found = list(listed(small_of(program, place, head() + chatter(40) + frame(b"E", content))))
    assert found[1:4] == HEAD and len(found) == 5 and len(found[4]) < 600, found
    assert found[4].endswith(wanted[3][-32:]) and found[4].startswith("E {"), found


def completes_contents(program, place):
    """201: a content that is longer than its header says stays with the bytes that complete it."""
    for text, missing, counts in (("é" * 3, 3, "counts utf-16 utf-32"), ("😀", 3, "counts utf-32"), ("", 1, None)):
        message = changed(URI, 2, {"text": text + "x" * 5000})
        content = json.dumps(message, ensure_ascii=False).encode()
        cut = session_log.framed(content, len(content) - missing)
        log = head() + chatter(40) + session_log.Record(b"E", cut).encoded() + chatter(80)
        small = small_of(program, place, log)
        assert len(small) < 1000 and small.count(b"\r\n\r\n") == 4, small
        length, _, left = small.rpartition(b"Content-Length: ")[2].partition(b"\r\n\r\n")
        left = left.removesuffix(b"\n")
        assert json.loads(left) and left.endswith(content[-32:]), small
        assert int(length) == (len(left.decode()) if counts else len(left) - missing) < len(left), small
        said = explained(program, put(place, small, "small.log"))
        assert f"whole {len(left)}" in said and (counts in said if counts else "counts" not in " ".join(said)), said


def keeps_a_note(program, place):
    """--note, on logs whose verdict is yes."""
    answer = {"capabilities": {"textDocumentSync": 2}, "offsetEncoding": "utf-8", "more": [1, 2]}
    log = head(answer) + chatter(40) + sent(request(99, "shutdown")) + heard(result(99, None))
    leaves(program, place, log, [
        INITIALIZE,
        'S {"jsonrpc":"2.0","id":1,"result":{"capabilities":{"textDocumentSync":2},"offsetEncoding":"utf-8"}}',
    ], "--note", "offset-encoding")
    log += sent(notification("exit", {}))
    leaves(program, place, head() + chatter(40) + sent(notification("shutdown", {"a": 1})) + chatter(80), [
        *HEAD,
        'E {"jsonrpc":"2.0","method":"shutdown"}',
    ], "--note", "as-notification")
    leaves(program, place, log, [], "--note", "nothing-compared")
    text = "".join(LINES)
    log = head() + sent(opened(URI, 1, text)) + snapshot(URI, 1, text) + chatter(40, 1)
    leaves(program, place, log, [
        *HEAD,
        opened_with(1, "", "file:///b"),
        "T 1 file:///b ''",
        opened_with(1, "other\n"),
        change_of(40, (0, 0, 0, 0, "x")),
    ], "--note", "no-snapshot")


def writes_the_messages_for_clangd(program, place):
    """--lit: the editor's messages, after the editor's name and the explanation."""
    log = head() + chatter(40) + sent(opened(URI, 1, "".join(LINES)))
    log += sent(changed(URI, 2, edit((9, 4), (9, 3), "y"))) + chatter(80)
    lit = small_of(program, place, log, "--lit").decode()
    assert lit == "\n".join([
        "# editor Editor 1.2 of today",
        "# no 606 editor 4 event 5",
        "# range is reversed",
        '# event 5 editor 4 notification "textDocument/didChange"',
        '# uri "file:///a"',
        "# held 1 event 4 editor 3",
        "# sent 2",
        "# changes 1",
        "# encoding utf-16",
        "# change 1 0 4 0 3",
        "# length 12",
        "# usually editor",
        INITIALIZE[2:],
        "---",
        INITIALIZED[2:],
        "---",
        opened_with(1, "int value_9;\n")[2:],
        "---",
        change_of(2, (0, 4, 0, 3, "y"))[2:],
        "",
    ]), lit


TESTS = [
    shortens_a_702,
    keeps_line_ends_and_characters,
    keeps_all_suspects,
    keeps_texts_that_are_compared,
    leaves_out_changes_of_other_lines,
    shortens_a_late_702,
    keeps_each_snapshot_that_differs,
    shortens_a_608,
    shortens_what_breaks_rules_of_changes,
    shortens_what_comes_too_late,
    keeps_how_names_are_spelled,
    shortens_what_breaks_rules_of_requests,
    shortens_contents,
    completes_contents,
    keeps_a_note,
    writes_the_messages_for_clangd,
]
