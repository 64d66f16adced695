"""What was not true of lspcheck-replay once, each with a server that does just that."""

import json
import random
import re

import expected
import sessions
from logs import notification, request, result
from lsptools.servers import languages, overwriting
from trials import QUESTIONS, SERVER, URI, blocks, check, named, opened, place, run
from usage import put


def names_what_shows_in_no_answer(program, place_of):
    """A letter that is lost in a comment, where the server has no answer about comments; and it is never
    said that the texts are the same there."""
    session = opened("int a;\n// b\n")
    session.change(URI, [(0, 0, "// c\n")])
    lost = session.change(URI, [(15, 15, "x")])
    for _ in range(3):
        session.change(URI, [(0, 0, "\n")])
    done = run(program, put(place_of, session.end()), "defs", "lose=2")
    assert named(done) == {URI: (lost, session.numbers[lost])}, done
    lines = done.stdout.splitlines()
    assert f"answers same after {place(session, lost - 1)}" in lines, lines
    # It is the second change of the process that is lost, so two messages are needed.
    assert f"needs {place(session, lost - 1)} to {place(session, lost)}" in lines, lines
    assert not any(it.startswith(("same", "differs", "text ")) for it in lines), lines
    assert 'missing line 2 "// xb"' in lines, lines


def shows_each_character_that_is_lost(_program, _place):
    """In lines of ASCII, and each letter or digit that is another one. The store is that of the server."""
    chance, store = random.Random(8), expected.server_with([])
    for _ in range(400):
        text = "".join(chance.choices(ASCII, k=30))
        written = overwriting.overwriting(text, languages.forms_of("c")[0])
        assert names_after(store, text, written) == sorted(written.names.values()), text
        at = chance.randrange(len(text))
        others = [it for it in "az09" if it != text[at]] if text[at].isalnum() else []
        for new in ("", *others):
            wrong = text[:at] + new + text[at + 1 :]
            assert names_after(store, wrong, written) != sorted(written.names.values()), (text, wrong)


def sees_a_line_too_many_at_the_end(program, place_of):
    """Nothing follows it that it could move: one that a server kept, and an empty one that it added."""
    session = opened("int a;\n// b\n// c")
    lost = session.change(URI, [(11, 16, "")])
    session.change(URI, [(0, 0, "\n")])
    log = put(place_of, session.end())
    done = run(program, log, "defs", "lose=1")
    assert named(done) == {URI: (lost, session.numbers[lost])}, done
    done = run(program, log, "defs", "opens=newline")
    assert done.returncode == 1 and "\nat-fault didOpen-or-whole-change\n" in done.stdout, done


ASCII = "ab1_ \t.;(){}\"#/\n"


def names_after(store, text, written):
    """The names that a text has once its lines are overwritten."""
    held = store.Text(text, 0)
    for it in written.changes:
        held.change(it)
    return sorted(re.findall(r"\bint (q\d+_\w*z)\b", held.text))


def finds_how_a_language_declares_names(program, place_of):
    """One that is not in the table, with a server that shows no other form."""
    session = opened("a\n# b\n", language="own")
    lost = session.change(URI, [(5, 5, "x")])
    session.change(URI, [(0, 0, "\n")])
    done = run(program, put(place_of, session.end()), "defs=sub", "lose=1")
    assert named(done) == {URI: (lost, session.numbers[lost])}, done


def sees_what_diagnostics_alone_show(program, place_of):
    """Those that the server sends, also if it is busy, and those that it is asked for."""
    session = opened("int a;\n// b\n")
    lost = session.change(URI, [(11, 11, "x")])
    session.change(URI, [(0, 0, "\n")])
    log = put(place_of, session.end())
    for faults in (["complains"], ["complains", "lags=0.2"], ["pulls"]):
        done = run(program, log, *faults)
        assert done.returncode == 0 and "\nno difference in " in done.stdout, (faults, done)
        done = run(program, log, *faults, "lose=1")
        assert named(done) == {URI: (lost, session.numbers[lost])}, (faults, done)


def names_the_first_where_names_show_nothing(program, place_of):
    """A brace too many at the end of a line: the names are the right ones, and diagnostics show it, which are
    asked for at the end."""
    session = opened("int a;\n// b}\n")
    session.change(URI, [(0, 0, "// c\n")])
    lost = session.change(URI, [(16, 17, "")])
    for _ in range(3):
        session.change(URI, [(0, 0, "\n")])
    done = run(program, put(place_of, session.end()), "defs", "trails", "lose=2")
    assert named(done) == {URI: (lost, session.numbers[lost])}, done
    assert f"\nanswers same after {place(session, lost - 1)}\n" in done.stdout, done


def names_what_loses_changes_of_a_message(program, place_of):
    """What overwrites the lines has many changes, too."""
    session = opened("int a;\n// b\n")
    session.change(URI, [(0, 0, "// c\n")])
    lost = session.change(URI, [(15, 15, "x"), (15, 15, "y")])
    session.change(URI, [(0, 0, "\n")])
    done = run(program, put(place_of, session.end()), "defs", "one")
    assert named(done) == {URI: (lost, session.numbers[lost])}, done


def says_text_where_the_server_tells_it(program, place_of):
    session = opened("a 😀 b\n")
    wrong = session.change(URI, [(3, 3, "x")])
    done = run(program, put(place_of, session.end()), "tells", "characters")
    assert done.returncode == 1, done
    assert f"text differs after {place(session, wrong)} notification" in done.stdout, done
    assert f"\ntext same after {place(session, wrong - 1)}\n" in done.stdout, done


def says_nothing_without_questions(program, place_of):
    """A document about which no question counts, next to one that is right."""
    session = opened("X\n")
    session.open("file:///right.c", "a\n")
    done = run(program, put(place_of, session.end()), "picky")
    assert done.returncode == 2 and "no difference" not in done.stdout, done
    assert f'document "{URI}" version 0 questions 0 differ 0\n' in done.stdout, done
    assert done.stderr.startswith("lspcheck-replay: no answer counts: a fresh server fails at "), done


def names_a_lost_open(program, place_of):
    session, other = opened("a\n"), "file:///tmp/other.c"
    session.open(other, "b\n")
    lost = session.sent
    session.change(URI, [(0, 0, "b")])
    done = run(program, put(place_of, session.end()), "forgets=2")
    # Neither of two documents is the second one of a fresh server that is asked about one alone.
    assert done.returncode == 1 and named(done) == {other: (lost, session.numbers[lost])}, done
    # Where each server loses it, that is all that is known.
    for fault in ("forgets=1", "closed"):
        log = put(place_of, opened("a\n").end(), "alone.log")
        done = run(program, log, fault)
        assert done.returncode == 2 and "no difference" not in done.stdout, done
        assert "fails at textDocument/formatting: error -32602" in done.stderr, done


def names_each_fault_of_an_open(program, place_of):
    """The fresh server that gets the same text in a didOpen shares it, and one that gets a change doesn't."""
    saved = place_of / "saved.c"
    saved.write_text("int other;\nint more;\n")
    for fault, text, uri in [
        ("ignored", "int a;\n", URI),
        ("disk", "int a;\n", URI),
        ("disk", "int a;\n", saved.as_uri()),
        ("crlf", "int a;\r\nint b;\r\n", URI),
        ("nul", "int a;\nint\0 b;\n", URI),
        ("bom", "\ufeffint a;\n", URI),
        ("nfc", "int a;\n// e\u0301\n", URI),
    ]:
        session = opened(text, uri)
        number = session.sent
        session.change(uri, [(1, 1, "x")])
        session.change(uri, [(0, 0, "y")])
        log = put(place_of, session.end(), f"{fault}.log")
        done = run(program, log, f"opens={fault}")
        assert done.returncode == 1 and "\nat-fault didOpen\n" in done.stdout, (fault, done)
        assert named(done) == {uri: (number, session.numbers[number])}, (fault, done)
        # The last one is right again in the end: a change of the whole text follows.
        session = opened(text, uri)
        session.replace(uri, "int c;\n")
        done = run(program, put(place_of, session.end()), f"opens={fault}")
        wanted = {uri: (number, session.numbers[number])}
        assert done.returncode == 1 and named(done) == wanted, (fault, done)


def says_that_whole_changes_are_at_fault(program, place_of):
    """No message of the log is one, so it accuses none of them; and then one is."""
    session = opened()
    session.change(URI, [(4, 5, "b")])
    done = run(program, put(place_of, session.end()), "wholeless")
    assert (done.returncode, named(done)) == (0, {}), done
    assert "\nat-fault whole-change\n" in done.stdout, done
    session = opened()
    session.change(URI, [(4, 5, "b")])
    number = session.sent + 1
    session.replace(URI, "int c;\n")
    done = run(program, put(place_of, session.end()), "wholeless")
    assert named(done) == {URI: (number, session.numbers[number])}, done


def accuses_no_right_text_for_what_it_sends(program, place_of):
    """A server loses one of the changes that overwrite the lines: one server of a pair this one, the other that
    one. The texts of the log are right. Then each change is a message, since it takes one of each."""
    other = "file:///tmp/other.c"
    for count, lost, *more in [(1, 2), (2, 3, "defs", "one"), (1, 5, "defs", "one")]:
        session = opened("a\n")
        session.open(other, "b\n")
        for it in range(count):
            session.change(other, [(0, 0, f"{it}")])
        done = run(program, put(place_of, session.end()), f"lose={lost}", *more)
        is_silent = (done.returncode, named(done)) == (0, {}) and "at-fault" not in done.stdout
        assert is_silent, (count, lost, done)


def finds_the_message_that_ends_the_server(program, place_of):
    """Not the last one that was sent, which is long after it; with a small case."""
    session = opened("a\n")
    for it in range(4):
        session.change(URI, [(0, 0, f"{it}")])
    deadly = session.change(URI, [(0, 0, "T")])
    for it in range(8):
        session.change(URI, [(0, 0, f"{it}")])
    log, small = put(place_of, session.end()), place_of / "small.log"
    done = run(program, log, "dies=T", options=["--small", small])
    assert (done.returncode, done.stderr) == (1, ""), done
    lines = done.stdout.splitlines()
    start = lines.index(f'ends after {place(session, deadly)} notification "textDocument/didChange"')
    assert lines[start + 1 : start + 4] == [
        f"runs after {place(session, deadly - 1)}",
        'ended "was ended by signal 11"',
        f"needs {place(session, deadly)}",
    ], lines
    # initialize, initialized, didOpen, didChange
    assert f"small {small} 4 messages" in lines and check(program, small) == "yes", lines
    # It counts messages: the tenth, although 17 are sent.
    done = run(program, log, "ends=10")
    assert f"\nends after {place(session, 10)} notification" in done.stdout, done
    again = run(program, small, "dies=T")
    assert again.returncode == 1 and "\nends after editor 4 " in again.stdout, again
    # What precedes it is asked about, too.
    done = run(program, log, "dies=T", "lose=3")
    wanted = session.texts[3][0]
    assert named(done) == {URI: (wanted, session.numbers[wanted])} and "\nends after " in done.stdout, done


def answers_by_scope_and_section(program, place_of):
    """The settings of two folders, which the server asks for in another order than in the log."""
    session = opened("a\n")
    for scope in ("two", "one"):
        items = [{"scopeUri": f"file:///{scope}", "section": it} for it in ("b", "a")]
        session.hear(request(scope, "workspace/configuration", {"items": items}))
        session.send(result(scope, [f"{scope} b", f"{scope} a"]))
    session.change(URI, [(0, 0, "b")])
    log, new = put(place_of, session.end()), place_of / "new.log"
    done = run(program, log, "scoped", options=["--with-settings", "--write", new])
    assert done.returncode == 0 and b'["one a","two a"]' in new.read_bytes(), (done, new.read_bytes())


def tells_fresh_servers_of_folders(program, place_of):
    session = opened("a\n")
    folder = {"uri": "file:///added", "name": "added"}
    params = {"event": {"added": [folder], "removed": []}}
    session.send(notification("workspace/didChangeWorkspaceFolders", params))
    session.change(URI, [(0, 0, "b")])
    done = run(program, put(place_of, session.end()), "folders", options=["--with-settings"])
    assert (done.returncode, named(done)) == (0, {}), done


def accuses_no_server_that_answers_by_what_was_saved(program, place_of):
    session = opened("a\n")
    session.change(URI, [(0, 0, "b")])
    log = put(place_of, session.end(), "never.log")
    done = run(program, log, "saved")
    assert (done.returncode, named(done)) == (0, {}) and "at-fault" not in done.stdout, done
    session = opened("a\n")
    session.send(notification("textDocument/didSave", {"textDocument": {"uri": URI}}))
    lost = session.change(URI, [(0, 0, "b")])
    log = put(place_of, session.end())
    done = run(program, log, "saved")
    assert (done.returncode, named(done)) == (0, {}) and "at-fault" not in done.stdout, done
    assert named(run(program, log, "saved", "lose=1")) == {URI: (lost, session.numbers[lost])}


def asks_again_after_an_error_that_passes(program, place_of):
    """It settles nothing: neither that there is no difference, nor that nothing counts."""
    session = opened("a\n")
    lost = session.change(URI, [(0, 0, "b")])
    log = put(place_of, session.end())
    done = run(program, log, "modified=2")
    assert done.returncode == 0 and f" questions {QUESTIONS} differ 0\n" in done.stdout, done
    done = run(program, log, "modified=2", "lose=1")
    assert named(done) == {URI: (lost, session.numbers[lost])}, done


def says_what_others_say(program, place_of):
    """The server's own words since that message, without what a terminal obeys, and the note of lspcheck."""
    session = opened("a\n")
    session.change(URI, [(0, 0, "b")])
    session.until_wrong = 1
    wrong = session.change(URI, [(0, 1, "T")])
    session.change(URI, [(0, 0, "c")])
    done = run(program, put(place_of, session.end()), "length", "says=T")
    assert named(done) == {URI: (wrong, session.numbers[wrong])}, done
    lines = blocks(done)[URI]
    assert f"note range-length 8 length 1 event {session.numbers[wrong]} editor {wrong}" in lines, lines
    said = next(it for it in lines if it.startswith("so "))
    assert "the editor should leave it out" in json.loads(said[3:]), said
    assert [it for it in lines if it.startswith("stderr ")] == ['stderr "cannot apply a change"'], lines


def takes_many_logs(program, place_of):
    """A line each, and the highest status; as JSON, the objects of each."""
    right, wrong, empty = opened("a\n"), opened("a\n"), sessions.Session(5)
    right.change(URI, [(0, 0, "c")])
    lost = wrong.change(URI, [(0, 0, "b")])
    logs = [put(place_of, it.end(), name) for it, name in
            [(right, "right.log"), (wrong, "wrong.log"), (empty, "empty.log")]]
    logs.append(place_of / "none.log")
    server = [*SERVER, f"first=99:{place_of / 'count'}"]
    lines = [
        f"{logs[0]}: no difference in {QUESTIONS} answers about 1 documents",
        f'{logs[1]}: answers differ after {place(wrong, lost)} notification "textDocument/didChange"',
        f"{logs[2]}: nothing can be said: the log opens no document, so there is nothing to ask about",
        f"{logs[3]}: nothing can be said: {logs[3]}: No such file or directory",
    ]
    for count, status in [(1, 0), (2, 1), (3, 2), (4, 3)]:
        done = run(program, logs[0], server=[*logs[1:count], "--", *server])
        if count == 1:
            assert done.returncode == 0 and done.stdout.startswith("yes\n"), done
            continue
        assert (done.returncode, done.stdout.splitlines()) == (status, lines[:count]), done
    done = run(program, logs[0], options=["--json"], server=[*logs[1:], "--", *server])
    objects = [json.loads(it) for it in done.stdout.splitlines()]
    assert [it["status"] for it in objects if it["is"] == "status"] == [0, 1, 2, 3], done
    differing = next(it for it in objects if it["is"] == "answers differ after")
    assert differing == {
        "file": str(logs[1]), "is": "answers differ after", "event": wrong.numbers[lost], "side": "editor",
        "number": lost, "kind": "notification", "method": "textDocument/didChange",
    }, differing
    alone = run(program, logs[1], options=["--json"], server=server)
    assert [json.loads(it)["is"] for it in alone.stdout.splitlines()][:2] == ["yes", "messages"], alone
    refused = run(program, logs[0], options=["--small", place_of / "x"], server=[*logs[1:], "--", *server])
    assert refused.returncode == 64 and "take one log" in refused.stderr, refused


TESTS = [
    names_each_fault_of_an_open,
    finds_the_message_that_ends_the_server,
    accuses_no_right_text_for_what_it_sends,
    names_what_shows_in_no_answer,
    shows_each_character_that_is_lost,
    sees_a_line_too_many_at_the_end,
    names_the_first_where_names_show_nothing,
    finds_how_a_language_declares_names,
    sees_what_diagnostics_alone_show,
    says_that_whole_changes_are_at_fault,
    names_what_loses_changes_of_a_message,
    says_text_where_the_server_tells_it,
    says_nothing_without_questions,
    names_a_lost_open,
    answers_by_scope_and_section,
    tells_fresh_servers_of_folders,
    accuses_no_server_that_answers_by_what_was_saved,
    asks_again_after_an_error_that_passes,
    says_what_others_say,
    takes_many_logs,
]
