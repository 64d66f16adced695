"""The command: its statuses and messages, each value that it writes, and its options."""

import json
import os
import re
import shutil
import subprocess
import sys
import threading

import sessions
from expected import messages_of
from logs import frame, notification, request, result, snapshot
from processes import quoted
from trials import COMMAND, QUESTIONS, TOP, check, run, run_waiting

URI = "file:///old/folder/a%20b.py"
AT_THE_END = ('"shutdown"', '"exit"')
TEXT = "def f():\n    return 1\n"
# What is left out without it has tests of its own.
WHOLE = ["--with-settings"]


def small_session(uri=URI):
    """Two texts, five requests, and what a server asks, answered once."""
    session = sessions.Session(5)
    session.open(uri, TEXT)
    session.hear(request("s", "workspace/configuration", {"items": [{}, {}]}))
    session.send(result("s", [{"kept": "é"}, None]))
    session.change(uri, [(0, 0, "😀")])
    session.ask(uri)
    session.ask(uri, "textDocument/references")
    session.change(uri, [(4, 5, "g")])
    return session


def put(place, session, name="session.log"):
    log = place / name
    log.write_bytes(session.log)
    return log


def refuses(done, status, words):
    """Fails unless the run ended with this status, and said one thing on standard error."""
    assert done.returncode == status, done
    last = done.stderr.splitlines()[-1]
    assert last.startswith("lspcheck-replay: ") and words in last, done.stderr
    assert "Traceback" not in done.stderr, done.stderr


def answers_bad_arguments(program, place):
    log = put(place, small_session().end())
    for options, words in [
        (["--every", "0"], "0 is not a number from 1"),
        (["--every", "x"], "x is not a number from 1"),
        (["--wait", "0"], "0 is not a number of seconds"),
        (["--wait", "nan"], "nan is not a number of seconds"),
        (["--map", "/a"], "/a is not OLD=NEW"),
        (["--map", "a=/tmp"], "a=/tmp is not OLD=NEW"),
        (["--map", f"/a={place}/none"], f"{place}/none is not a folder"),
        (["--write", log], "is the log that is replayed"),
        (["--small", log], "is the log that is replayed"),
        (["--write", place / "x", "--small", place / "x"], "name the same file"),
        (["--write", "-"], "- is not a file to write: standard output has the report"),
        (["--small", "-"], "- is not a file to write: standard output has the report"),
        (["--bogus"], "--bogus"),
        # No option may be cut short, so that a later one can't change what a script means.
        (["--smal", place / "x"], "--smal"),
    ]:
        refuses(run(program, log, options=options), 64, words)
    refuses(run(program, log, server=[]), 64, "SERVER")


def answers_faults_of_files(program, place):
    log = put(place, small_session().end())
    refuses(run(program, place / "none"), 3, "none: No such file or directory")
    refuses(run(program, place), 3, "Is a directory")
    for option in ("--write", "--small"):
        refuses(run(program, log, options=[option, place / "no/file"]), 3, "No such file or directory")
        refuses(run(program, log, options=[option, place]), 3, "Is a directory")
    refuses(run(program, place / "a\x1b[31m\nb.log"), 3, 'a\\u001b[31m\\nb.log": No such file or directory')
    with open("/dev/full", "w") as full:
        for options, given in [([], log), (["--version"], log), (["--help"], log)]:
            done = run(program, given, options=options, capture_output=False, stdout=full, stderr=-1)
            refuses(done, 3, "standard output: No space left on device")


def ends_quietly_where_its_reader_is_gone(program, place):
    log = put(place, small_session().end())
    for options in (["--help"], ["--version"], []):
        reader, writer = os.pipe()
        os.close(reader)
        done = run(program, log, options=options, capture_output=False, stdout=writer, stderr=-1)
        os.close(writer)
        assert (done.returncode, done.stderr) == (141, ""), (options, done)


def reads_standard_input(program, place):
    """From a pipe, a file or a named pipe: what is found is the same, and no copy is left."""
    log, folder = put(place, small_session().end()), place / "temporary"
    folder.mkdir()
    how = {"env": {**os.environ, "TMPDIR": str(folder)}}
    wanted = run(program, log, "lose=2", **how)
    assert wanted.returncode == 1 and "answers differ after editor " in wanted.stdout, wanted
    piped = run(program, "-", "lose=2", input=log.read_bytes().decode(), **how)
    assert (piped.returncode, piped.stdout, piped.stderr) == (1, wanted.stdout, ""), piped
    with log.open() as file:
        assert run(program, "-", "lose=2", stdin=file, **how).stdout == wanted.stdout
    os.mkfifo(place / "pipe.log")
    threading.Thread(target=(place / "pipe.log").write_bytes, args=[log.read_bytes()], daemon=True).start()
    assert run(program, place / "pipe.log", "lose=2", **how).stdout == wanted.stdout
    refuses(run(program, "-", input="", **how), 2, "standard input: there is nothing to replay")
    assert list(folder.iterdir()) == [], list(folder.iterdir())


def says_that_the_log_changed(program, place):
    """A log that is still being written: what was judged and what is read would differ."""
    log = put(place, small_session().end())
    writes = place / "writes"
    writes.write_text(f'#!/bin/sh\n[ "$1" != check ] || printf x >> {quoted(log)}\nexec {quoted(program)} "$@"\n')
    writes.chmod(0o755)
    refuses(run(writes, log), 2, "session.log: it changed while it was read: try again")


def says_its_version(program, place):
    """That of the lspcheck that it would run, word for word."""
    said = subprocess.run([program, "--version"], capture_output=True, text=True).stdout
    other, missing = place / "other", "there is no lspcheck next to this command or on the PATH: use --program"
    other.write_text("#!/bin/sh\necho 'lspcheck 9.9 (checked, not proved), commit 0123456789ab'\n")
    other.chmod(0o755)
    for words, status, out, errors in [
        (["--program", program], 0, said, ""),
        (["--program", other], 0, "lspcheck 9.9 (checked, not proved), commit 0123456789ab\n", ""),
        (["--program", "true"], 2, "", f"lspcheck-replay: {shutil.which('true')}: this program is not lspcheck\n"),
        ([], 2, "", f"lspcheck-replay: {missing}\n"),
    ]:
        how = {"capture_output": True, "text": True, "env": os.environ if words else {"PATH": str(place / "empty")}}
        for given in (["--version", *words], [*words, "--version"]):
            done = subprocess.run([sys.executable, COMMAND, *map(str, given)], **how)
            assert (done.returncode, done.stdout, done.stderr) == (status, out, errors), done
    assert f'"lspcheck {said.split()[1]}"' in (TOP / "docs/lspcheck-replay.1").read_text().split("\n")[0]


def says_why_nothing_can_be_said(program, place):
    log = put(place, small_session().end())
    bad = place / "bad.log"
    bad.write_bytes(b"hello\n")
    done = run(program, bad)
    refuses(done, 2, "nothing to replay")
    assert done.stdout == "bad log L1 record 0\nbad first line\n", done.stdout
    refuses(run(program, log, server=["/no/such/server"]), 2, "/no/such/server: No such file")
    refuses(run(program, log, "offerless"), 2, "offers none of the questions")
    failing = 'fails at textDocument/formatting: error -32602 "no such document"'
    hint = "; if it needs the files of a project, see --map"
    refuses(run(program, log, "closed"), 2, failing + hint)
    mapped = run(program, log, "closed", options=["--map", f"/old={place}"])
    refuses(mapped, 2, failing)
    assert "see --map" not in mapped.stderr, mapped
    refuses(run(program, log, "utf-8"), 2, "agrees on utf-8 columns, and not on utf-16, as in the log")
    refuses(run("/no/such/lspcheck", log), 2, "/no/such/lspcheck: there is no such program")
    refuses(run(shutil.which("true"), log), 2, "this program is not lspcheck")
    plain = put(place, sessions.Session(1).end(), "plain.log")
    refuses(run(program, plain), 2, "opens no document")


def writes_each_value(program, place):
    """The lines of a session without a difference, and of one with a difference."""
    session = small_session()
    asked = session.ask(URI, "textDocument/references")
    session.log = session.log.replace(b'"id": %d, "result": null' % asked, b'"id": %d, "error": {"code": 1, "message": ""}' % asked)
    session.log = re.sub(rb"S (\d+)\nContent-Length: (\d+)(\r\n\r\n.*?\"error\": .*?\}\})\n", grown, session.log)
    log = put(place, session.end())
    report = run(program, log, options=WHOLE).stdout.splitlines()
    judged = report.index(next(it for it in report if it.startswith("replayed ")))
    numbers = session.numbers
    refused = next(it for it, message in enumerate(messages_of(session.log), 1) if message.get("method") == "textDocument/hover")
    done = run(program, log, "refuse=textDocument/hover", options=WHOLE)
    assert report[0] == "yes" and report[judged - 1] == f'document 2 {len(TEXT) + 4} "{URI}"', report
    # The server sends: answers to initialize, three requests and shutdown; three diagnostics.
    assert report[judged:] == [
        f"replayed {session.sent} editor 8 server",
        "answers 4 same 3 became-error 0 became-result 1",
        f'became-result editor {session.sent - 2} event {numbers[session.sent - 2]} request {asked} "textDocument/references"',
        f'document "{URI}" version 2 questions {QUESTIONS} differ 0',
        f"no difference in {QUESTIONS} answers about 1 documents",
    ], report
    assert (done.returncode, done.stderr) == (0, ""), done
    lines = done.stdout.splitlines()[judged:]
    assert lines[1] == "answers 4 same 2 became-error 1 became-result 1", lines
    assert lines[2] == f'became-error editor {refused} event {numbers[refused]} request 2 "textDocument/hover"', lines


def grown(found):
    """A record whose content has grown."""
    content = found[3][4:]
    data = b"Content-Length: %d\r\n\r\n%s" % (len(content), content)
    return b"S %d\n%s\n" % (len(data), data)


def writes_the_difference(program, place):
    session = small_session()
    last, before = session.sent, session.sent - 1
    log = put(place, session.end())
    small = place / "small.log"
    done = run(program, log, "lose=2", options=[*WHOLE, "--small", small])
    lines = done.stdout.splitlines()
    start = lines.index(f'document "{URI}" version 2 questions {QUESTIONS} differ 4')
    whole = {"start": {"line": 0, "character": 0}, "end": {"line": 3, "character": 0}}
    texts = ["😀def f():\n    return 1\n", "😀defgf():\n    return 1\n"]
    formatted = [json.dumps([{"range": whole, "newText": it}], ensure_ascii=False, separators=(",", ":")) for it in texts]
    first = last - 3
    assert lines[start + 1 : start + 8] == [
        f'answers differ after editor {last} event {session.numbers[last]} notification "textDocument/didChange"',
        f"answers same after editor {before} event {session.numbers[before]}",
        'missing line 0 "😀defgf():"',
        f"needs editor {first} event {session.numbers[first]} to editor {last} event {session.numbers[last]}",
        'question "textDocument/formatting"',
        f"replayed {formatted[0]}",
        f"fresh {formatted[1]}",
    ], lines
    assert lines[start + 8] == 'question "textDocument/documentSymbol"' and len(lines) == start + 12, lines
    # The change is the second in the process, so the small case has both, and what is between them:
    # initialize, initialized, didOpen, didChange, two requests, didChange, shutdown, exit.
    assert lines[-1] == f"small {small} 9 messages", lines
    # This one shows itself: initialize, initialized, didOpen, didChange, shutdown, exit.
    done = run(program, log, "characters", options=[*WHOLE, "--small", small])
    assert done.stdout.endswith(f"\nsmall {small} 6 messages\n"), done.stdout


def cuts_long_answers(program, place):
    """What is different is shown, whatever precedes it."""
    session = sessions.Session(5)
    session.open(URI, "x = 1\n" * 100)
    session.change(URI, [(300, 301, "DIFFERENT")])
    done = run(program, put(place, session.end()), "lose=1")
    shown = [it for it in done.stdout.splitlines() if it.startswith(("replayed ..", "fresh .."))]
    assert len(shown) == 4 and all(len(it) < 250 and it.endswith("..") for it in shown), shown
    assert ["DIFFERENT" in it for it in shown] == [False, True] * 2, shown


def lists_what_is_not_answered(program, place):
    log = put(place, small_session().end())
    answers = "answers 2 same 2 became-error 0 became-result 0\n"
    done, _ = run_waiting(program, log, "mute=textDocument/hover", is_wanted=lambda done, _: answers in done.stdout)
    assert done.returncode == 0, done
    assert answers in done.stdout, done.stdout
    assert re.search(r'^unanswered editor 6 event \d+ request 2 "textDocument/hover"$', done.stdout, re.M), done.stdout
    session = small_session()
    for _ in range(4):
        session.ask(URI)
    # The third request without an answer is the last that is waited for.
    where = f"editor 10 event {session.numbers[10]} request 5"
    log = put(place, session.end())
    done, seconds = run_waiting(program, log, "mute=textDocument/hover", is_wanted=lambda done, _: where in done.stderr)
    refuses(done, 2, f'gave no answer in {seconds} seconds (see --wait) to {where} "textDocument/hover"')


def replays_as_far_as_it_goes(program, place):
    """A log that is cut, one with a bad record, and one that breaks a rule: what precedes is tried."""
    session = small_session()
    good = session.log
    number, event = session.sent, session.events
    cut = place / "cut.log"
    cut.write_bytes(good + b"E 100\nab")
    done = run(program, cut, options=WHOLE)
    assert done.returncode == 0 and done.stdout.startswith("bad log L4 record "), done
    record = done.stdout.split()[4]
    assert f"replayed {number} editor 7 server before record {record}\n" in done.stdout, done.stdout
    cut.write_bytes(good + b"X 1\na\n" + frame(b"E", notification("exit", {})))
    done = run(program, cut, "lose=1", options=WHOLE)
    assert done.returncode == 1 and f"replayed {number} editor 7 server before record" in done.stdout, done
    broken = [
        frame(b"E", {"jsonrpc": "2.0", "method": "textDocument/didClose", "params": {"textDocument": {"uri": "file:///none"}}}),
        frame(b"E", b"{"),
        b"E 21\nContent-Length: x\r\n\r\n\n",
        frame(b"S", result(99, None)),
        snapshot(URI, 2, "another text"),
    ]
    for last in broken:
        log = place / "no.log"
        log.write_bytes(good + last + frame(b"E", request(77, "textDocument/hover", {})))
        done = run(program, log, options=WHOLE)
        assert re.match(rf"no \d+ \w+ \d+ event {event + 1}\n", done.stdout), done.stdout
        line = f"replayed {number} editor 7 server before event {event + 1}\n"
        assert done.returncode == 0 and line in done.stdout, done


def asks_before_all_is_closed(program, place):
    """An editor that closes its documents before it quits."""
    session = small_session()
    last = session.sent
    session.close(URI)
    log = put(place, session.end())
    done = run(program, log)
    assert f'document "{URI}" version 2 questions {QUESTIONS} differ 0\n' in done.stdout, done
    done = run(program, log, "lose=2")
    assert f"answers differ after editor {last} event {session.numbers[last]} " in done.stdout, done.stdout


def writes_the_session(program, place):
    """--write: the editor's bytes, its answers, the snapshots in their places, no questions; lspcheck says yes."""
    session = small_session()
    session.form = 1
    session.hear(request("e", "workspace/applyEdit", {"edit": {}}))
    session.send(result("e", {"applied": True}))
    log, new = put(place, session.end()), place / "new.log"
    done = run(program, log, "ask", "slow=0.1", options=[*WHOLE, "--write", new])
    assert done.returncode == 0 and check(program, new) == "yes", done
    assert new.read_bytes().startswith(b"lsp-session 2\n") and new.stat().st_mode & 0o777 == 0o600
    assert answered_before(program, log) == answered_before(program, new)
    kept, sent = list(messages_of(session.log)), list(messages_of(new.read_bytes()))
    kept[0]["params"]["processId"] = sent[0]["params"]["processId"]
    assert isinstance(sent[0]["params"]["processId"], int) and sent[0]["params"]["processId"] != 1
    answers = [it for it in sent if "method" not in it]
    assert answers == [
        {"jsonrpc": "2.0", "id": "ask-3", "result": [{"kept": "é"}, None]},
        # The log has an answer to one such request, and none to a second one.
        {"jsonrpc": "2.0", "id": "edit-3", "result": {"applied": True}},
        {"jsonrpc": "2.0", "id": "again-3", "result": {"applied": False}},
        {"jsonrpc": "2.0", "id": 3, "error": {"code": -32601, "message": "Method not found"}},
    ], answers
    rest = [it for it in sent if it not in answers]
    assert rest == [it for it in kept if "method" in it], rest
    records = [re.findall(rb"^(?:T \d+|E(?= \d+\nContent-Length: \d+\r\n\r\n.*didChange))", it.read_bytes(), re.M) for it in (log, new)]
    assert records[0] == records[1] and b"T 2" in records[0], records


def answered_before(program, log):
    """The methods that the editor sends, each with how many of its requests were answered by then."""
    shown = subprocess.run([program, "show", log], capture_output=True, text=True).stdout
    found, answers = [], 0
    for line in shown.splitlines():
        words = line.split()
        answers += words[1:3] == ["server", "result"]
        if words[1:3] in (["editor", "request"], ["editor", "notification"]) and words[-1] not in AT_THE_END:
            found.append((words[-1], answers))
    return found


def puts_other_folders(program, place):
    """--map: in URIs and paths, escaped or not, and nowhere else."""
    new_folder = place / "new é"
    new_folder.mkdir()
    session = sessions.Session(5)
    start = b'"params": {"processId": 1, '
    roots = b'"rootUri": "file:\\/\\/\\/old\\/folder", "rootPath": "/old/folder", "workspaceFolders": [{"uri": "file:///old/folder2"}], '
    head, _, rest = session.log.partition(b"\n")
    session.log = head + b"\n" + rest.replace(start, start + roots)
    session.log = re.sub(rb"^E \d+\nContent-Length: \d+(\r\n\r\n.*?)\nS ", lengthened, session.log, 1, re.M | re.S)
    session.open(URI, "/old/folder/x\n")
    session.send(notification("workspace/didChangeConfiguration", {"settings": {"/old/folder/x": ["/old/folder/y/", "-I/old/folder", "/old/folder2"]}}))
    log, new = put(place, session.end()), place / "new.log"
    done = run(program, log, options=[*WHOLE, "--write", new, "--map", f"/old/folder/={new_folder}"])
    assert done.returncode == 0 and check(program, new) == "yes", done
    assert f'document "{URI}" version 0 questions {QUESTIONS} differ 0' in done.stdout, done.stdout
    first, _, opened, settings, *_ = messages_of(new.read_bytes())
    uri = "file://" + str(new_folder).replace(" ", "%20").replace("é", "%C3%A9")
    assert first["params"]["rootUri"] == uri and first["params"]["rootPath"] == str(new_folder), first
    assert first["params"]["workspaceFolders"] == [{"uri": "file:///old/folder2"}], first
    document = opened["params"]["textDocument"]
    assert (document["uri"], document["text"]) == (f"{uri}/a%20b.py", "/old/folder/x\n"), document
    assert settings["params"]["settings"] == {f"{new_folder}/x": [f"{new_folder}/y/", "-I/old/folder", "/old/folder2"]}, settings
    refuses(run(program, log, options=["--map", f"/nowhere={new_folder}"]), 2, "/nowhere is in no message")


def lengthened(found):
    """The first record of a log, whose content has grown."""
    content = found[1][4:]
    data = b"Content-Length: %d\r\n\r\n%s" % (len(content), content)
    return b"E %d\n%s\nS " % (len(data), data)


def asks_what_is_offered(program, place):
    """The help, and the manual page: they have the same options."""
    helped = run(program, "--help", server=[], command=COMMAND).stdout
    manual = (TOP / "docs/lspcheck-replay.1").read_text().replace("\\-", "-")
    options = re.findall(r"^  (--[\w-]+)", helped, re.M)
    assert len(options) == 10, helped
    assert sorted(re.findall(r"^\.TP\n\.BI? (--[\w-]+)", manual, re.M)) == sorted(options), options
    synopsis = manual.partition(".SH DESCRIPTION")[0]
    assert sorted([*re.findall(r"--[\w-]+", synopsis), "--version"]) == sorted(options), synopsis
    statuses = re.findall(r"^\.TP\n\.B (\d+)$", manual, re.M)
    assert statuses == ["0", "1", "2", "3", "64"], statuses
    assert re.findall(r"\b(\d+) (?:no|a|nothing|bad) ", helped.replace("\n", " ")) == statuses, helped


TESTS = [
    answers_bad_arguments,
    answers_faults_of_files,
    ends_quietly_where_its_reader_is_gone,
    reads_standard_input,
    says_that_the_log_changed,
    says_its_version,
    says_why_nothing_can_be_said,
    writes_each_value,
    writes_the_difference,
    cuts_long_answers,
    lists_what_is_not_answered,
    replays_as_far_as_it_goes,
    asks_before_all_is_closed,
    writes_the_session,
    puts_other_folders,
    asks_what_is_offered,
]
