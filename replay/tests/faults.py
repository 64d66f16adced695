"""Each fault of a server is named at the very message that first shows it."""

import itertools

import expected
import sessions
from trials import QUESTIONS, check, is_clean, named, run, side_by_side

LINE_ENDS = ["\r\n", "\r"]

# A fault that changes texts, and the sessions in which it does.
FAULTS = [
    (["lose=4"], {}),
    (["characters"], {}),
    (["characters"], {"documents": 2, "form": 1}),
    (["bytes"], {}),
    (["characters", "utf-8"], {"encoding": "utf-8"}),
    (["backwards"], {}),
    (["twolineends"], {"ends": LINE_ENDS}),
    (["nolineend"], {"ends": LINE_ENDS}),
    (["last"], {"documents": 2}),
    (["length"], {"wrong_length": 9}),
    (["gaps"], {"form": 1}),
    (["lose=6", "ask"], {"asks": 0.5}),
]
# With --all, each fault meets sessions of these lengths.
LONGER = [60, 200, 2000]


def session_of(faults, messages, more, first_seed=0):
    """A session with a document that a fault spoils to the end, and the message that does it."""
    for seed in itertools.count(first_seed):
        session = sessions.session(seed, messages, **more)
        drifts = expected.first_drift(faults, session)
        if drifts and None not in drifts.values():
            return session, drifts


def is_named(program, place, faults, messages, more, first_seed):
    """Each document's message is named, and the small case shows the difference again."""
    session, drifts = session_of(faults, messages, more, first_seed)
    stem = "-".join([*faults, *map(str, more.values()), str(messages), str(first_seed)])
    stem = "".join(it if it.isalnum() or it in "-=" else "_" for it in stem)
    log, small = place / f"{stem}.log", place / f"{stem}-small.log"
    log.write_bytes(session.log)
    assert check(program, log) == "yes"
    done = run(program, log, *faults, options=["--small", small])
    is_clean(done)
    wanted = {uri: (number, session.numbers[number]) for uri, number in drifts.items()}
    assert done.returncode == 1 and named(done) == wanted, (wanted, done.stdout, done.stderr)
    assert check(program, small) == "yes", small.read_bytes()
    again = run(program, small, *faults)
    assert again.returncode == 1 and len(named(again)) == 1, again.stdout


def names_the_message(program, place):
    rows = [(program, place, faults, 20, more, 0) for faults, more in FAULTS]
    side_by_side(is_named, rows)


def names_the_message_of_long_sessions(program, place):
    rows = [
        (program, place, faults, messages, more, 100)
        for messages in LONGER
        for faults, more in FAULTS
        if not (messages == 2000 and "asks" in more)
    ]
    side_by_side(is_named, rows)


def names_what_came_too_early(program, place):
    """The server drops what comes before it has answered a request, as the log has it."""
    session = sessions.Session(1)
    uri = "file:///early.py"
    session.open(uri)
    session.change(uri, [(0, 0, "a")])
    asked = session.ask(uri, is_quick=False)
    lost = session.change(uri, [(0, 0, "b")])
    session.hear(sessions.result(asked, None))
    session.change(uri, [(0, 0, "c")])
    log = place / "early.log"
    log.write_bytes(session.end().log)
    done = run(program, log, "open")
    assert named(done) == {uri: (lost, session.numbers[lost])}, done.stdout


def healed(seed):
    """A session in which a change is lost, and the whole text is sent later."""
    session = sessions.Session(seed)
    uri = "file:///healed.py"
    session.open(uri)
    numbers = [session.change(uri, [(0, 0, f"{it}")]) for it in range(6)]
    session.replace(uri, "new\n")
    numbers += [session.change(uri, [(0, 0, f"{it}")]) for it in range(3)]
    return session.end(), uri, numbers


def every_finds_what_was_put_right(program, place):
    session, uri, numbers = healed(3)
    log = place / "healed.log"
    log.write_bytes(session.log)
    done = run(program, log, "lose=4")
    wanted = {uri: (numbers[3], session.numbers[numbers[3]])}
    assert named(done) == wanted, done.stdout
    for every in (1, 2, 5):
        done = run(program, log, "lose=4", options=["--every", every])
        assert named(done) == wanted, (every, done.stdout)
    # After each fourth change, the text is wrong once, and after each eighth never.
    assert named(run(program, log, "lose=4", options=["--every", 8])) == {}


def finds_the_first_of_a_late_server(program, place):
    """Answers by an older text do not count, and do not hide the message."""
    session, drifts = session_of(["lose=5"], 20, {"asks": 0}, 7)
    log = place / "late.log"
    log.write_bytes(session.log)
    assert run(program, log, "late=0.15").returncode == 0
    done = run(program, log, "late=0.1", "lose=5")
    assert {uri: number for uri, (number, _) in named(done).items()} == drifts, done.stdout


def says_that_runs_disagree(program, place):
    """A server that is wrong only now and then: no message is named."""
    session = sessions.Session(2)
    uri = "file:///now-and-then.py"
    session.open(uri)
    session.change(uri, [(0, 0, "a")])
    last = session.change(uri, [(0, 0, "b")])
    log = place / "now-and-then.log"
    log.write_bytes(session.end().log)
    # In the replay, and in three that the questions at the end need.
    done = run(program, log, f"first=4:{place / 'count'}")
    line = f'repeated runs disagree after editor {last} event {session.numbers[last]} notification'
    assert done.returncode == 1 and named(done) == {}, done.stdout
    assert f'{line} "textDocument/didChange"\n' in done.stdout, done.stdout


def names_a_document_opened_again(program, place):
    """The server has kept the old text. The small case needs that one, too."""
    session = sessions.Session(1)
    uri = "file:///again.py"
    session.open(uri, "a\n")
    session.change(uri, [(0, 0, "b")])
    session.close(uri)
    session.open(uri, "c\n")
    again = session.sent
    session.change(uri, [(2, 2, "d")])
    log, small = place / "again.log", place / "small.log"
    log.write_bytes(session.end().log)
    done = run(program, log, "keeps", options=["--small", small])
    assert named(done) == {uri: (again, session.numbers[again])}, done.stdout
    assert " after editor " in done.stdout and "answers same after" not in done.stdout, done.stdout
    # initialize, initialized, didOpen, didClose, didOpen, shutdown, exit
    assert done.stdout.endswith(f"\nsmall {small} 7 messages\n"), done.stdout
    assert check(program, small) == "yes" and len(named(run(program, small, "keeps"))) == 1


def says_what_is_unknown(program, place):
    """No question counts after the message before: each server fails at that text."""
    session = sessions.Session(1)
    uri = "file:///unknown.py"
    session.open(uri, "a\n")
    unknown = session.change(uri, [(0, 0, "X")])
    lost = session.change(uri, [(0, 1, "b")])
    log = place / "unknown.log"
    log.write_bytes(session.end().log)
    done = run(program, log, "picky", "lose=2")
    assert named(done) == {uri: (lost, session.numbers[lost])}, done.stdout
    lines = done.stdout.splitlines()
    assert f"unknown after editor {unknown} event {session.numbers[unknown]}" in lines, lines
    assert lines.count('replayed error -32602 "no such document"') == 3, lines


def says_why_there_is_no_small_case(program, place):
    session = sessions.Session(2)
    uri = "file:///none.py"
    session.open(uri)
    session.change(uri, [(0, 0, "a")])
    last = session.change(uri, [(0, 0, "b")])
    log, small = place / "none.log", place / "small.log"
    log.write_bytes(session.end().log)
    for faults, why in [
        # The same, and in the three that confirm what was found.
        ([f"first=7:{place / 'count'}"], "repeated runs disagree"),
        (["careless", "lose=2"], "lspcheck says no 203 server 1 event 2"),
    ]:
        done = run(program, log, *faults, options=["--small", small])
        assert named(done) == {uri: (last, session.numbers[last])}, done.stdout
        assert done.stdout.endswith(f"\nsmall none: {why}\n") and not small.exists(), done.stdout


def every_finds_it_in_a_closed_document(program, place):
    session = sessions.Session(4)
    uri, other = "file:///closed.py", "file:///open.py"
    session.open(uri)
    session.open(other)
    lost = session.change(uri, [(0, 0, "a")])
    session.change(uri, [(0, 0, "b")])
    session.close(uri)
    session.change(other, [(0, 0, "c")])
    log = place / "closed.log"
    log.write_bytes(session.end().log)
    done = run(program, log, "lose=1", options=["--every", 2])
    assert named(done) == {uri: (lost, session.numbers[lost])}, done.stdout
    shown = [f'document "{other}" version 1 questions {QUESTIONS} differ 0', f'document "{uri}" version 2 questions {QUESTIONS} differ 5']
    assert [it for it in done.stdout.splitlines() if it.startswith('document "')] == shown, done.stdout


def says_nothing_of_answers_that_change(program, place):
    session, _ = session_of(["lose=5"], 20, {}, 7)
    log = place / "otherwise.log"
    log.write_bytes(session.log)
    for faults in (["otherwise"], ["otherwise", "lose=5"], ["own"]):
        done = run(program, log, *faults)
        assert (done.returncode, named(done)) == (2, {}), done.stdout
        assert "no answer counts: fresh servers answer otherwise each time\n" in done.stderr, done.stderr


TESTS = [
    names_the_message,
    names_what_came_too_early,
    every_finds_what_was_put_right,
    finds_the_first_of_a_late_server,
    says_that_runs_disagree,
    names_a_document_opened_again,
    says_what_is_unknown,
    says_why_there_is_no_small_case,
    every_finds_it_in_a_closed_document,
    says_nothing_of_answers_that_change,
]
LONG_TESTS = [names_the_message_of_long_sessions]
