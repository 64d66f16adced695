"""Tests of logs with lspcheck itself: of `--check`, and of the extension for VS Code."""

import os
import re
import shutil
import signal
import subprocess
import time
from pathlib import Path

from processes import SECONDS, until
from session import PROXY, PYTHON, SERVER, TRACED, Editor, sent, snapshot

HERE = Path(__file__).resolve().parent

TITLE = b"file:///a"

# What is reported of a text whose line ends alone differ.
LINE_ENDS = "no 702 snapshot 1 event 5, line ends alone"

# How many seconds at most it takes to report a few violations, on a busy machine.
MOST = 60


def checked(place, program, *options, **how):
    """A session whose log is checked, with a file for snapshots."""
    folder = place / "bin"
    folder.mkdir()
    (folder / "lspcheck").symlink_to(program)
    search = f"{folder}:{os.environ['PATH']}"
    (place / "snapshots").write_bytes(b"")
    setting = {"PATH": search, "LSPCHECK_SNAPSHOTS": str(place / "snapshots")}
    return Editor(place, *options, setting=setting, **how).start()


def say_text(editor, version, text):
    """What a plug-in says that the editor has."""
    with open(editor.place / "snapshots", "ab") as file:
        file.write(snapshot(TITLE, version, text))


def heads(editor, count, seconds=SECONDS):
    """The first lines of this many explanations and notes on standard error, or of those that come
    within some seconds."""

    def found():
        whole = editor.words().rpartition("\n")[0]
        return [line for line in whole.split("\n") if line.startswith(("no ", "note "))]

    until(lambda: len(found()) >= count, seconds)
    return found()


def tells_each(place, program):
    """A file with CR LF that the editor sends with LF, and two changes that are lost after that.
    Each is reported before anything else happens."""
    editor = checked(place, program, "--check")
    begun = time.monotonic()
    editor.open(TITLE.decode(), "one\ntwo\n")
    editor.has_logged(b"didOpen")
    say_text(editor, 1, b"one\r\ntwo\r\n")
    found = heads(editor, 1)
    yield "line ends, and that it is these", found == [LINE_ENDS], found
    say_text(editor, 1, b"one\r\ntwo\r\n")
    editor.taken(2)
    editor.change(TITLE.decode(), 2, "three\n")
    editor.has_logged(b"didChange")
    say_text(editor, 2, b"three\r\n")
    found = heads(editor, 2, 1.5)
    yield "once", found == [LINE_ENDS], found
    say_text(editor, 2, b"two\r\n")
    found = heads(editor, 2)
    yield "a lost change", found[1:] == ["no 702 snapshot 4 event 9"], found
    editor.tell("initialized", {})
    found = heads(editor, 3)
    yield "another violation", found[2:] == ["no 404 editor 5 event 10"], found
    seconds = time.monotonic() - begun
    yield "in a moment", seconds < MOST, seconds
    yield "the session continues", editor.quit() == 0, editor.words()
    copy, = editor.logs.glob("*.explain")
    yield "is next to the log, too", copy.read_text() == editor.words(), copy.read_text()
    yield "nobody else reads it", copy.stat().st_mode & 0o777 == 0o600, copy.stat()


def keeps_others_files(place, program):
    """Files that have the names of those next to the log stay as they are, and this is said."""
    editor = checked(place, program, "--check")
    editor.has_logged(b'"initialized"')
    log, = editor.logs.glob("*.log")
    explain, ended = log.with_suffix(".explain"), log.with_suffix(".exit")
    for path in (explain, ended):
        path.write_text("of another\n")
    editor.tell("initialized", {})
    found = heads(editor, 1)
    yield "is told", found == ["no 404 editor 3 event 4"], found
    yield "the session continues", editor.quit() == 0, editor.words()
    for path in (explain, ended):
        yield f"{path.suffix} stays", path.read_text() == "of another\n", path.read_text()
    said = [line for line in editor.words().split("\n") if line.startswith("proxy: ")]
    wanted = [f"proxy: {explain}: File exists; explanations are written here alone"]
    wanted.append(f"proxy: {ended}: File exists")
    yield "is said", said == wanted, said


def tells_lost_end(place, program):
    """The editor adds a line end to its last line, and does not send it. The texts were equal
    before, so the option is not offered: it is reported all the same."""
    editor = checked(place, program, "--check")
    editor.open(TITLE.decode(), "one\n")
    editor.has_logged(b"didOpen")
    say_text(editor, 1, b"one\n")
    editor.taken(1)
    editor.change(TITLE.decode(), 2, "two")
    editor.has_logged(b"didChange")
    say_text(editor, 2, b"two\n")
    found = heads(editor, 1)
    yield "as line ends", found == ["no 702 snapshot 2 event 7, line ends alone"], found
    said = editor.words().split("\n")
    yield "which", "ends last" in said and not any(it.startswith("line-ends ") for it in said), said
    editor.quit()


def tells_notes(place, program):
    """What servers drop documents for, and a refused request, are reported once, before a violation
    and after it; no other note is."""
    editor = checked(place, program, "--check")
    far = {"start": {"line": 0, "character": 9}, "end": {"line": 0, "character": 9}}
    editor.open(TITLE.decode(), "one\n")
    editor.change(TITLE.decode(), 2, "x", far)
    wanted = ["note past-end 0 9 length 3 event 5 editor 4"]
    found = heads(editor, 1)
    yield "a position", found == wanted, found
    editor.change(TITLE.decode(), 3, "y", far)
    editor.tell("textDocument/hover")
    for _ in range(2):
        editor.ask("refuse", {"textDocument": {"uri": TITLE.decode()}})
    wanted.append('note refused -32602 "file:///a" event 9 server 2')
    found = heads(editor, 2)
    yield "a request", found == wanted, found
    editor.tell("initialized", {})
    wanted.append("no 404 editor 9 event 12")
    found = heads(editor, 3)
    yield "a violation", found == wanted, found
    editor.open("file:///b", "two\n")
    start, end = {"line": 0, "character": 0}, {"line": 0, "character": 2}
    change = {"range": {"start": start, "end": end}, "rangeLength": 3, "text": ""}
    document = {"uri": "file:///b", "version": 2}
    editor.tell("textDocument/didChange", {"textDocument": document, "contentChanges": [change]})
    wanted.append("note range-length 3 length 2 event 14 editor 11")
    found = heads(editor, 4)
    yield "a length", found == wanted, found
    yield "the session", editor.quit() == 0, editor.words()
    yield "each once", heads(editor, 5, 0) == wanted, editor.words()
    copy, = editor.logs.glob("*.explain")
    yield "in the file, too", copy.read_text() == editor.words(), copy.read_text()


def tells_nothing(place, program):
    editor = checked(place, program, "--check")
    editor.open(TITLE.decode(), "one\n")
    say_text(editor, 1, b"one\n")
    editor.taken(1)
    yield "the session", editor.quit() == 0, editor.words()
    yield "nothing is said", editor.words() == "", editor.words()
    yield "nothing is written", not list(editor.logs.glob("*.explain")), None


def keeps_rules(place, program):
    """The logs of sessions with snapshots are good, and texts were compared."""
    file = place / "ä 😀.c"
    file.write_bytes(b"\xef\xbb\xbfone\r\n")
    editor = Editor(place).start()
    editor.open(file.as_uri(), "one\n")
    editor.save(file.as_uri())
    editor.taken(1)
    editor.quit()
    log, = editor.logs.glob("*.log")
    run = subprocess.run([program, "check", "--complete", log], capture_output=True, text=True)
    wanted = ["yes", "messages 6 2", "snapshots 1 unmatched 0", "encoding utf-16 sync incremental"]
    yield "check", run.stdout.split("\n")[:4] == wanted, run.stdout


def finds_lost_change(place, program):
    """A change that is lost before the proxy is found at the next save."""
    file = place / "a.c"
    file.write_bytes(b"one\n")
    editor = checked(place, program, "--check")
    editor.open(file.as_uri(), "one\n")
    editor.change(file.as_uri(), 3, "one\nthree\n")
    sent(editor)
    file.write_bytes(b"one\ntwo\nthree\n")
    editor.save(file.as_uri())
    found = heads(editor, 1)
    yield "the save tells", found == ["no 702 snapshot 1 event 9"], (found, editor.words())
    editor.quit()


def from_vscode(make, lost):
    """A test of the extension for VS Code, with a stand-in of its API, that may lose a change."""

    def trial(place, program):
        snapshots, uri = place / "snapshots", "file:///a%20b.c"
        make(snapshots)
        setting = {**os.environ, "LSPCHECK_SNAPSHOTS": str(snapshots), "LOSE": str(lost or "")}
        trace = place / "trace"
        proxy = [PYTHON, "-B", TRACED, trace, str(SECONDS), "1", place / "logs"]
        node = shutil.which("node") or "nodejs"
        words = [node, HERE / "vscode.js", PROXY.parent / "vscode/extension.js", uri, trace]
        words += [*proxy, PYTHON, "-c", SERVER]
        run = subprocess.run(words, env=setting, capture_output=True, timeout=SECONDS)
        yield "the client", run.returncode == 0, run.stderr
        log, = (place / "logs").glob("*.log")
        run = subprocess.run([program, "check", log], capture_output=True, text=True)
        if lost:
            # At a snapshot, or at the message with its version, if that comes later.
            form = r"no 702 (snapshot|editor) \d+ event \d+\nsnapshot differs\n"
            yield "a lost change is found", re.match(form, run.stdout), run.stdout
        else:
            wanted = ["yes", "messages 10 2", "snapshots 6 unmatched 0"]
            found = run.stdout.split("\n")
            yield "all texts are compared", found[:3] == wanted, run.stdout
            yield "the last text", found[4] == f'document 6 {5 * 15 + 4} "{uri}"', found

    return trial


def without_program(script, said):
    """A test with another program instead of lspcheck, or none, and why nothing is reported."""

    def trial(place, _):
        other = place / "other"
        if script:
            other.write_text(script)
            other.chmod(0o755)
        pids = place / "bin/lspcheck.pids"
        editor = checked(place, other, "--check", patience=10)
        goes_on = all(editor.ask("work", ["x" * 10_000]) for _ in range(100))
        editor.ask("shutdown")
        editor.has_logged(b'"shutdown"')
        editor.tell("exit")
        status = editor.ended()
        yield "the session continues", goes_on and status == 0, (goes_on, status, editor.words())
        if "sleep" in script:
            yield "it doesn't wait for lspcheck", not editor.has_recorded(), None
            until(lambda: len(pids.read_text().split()) == 2)
            for number in pids.read_text().split():
                os.kill(int(number), signal.SIGKILL)
        yield "the recorder ends", editor.wait() == 0, editor.words()
        yield "the log is whole", editor.log().endswith(b'"exit"}\n'), editor.log()[-100:]
        yield "it is said once", editor.words() == f"proxy: lspcheck: {said}\n", editor.words()

    return trial


# What lspcheck writes about a violation, with --json and without.
OBJECTS = """{"is":"no","rule":404,"who":"editor","number":5,"event":10,"follows":false,"text":"x"}
{"is":"event","event":10,"side":"editor","number":5,"kind":"notification","method":"initialized"}
{"is":"later","than":"this proxy"}
{"is":"usually","who":"editor"}
"""
LINES = """no 404 editor 5 event 10
x
event 10 editor 5 notification "initialized"
{"is":"later","than":"this proxy"}
usually editor
"""


def tells_pieces(place, _):
    """An explanation that comes in pieces, cut anywhere, is told as a whole; what is cut off by the
    end is not."""
    pieces = [OBJECTS[at:at + 40] for at in range(0, len(OBJECTS), 40)]
    written = "".join(f"printf %s '{piece}'; sleep 0.2\n" for piece in [*pieces, OBJECTS[:30]])
    other = place / "other"
    other.write_text(
        f"#!/bin/sh\ncase $* in *--ignore-line-ends*)\n{written}: > \"$0.done\";; esac\n"
        "cat > /dev/null\nexit 1\n"
    )
    other.chmod(0o755)
    editor = checked(place, other, "--check")
    until((place / "bin/lspcheck.done").exists)
    yield "the session", editor.quit() == 0, editor.words()
    yield "in words", editor.words() == LINES, editor.words()
    copy, = editor.logs.glob("*.explain")
    yield "in the file", copy.read_text() == LINES, copy.read_text()


STOPPED = "violations may not be reported from now on"

TESTS = {
    "vscode: a file": from_vscode(lambda path: path.write_bytes(b""), None),
    "vscode: a named pipe": from_vscode(os.mkfifo, None),
    "vscode: a lost change": from_vscode(lambda path: path.write_bytes(b""), 3),
    "check: each violation": tells_each,
    "check: files of others": keeps_others_files,
    "check: a lost line end": tells_lost_end,
    "check: notes": tells_notes,
    "check: no violation": tells_nothing,
    "check: a session": keeps_rules,
    "check: a lost change": finds_lost_change,
    "check: in pieces": tells_pieces,
    "check: no lspcheck": without_program(
        "", "No such file or directory; the session is recorded but not checked"
    ),
    "check: lspcheck ends": without_program(
        "#!/bin/sh\nexit 3\n", f"it ended with status 3; {STOPPED}"
    ),
    "check: lspcheck says why": without_program(
        "#!/bin/sh\necho lspcheck: out of memory >&2\nexit 4\n", f"out of memory; {STOPPED}"
    ),
    "check: lspcheck is killed": without_program(
        "#!/bin/sh\nkill -9 $$\n", f"it was ended by SIGKILL; {STOPPED}"
    ),
    "check: an older lspcheck": without_program(
        "#!/bin/sh\necho \"lspcheck: error: unexpected argument '--json' found\" >&2\nexit 64\n",
        f"it doesn't know --json or --notes; it may be an older version; {STOPPED}",
    ),
    "check: no object": without_program(
        "#!/bin/sh\necho no 404 editor 5 event 10\nexec cat > /dev/null\n",
        f"it wrote a line that is not an object of --json: 'no 404 editor 5 event 10'; {STOPPED}",
    ),
    "check: lspcheck doesn't read": without_program(
        '#!/bin/sh\necho $$ >> "$0.pids"\nexec sleep 6000\n',
        f"it was ended by SIGKILL; {STOPPED}",
    ),
}
