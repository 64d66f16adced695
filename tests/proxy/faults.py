"""Tests that a session continues, whatever happens to what is recorded."""

import json
import os
import re
import resource
import shutil
import signal
import subprocess
import time
from pathlib import Path

from processes import Skipped
from session import PATIENCE, QUIET, Editor, records, saved, sent


# The number of a user who owns nothing.
NOBODY = 65534


def frame(content):
    return b"Content-Length: %d\r\n\r\n%s" % (len(content), content)


def opened(document):
    """A `didOpen` with this document, in JSON."""
    method = b'"jsonrpc":"2.0","method":"textDocument/didOpen"'
    return frame(b'{%s,"params":{"textDocument":%s}}' % (method, document))


HOSTILE = {
    "a lone surrogate in a URI": opened(b'{"uri":"file:///\\ud800","version":1,"text":""}'),
    "a frame over the limit": b"Content-Length: 99999999\r\n\r\n",
    "a header part over the limit": b"X: " + b"x" * 5000,
    "no length": b"X: y\r\n\r\n",
    "no JSON": frame(b"{"),
    "not UTF-8": frame(b'"\xff"'),
    "deep JSON": frame(b"[" * 100000 + b"]" * 100000),
    "a version that is null": opened(b'{"uri":"file:///a","version":null,"text":""}'),
    "a URI that is a list": opened(b'{"uri":[],"version":1,"text":""}'),
    "a long number": frame(b'{"id":' + b"9" * 5000 + b"}"),
    "a text that is a number": opened(b'{"uri":"file:///a","version":1,"text":3}'),
}


def hostile(name):
    """A test in which the editor sends something that no frame or message may be. The server gives
    back what it gets."""

    def trial(place):
        file = place / "a.c"
        file.write_bytes(b"x")
        editor = Editor(place, server=["cat"])
        editor.open(file.as_uri(), "x")
        editor.write(HOSTILE[name])
        editor.save(file.as_uri())
        last = frame(b'{"jsonrpc":"2.0","method":"last"}')
        editor.write(last)
        time.sleep(1.4 * QUIET)
        editor.process.stdin.close()
        got = editor.process.stdout.read()
        status = editor.wait()
        yield "the session continues", status == 0 and got.endswith(last), status
        kinds = {"E": b"", "S": b""}
        for kind, _, *contents in records(editor.log()):
            kinds[kind] = kinds.get(kind, b"") + contents[-1]
        yield "the log continues", kinds == {"E": got, "S": got}, editor.log()[-200:]
        said = editor.words()
        is_said = said.startswith("proxy: no more snapshots of saved files: ")
        yield "it is said once", is_said and said.count("\n") == 1, said

    return trial


def processor_seconds(number):
    """The processor time of a process by now, to which a busy machine adds nothing."""
    fields = Path(f"/proc/{number}/stat").read_text().rpartition(")")[2].split()
    return (int(fields[11]) + int(fields[12])) / os.sysconf("SC_CLK_TCK")


def large_frame(place):
    """A message of 60 MB, sent while a document waits for its snapshot."""
    editor, _, uri = saved(place)
    text = "x" * 60_000_000
    editor.tell("large", {"text": text})
    editor.save(uri)
    yield "is passed on", editor.ask("wait"), editor.words()
    editor.settles()
    seconds = sum(map(processor_seconds, (editor.process.pid, editor.recorder())))
    yield "in a moment", seconds < 10, seconds
    yield "the session continues", editor.quit() == 0 and editor.words() == "", editor.words()
    yield "the next snapshot is taken", editor.texts() == [(1, b"one\n")], editor.words()
    size = sum(len(it[2]) for it in records(editor.log()) if it[0] == "E")
    yield "is recorded", size > len(json.dumps(text)), size


def keeps_going(editor, amount=100):
    """Whether all of this many requests are answered, each with ten kilobytes."""
    return all(editor.ask("work", ["x" * 10_000]) for _ in range(amount))


def full_disk(place):
    """The disk is full in the middle of the session, or a limit says so."""
    disk = place / "disk"
    disk.mkdir()
    words = ["mount", "-t", "tmpfs", "-o", "size=64k", "none", disk]
    can_mount = subprocess.run(words, capture_output=True).returncode == 0
    limit = lambda: resource.setrlimit(resource.RLIMIT_FSIZE, (65536, 65536))
    how = {} if can_mount else {"preexec_fn": limit}
    try:
        editor = Editor(place, logs=disk / "logs", **how).start()
        goes_on = keeps_going(editor)
        status = editor.quit()
        yield "the session continues", goes_on and status == 0, (goes_on, status, editor.words())
        said = editor.words()
        is_said = "; the log ends here\n" in said and said.count("\n") == 1
        yield "it is said once", is_said, said
        log = editor.log()
        is_whole = 10_000 < len(log) <= 65536 and [log[:13], log[-1:]] == [b"lsp-session 2", b"\n"]
        yield "the log ends with a whole record", is_whole and list(records(log)), log[-100:]
        ended = sum(len(record) for record in re.findall(rb"[ES] \d+\n", log)) + 14
        ended += sum(len(record[2]) + 1 for record in records(log))
        yield "no byte of another one", ended == len(log), (ended, len(log))
    finally:
        if can_mount:
            subprocess.run(["umount", disk])


def no_room(place):
    """The disk doesn't even take the first record."""
    disk = place / "disk"
    disk.mkdir()
    words = ["mount", "-t", "tmpfs", "-o", "size=4k", "none", disk]
    mounted = subprocess.run(words, capture_output=True, text=True)
    if mounted.returncode != 0:
        raise Skipped(f"no small file system can be mounted: {mounted.stderr.strip()}")
    try:
        editor = Editor(place, logs=disk / "logs")
        editor.tell("large", ["x" * 10_000])
        continues = keeps_going(editor, 5)
        yield "the session continues", continues and editor.quit() == 0, editor.words()
        yield "it is said once", editor.words().count("\n") == 1, editor.words()
        yield "nothing is left", not list((disk / "logs").iterdir()), None
    finally:
        subprocess.run(["umount", disk])


def no_folder(make):
    """A test in which no log can be created."""

    def trial(place):
        editor = Editor(place, logs=make(place)).start()
        goes_on = keeps_going(editor, 5)
        status = editor.quit()
        yield "the session continues", goes_on and status == 0, (goes_on, status)
        said = editor.words()
        is_said = said.endswith("; nothing is recorded\n") and said.count("\n") == 1
        yield "it is said once", is_said, said

    return trial


def below_file(place):
    (place / "file").write_text("")
    return place / "file" / "logs"


def read_only(place):
    """A folder that exists but takes no files, whoever is asking."""
    return Path("/proc")


def linked(place):
    (place / "own").mkdir()
    (place / "logs").symlink_to("own")
    return place / "logs"


def of_another(place):
    logs = place / "logs"
    logs.mkdir()
    try:
        os.chown(logs, NOBODY, NOBODY)
    except PermissionError:
        raise Skipped("only root can give a folder to another user") from None
    return logs


def open_to_others(place):
    logs = place / "logs"
    logs.mkdir()
    logs.chmod(0o707)
    return logs


def refused(make, why):
    """A test with a folder in which someone else could replace a log."""

    def trial(place):
        logs = make(place)
        yield from no_folder(lambda _: logs)(place)
        said = (place / "said").read_text()
        yield "why", said == f"proxy: {logs}: {why}; nothing is recorded\n", said
        yield "nothing is there", not list(logs.iterdir()), list(logs.iterdir())

    return trial


def sticky(place):
    """A folder in which nobody else can replace a log, such as /tmp."""
    logs = place / "logs"
    logs.mkdir()
    logs.chmod(0o1777)
    editor = Editor(place, logs=logs).start()
    yield "the session", editor.quit() == 0 and editor.words() == "", editor.words()
    yield "the log", b"initialized" in editor.log(), editor.log()


def folder_vanishes(place):
    editor = Editor(place).start()
    editor.has_logged(b"initialized")
    shutil.rmtree(editor.logs)
    yield "the session continues", keeps_going(editor) and editor.quit() == 0, editor.words()
    yield "it is said once", editor.words().count("\n") == 1, editor.words()


def log_deleted(place):
    editor = Editor(place).start()
    editor.has_logged(b"initialized")
    log, = editor.logs.iterdir()
    log.unlink()
    yield "the session continues", keeps_going(editor) and editor.quit() == 0, editor.words()
    wanted = f"proxy: {log}: the log was deleted; nothing more is recorded\n"
    yield "it is said once", editor.words() == wanted, editor.words()
    yield "nothing is left", not list(editor.logs.iterdir()), list(editor.logs.iterdir())


def recorder_stops(number):
    """A test in which the process that records is sent a signal."""

    def trial(place):
        editor = Editor(place, patience=PATIENCE).start()
        sent(editor)
        recorder = editor.recorder()
        os.kill(recorder, number)
        goes_on = keeps_going(editor, 300)
        editor.ask("shutdown")
        editor.tell("exit")
        status, said = editor.ended(), editor.words()
        yield "the session continues", goes_on and status == 0, (goes_on, status)
        if number == signal.SIGKILL:
            wanted = "proxy: nothing more is recorded: Broken pipe\n"
        else:
            wanted = "proxy: the end of the session is not recorded\n"
            os.kill(recorder, signal.SIGCONT)
        yield "it is said once", said == wanted, said
        yield "the recorder ends", editor.wait() == 0, editor.words()

    return trial


TESTS = {
    **{f"hostile: {name}": hostile(name) for name in HOSTILE},
    "hostile: 60 MB": large_frame,
    "faults: full disk": full_disk,
    "faults: no room": no_room,
    "faults: below a file": no_folder(below_file),
    "faults: no files there": no_folder(read_only),
    "faults: a link": refused(linked, "it is a symbolic link"),
    "faults: another's folder": refused(of_another, "it belongs to another user"),
    "faults: a folder for all": refused(open_to_others, "others may write to it"),
    "faults: a sticky folder": sticky,
    "faults: the folder vanishes": folder_vanishes,
    "faults: the log is deleted": log_deleted,
    "faults: the recorder is killed": recorder_stops(signal.SIGKILL),
    "faults: the recorder stops": recorder_stops(signal.SIGSTOP),
}
