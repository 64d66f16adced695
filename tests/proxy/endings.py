"""Tests of the names of logs, of how a session ends, and of the options."""

import os
import re
import signal
import stat
import subprocess
import time
from datetime import datetime, timedelta, timezone
from pathlib import Path

from lsptools.proxy.log import create_log
from processes import SECONDS, Skipped, until
from session import PROXY, PYTHON, SERVER, TRACED, Editor



def ends(method, number, status, line):
    """A test of how a server ends, what the proxy's status is then, and the file that says so."""

    def trial(place):
        editor = Editor(place).start()
        begun = time.time()
        editor.tell(method, [number])
        found = editor.wait()
        ended = time.time()
        yield "the status", found == status, found
        log, = editor.logs.glob("*.log")
        text = log.with_suffix(".exit").read_text()
        form = rf"{line}\ntime (\d{{4}}-\d\d-\d\dT\d\d:\d\d:\d\d)[+-]\d{{4}}\n"
        match = re.fullmatch(form, text)
        yield "the file", match is not None, text
        when = match and time.mktime(time.strptime(match[1], "%Y-%m-%dT%H:%M:%S"))
        yield "the time", match and int(begun) <= when <= ended, text
        rights = {stat.S_IMODE(it.stat().st_mode) for it in editor.logs.iterdir()}
        yield "nobody else reads it", rights == {0o600}, rights

    return trial


def recorder_is_late(place):
    """The proxy ends when its recorder has ended."""
    editor = Editor(place).start()
    recorder = editor.recorder()
    os.kill(recorder, signal.SIGSTOP)
    editor.ask("shutdown")
    editor.tell("exit")
    time.sleep(1)
    waits = editor.process.poll() is None
    os.kill(recorder, signal.SIGCONT)
    yield "it waits", waits and editor.ended() == 0 and editor.has_recorded(), editor.words()
    yield "the log is whole", editor.log().endswith(b'"exit"}\n'), editor.log()[-100:]


def told_to_end(place):
    """A signal to the proxy goes to the server, after the editor's last bytes, even if the server
    takes its time to read them."""
    editor = Editor(place).start()
    editor.tell("sleep", [1])
    editor.tell("large", "x" * 150_000)
    editor.tell("note", ["last"])
    editor.process.terminate()
    yield "the status", editor.wait() == 128 + signal.SIGTERM, editor.words()
    yield "the last bytes", b'["last"]' in editor.log(), editor.log()[-100:]


def group_told_to_end(place):
    """A signal to the proxy and all that it started leaves the recorder its time."""
    editor = Editor(place, start_new_session=True).start()
    editor.has_logged(b"initialized")
    os.killpg(editor.process.pid, signal.SIGTERM)
    yield "the status", editor.wait() == 128 + signal.SIGTERM, editor.words()
    ended = [it.read_text().split("\n")[0] for it in editor.logs.glob("*.exit")]
    yield "the file", ended == ["signal 15"], ended


def editor_dies(place):
    """The editor closes its pipes: the server and the proxy end."""
    editor = Editor(place).start()
    editor.process.stdout.close()
    editor.process.stdin.close()
    yield "the proxy ends", editor.wait() == 0, editor.words()


def child_stays(place):
    """A process that the server started keeps its output open."""
    editor = Editor(place, server=["sh", "-c", "sleep 6000 & echo $!; cat; echo end"])
    child = int(editor.process.stdout.readline())
    editor.write(b"begin\n")
    editor.process.stdin.close()
    yield "the proxy ends with the server", editor.wait() == 0, editor.words()
    got = os.read(editor.process.stdout.fileno(), 100)
    yield "all is passed on", got == b"begin\nend\n", got
    os.kill(child, signal.SIGKILL)


def names(place):
    server = place / "my server"
    server.write_text(f"#!/bin/sh\nexec '{PYTHON}' -c '{SERVER}'\n")
    server.chmod(0o755)
    here = timezone(timedelta(hours=5, minutes=30))
    before = datetime.now(here).strftime("%Y%m%dT%H%M%S")
    Editor(place, server=[server], setting={"TZ": "XYZ-5:30"}).start().quit()
    after = datetime.now(here).strftime("%Y%m%dT%H%M%S")
    found = [it.name for it in (place / "logs").glob("*.log")]
    match = re.fullmatch(r"my_server-(\d{8}T\d{6})-\d+\.log", found[0])
    yield "server, local time, number", match and before <= match[1] <= after, found
    ended = (place / "logs" / found[0]).with_suffix(".exit").read_text()
    yield "the offset", ended.endswith("+0530\n"), ended
    yield "the folder is the owner's", stat.S_IMODE((place / "logs").stat().st_mode) == 0o700, None


def started_by_others(place):
    """Logs are named after the server, not after what starts it."""
    for words in (["env", "A=1", "cat"], ["sh", "-c", "cd / && exec tee"]):
        editor = Editor(place, server=words)
        editor.write(b"x")
        editor.process.stdin.close()
        editor.wait()
    names = [it.name.split("-")[0] for it in sorted((place / "logs").glob("*.log"))]
    yield "env, and a shell", names == ["cat", "tee"], names


def same_number(place):
    """Two recorders whose servers have one process number, as in two containers."""
    words = ["unshare", "--fork", "--pid", "--mount-proc"]
    if subprocess.run([*words, "true"], capture_output=True).returncode != 0:
        words = ["unshare", "--map-root-user", "--fork", "--pid", "--mount-proc"]
    tried = subprocess.run([*words, "true"], capture_output=True, text=True)
    if tried.returncode != 0:
        raise Skipped(f"processes can have no name space of their own: {tried.stderr.strip()}")
    traced = f"'{PYTHON}' -B '{TRACED}' '{place}/trace' {SECONDS} 1"
    script = f"printf x | {traced} '{place}/logs' cat"
    shell, pipe = [*words, "sh", "-c", script], {"stdout": subprocess.PIPE}
    many = [subprocess.Popen(shell, **pipe) for _ in range(4)]
    passed = [it.communicate(timeout=SECONDS)[0] for it in many]
    logs = sorted((place / "logs").glob("*.log"))
    wanted = b"lsp-session 2\nE 1\nx\nS 1\nx\n"
    yield "each is passed on", passed == [b"x"] * 4, passed
    yield "a log each", len(logs) == 4, logs
    found = [log.read_bytes() for log in logs]
    yield "none has two sessions", found == [wanted] * 4, found


def next_name(place):
    """The next free name is taken, whatever has the first: a file, a folder, a link to nowhere."""
    stem = Path(create_log(place, ["a"], 1)[0]).stem
    (place / f"{stem}-2.log").mkdir()
    (place / f"{stem}-3.log").symlink_to(place / "nowhere")
    found = Path(create_log(place, ["a"], 1)[0]).name
    # The second may have changed in between.
    good = found == f"{stem}-4.log" or not found.startswith(stem)
    yield "the next free name", good and not (place / "nowhere").exists(), found


def no_session(place):
    """There is no log of a process that the editor writes nothing to, nor of no process."""
    script = place / "wrapper"
    script.write_text(f'#!/bin/sh\nexec "{PROXY}" "{place}/logs" echo clangd "$@"\n')
    script.chmod(0o755)
    for words in [[PROXY, place / "logs", "echo", "clangd", "version"], [script, "version"]]:
        how = {"stdin": subprocess.DEVNULL, "capture_output": True, "timeout": SECONDS}
        run = subprocess.run(words, **how)
        yield "what it writes is passed on", run.stdout == b"clangd version\n", run
        until((place / "logs").is_dir)
        yield "no log", not list((place / "logs").iterdir()), list((place / "logs").iterdir())
    closed = ["sh", "-c", 'exec "$@" <&-', "sh", PROXY, place / "logs", "cat"]
    run = subprocess.run(closed, **how)
    found = run.returncode, run.stdout, run.stderr
    yield "a standard input that is closed", found == (0, b"", b""), run
    editor = Editor(place, server=["no-such-server"])
    missing = "proxy: no-such-server: No such file or directory\n"
    found = editor.wait(), editor.words()
    yield "no server", found == (1, missing), found
    yield "no log of none", not list((place / "logs").iterdir()), None


def help_text(place):
    run = subprocess.run([PROXY, "--help"], capture_output=True, text=True)
    yield "--help", run.returncode == 0 and run.stdout.startswith("usage: proxy"), run
    source, sink = os.pipe()
    os.close(source)
    run = subprocess.run([PROXY, "--help"], stdout=sink, stderr=subprocess.PIPE)
    os.close(sink)
    yield "--help, nobody reads", (run.returncode, run.stderr) == (141, b""), run
    for words in [[], ["folder"], ["--other", "folder", "cat"]]:
        run = subprocess.run([PROXY, *words], capture_output=True, text=True, cwd=place)
        yield f"bad arguments {words}", run.returncode == 2 and "usage: proxy" in run.stderr, run
    words = [PROXY, place / "logs", "echo", "--check", "--help"]
    run = subprocess.run(words, capture_output=True)
    yield "options of the server", run.stdout == b"--check --help\n", run


TESTS = {
    "end: exit": ends("exit", 0, 0, "status 0"),
    "end: a status": ends("leave", 3, 3, "status 3"),
    "end: a signal": ends("die", signal.SIGSEGV, 139, "signal 11"),
    "end: killed": ends("die", signal.SIGKILL, 137, "signal 9"),
    "end: the recorder is late": recorder_is_late,
    "end: told to": told_to_end,
    "end: told to as a group": group_told_to_end,
    "end: the editor dies": editor_dies,
    "end: a child stays": child_stays,
    "names": names,
    "names: started by others": started_by_others,
    "names: one number": same_number,
    "names: the next": next_name,
    "names: none": no_session,
    "help": help_text,
}
