"""What recorders/shrink answers to what it can't shrink, read or write, and when it is stopped."""

import os
import pty
import re
import shutil
import signal
import subprocess
import sys
from pathlib import Path

import programs
from cases import INITIALIZED, URI, chatter, head, listed, sent
from logs import changed, edit, frame, opened, request, result
from processes import SECONDS, is_running, quoted, until, with_signals
from scripts import SCRIPT, SETTING, command, put, run

EXAMPLE = Path(__file__).resolve().parent.parent.parent / "examples/wrong-column.log"
INITIALIZE_OF_EXAMPLE = (
    'E {"jsonrpc":"2.0","method":"initialize","params":{"capabilities":{},"workDoneToken":"1"},"id":1}'
)
# How the script is run by somebody who may not read every file.
NOBODY = [] if os.geteuid() else ["setpriv", "--reuid=65534", "--regid=65534", "--clear-groups"]


def answers(done, status, words, log=b""):
    """Fails unless a run ended with this status and output, and said one line with these words."""
    said = done[2].decode()
    assert done[:2] == (status, log), done
    assert said.startswith("shrink: ") and words in said, said
    assert said.endswith("\n") and said[:-1].isprintable(), said


def small_example(program):
    status, small, said = run(program, EXAMPLE)
    assert (status, said) == (0, b""), said
    return small


def shortens_the_example(program, place):
    """The example of GOT_A_LOG: 42,025 bytes, of which five messages are left."""
    found = list(listed(small_example(program)))
    assert found == [
        "lsp-session 1\n",
        INITIALIZE_OF_EXAMPLE,
        'S {"id":1,"jsonrpc":"2.0","result":{"capabilities":{"textDocumentSync":{"change":2}}}}',
        INITIALIZED,
        'E {"jsonrpc":"2.0","method":"textDocument/didOpen","params":{"textDocument":{"uri":"file:///a",'
        '"languageId":"c","version":12,"text":"\\t  🇩\\n"}}}',
        'E {"jsonrpc":"2.0","method":"textDocument/didChange","params":{"textDocument":{"uri":'
        '"file:///a","version":13},"contentChanges":[{"range":{"start":{"line":0,"character":4},"end":'
        '{"line":0,"character":4}},"text":"🇪"}]}}',
    ], found


def says_why_nothing_is_shrunk(program, place):
    for log, options, status, words in [
        (head(), [], 1, "yes: there is no violation to show (--note can name nothing-compared)"),
        (head(), ["--note", "renamed"], 1, "there is no note renamed (--note can name nothing-compared)"),
        (head(), ["--note", "a\nb"], 1, 'there is no note "a\\nb"'),
        (EXAMPLE.read_bytes(), ["--note", "renamed"], 1, "no 605 editor 31 event 48: position inside"),
        (b"lsp-session 2\nS 6\nhello\n\n", [], 1, "no 107 server 1 event 1: stream ends inside a frame"),
        (b"lsp-session 1\nE 8\na\r\n\r\nbcd\n", [], 1, "no 102 editor 1 event 1: bad header line: only"),
        (head() + b"X\n", [], 2, "bad log L2 record 4: bad record line ('lspcheck normal' writes"),
        (head()[:-9], [], 2, "bad log L4 record 3"),
        (b"", [], 2, "bad log L1 record 0"),
    ]:
        done = run(program, *options, put(place, log))
        answers(done, status, f"whole.log: {words}")


def reads_any_log(program, place):
    """On standard input, from a pipe, and with names that a shell or a terminal would take apart."""
    small = small_example(program)
    with open(EXAMPLE, "rb") as log:
        assert run(program, "-", stdin=log) == (0, small, b"")
    assert run(program, "-", input=EXAMPLE.read_bytes()) == (0, small, b"")
    for name in (b"a b.log", b"-b.log", b"\xff\n.log"):
        shutil.copy(EXAMPLE, os.path.join(os.fsencode(place), name))
        assert run(program, "--", name, cwd=place) == (0, small, b""), name
    for name, words in ((b"no\nsuch\xff", 'no\\nsuch\\udcff": No such file'), (place, "Is a directory")):
        answers(run(program, name), 3, words)
    secret = put(place, b"secret", "secret.log")
    secret.chmod(0)
    place.chmod(0o755)
    done = subprocess.run([*NOBODY, "cat", secret], capture_output=True)
    assert done.returncode == 1, done
    nobody = subprocess.run([*NOBODY, *command(program, secret)], capture_output=True, env=SETTING)
    if b"Permission denied" in nobody.stderr:
        answers((nobody.returncode, nobody.stdout, nobody.stderr), 3, "Permission denied")
    else:
        # This user may not even read the script or the program.
        assert nobody.returncode != 0 and not nobody.stdout, nobody


def says_what_can_not_be_written(program, place):
    for words in ([EXAMPLE], ["--lit", EXAMPLE], ["--help"]):
        with open("/dev/full", "wb") as full:
            status, _, said = run(program, *words, stdout=full)
        assert (status, said) == (3, b"shrink: standard output: No space left on device\n"), said
        source, sink = os.pipe()
        os.close(source)
        status, _, said = run(program, *words, stdout=sink)
        os.close(sink)
        assert (status, said) == (141, b""), (status, said)
    closed = ["sh", "-c", 'exec "$@" >&-', "sh", *command(program, EXAMPLE)]
    done = subprocess.run(closed, capture_output=True, env=SETTING)
    assert (done.returncode, done.stdout) == (3, b""), done


def says_what_is_wrong_with_words(program, place):
    for words in ([], [EXAMPLE, EXAMPLE], ["--not", "x", EXAMPLE], ["--note"], ["--lit=1", EXAMPLE]):
        answers(run(program, *words), 64, "(try --help)")
    status, shown, said = run(program, "--help")
    assert (status, said) == (0, b"") and shown.startswith(b"usage: shrink "), shown


def script(place, lines, name="stand-in"):
    path = place / name
    path.write_text(f"#!/bin/sh\n{lines}\n")
    path.chmod(0o755)
    return path


def says_what_is_wrong_with_the_program(program, place):
    answers(run(place / "none", EXAMPLE), 1, "none: there is no such program")
    answers(run(script(place, "echo other 1.0"), EXAMPLE), 1, "this program is not lspcheck")
    memory = script(place, f'case "$*" in "explain --quiet") exit 4;; esac\nexec {quoted(program)} "$@"')
    answers(run(memory, EXAMPLE), 4, "lspcheck explain: it ended with status 4")
    # Without --program, it is the one on the PATH.
    folder = place / "bin"
    folder.mkdir()
    script(folder, f'exec {quoted(program)} "$@"', "lspcheck")
    setting = {**SETTING, "PATH": f"{folder}:{os.environ['PATH']}"}
    done = subprocess.run([sys.executable, SCRIPT, EXAMPLE], capture_output=True, env=setting)
    assert (done.returncode, done.stdout, done.stderr) == (0, small_example(program), b""), done


def slow(program, place, tries):
    """A program that gets slow after some tries, and the file in which it counts them."""
    count = place / "count"
    count.write_text("")
    count.with_name("count.slow").unlink(missing_ok=True)
    name = quoted(count)
    lines = f'echo >> {name}\n[ "$(wc -l < {name})" -le {tries} ] || {{ echo $$ > {name}.slow; exec sleep 600; }}'
    return script(place, f'case "$1" in explain) {lines};; esac\nexec {quoted(program)} "$@"'), count


def start(program, *words):
    how = {"stdout": subprocess.PIPE, "stderr": subprocess.PIPE, "env": SETTING, "preexec_fn": with_signals}
    return subprocess.Popen(command(program, *words), start_new_session=True, **how)


def wait_until_slow(count):
    slow = count.with_name("count.slow")
    assert until(lambda: slow.exists() and slow.read_text().endswith("\n"))


def writes_the_smallest_so_far(program, place):
    """^C goes to all processes of a terminal. The script writes what it has, and ends by the signal
    without leaving a program."""
    for number in (signal.SIGINT, signal.SIGTERM):
        stand_in, count = slow(program, place, 12)
        running = start(stand_in, EXAMPLE)
        wait_until_slow(count)
        os.killpg(running.pid, number)
        small, said = running.communicate(timeout=SECONDS)
        assert (running.returncode, said) == (-number, b""), (running.returncode, said)
        # The members of `initialize` were left out by then, but not all lines and names.
        assert 500 < len(small) < 42025 / 2, len(small)
        found = list(listed(small))
        assert found[1] == INITIALIZE_OF_EXAMPLE, found[1]
        assert "file:///tmp/lspwork-e/cpp/small.c" in found[-1], found[-1]
        left = int(count.with_name("count.slow").read_text())
        assert until(lambda: not is_running(left), 60), left


def writes_nothing_before_it_has_something(program, place):
    stand_in, count = slow(program, place, 0)
    running = start(stand_in, EXAMPLE)
    wait_until_slow(count)
    running.send_signal(signal.SIGINT)
    small, said = running.communicate(timeout=SECONDS)
    assert (running.returncode, small) == (-signal.SIGINT, b""), running.returncode
    assert said == b"shrink: stopped: nothing is written\n", said


def on_terminal(program, *words):
    """What a terminal is shown on standard error."""
    mine, other = pty.openpty()
    with subprocess.Popen(command(program, *words), stdout=subprocess.PIPE, stderr=other, env=SETTING) as running:
        os.close(other)
        small, shown = running.stdout.read(), b""
        try:
            while piece := os.read(mine, 65536):
                shown += piece
        except OSError:
            pass
        os.close(mine)
        assert running.wait(SECONDS) == 0
    return small, shown


def tells_a_terminal_how_far_it_is(program, place):
    stand_in = script(place, f'case "$1" in explain) sleep 0.2;; esac\nexec {quoted(program)} "$@"')
    small, shown = on_terminal(stand_in, EXAMPLE)
    assert small == small_example(program)
    # Spaces erase the rest of a longer line before.
    line = rb"\rshrink: 42,025 bytes, now [\d,]+, \d+ tried *"
    assert re.fullmatch(rb"(%s)+\r +\r" % line, shown), shown
    assert on_terminal(stand_in, "--quiet", EXAMPLE) == (small, b"")


def ends_where_nothing_can_go(program, place):
    """602 without the line `opened never`, which is left out from the 1,024th `didClose` on: none of
    them can go. It is not tried for ever."""
    if programs.leaves_out(program, "a log of which nothing can be left out"):
        return
    log = head()
    for number in range(1024):
        uri = f"{URI}{number}"
        log += sent(opened(uri, 1, "x\n"))
        close = {"jsonrpc": "2.0", "method": "textDocument/didClose", "params": {"textDocument": {"uri": uri}}}
        log += sent(close)
    log += sent(changed(URI, 2, edit((0, 0), (0, 0), "x")))
    stand_in, count = slow(program, place, 10_000)
    status, small, said = run(stand_in, put(place, log))
    tries = len(count.read_text())
    assert status == 0 and len(list(listed(small))) == 2053, (status, said)
    assert 20 < tries < 800 and re.fullmatch(rb"shrink: \d+ logs were tried: there may be a smaller one\n", said), (tries, said)


def asks_seldom(program, place):
    """A session of a megabyte takes as few runs of lspcheck as its start and end need."""
    text = "".join(f"int value_{at};\n" for at in range(20_000))
    log = head() + sent(opened(URI, 1, text)) + chatter(1000, 800)
    log += sent(request(5000, "x/y", {"text": text})) + frame(b"S", result(5000, [text]))
    log += sent(changed(URI, 2, edit((9000, 3), (9000, 2), "y")))
    assert len(log) > 1_000_000, len(log)
    stand_in, count = slow(program, place, 10_000)
    status, small, said = run(stand_in, put(place, log))
    assert (status, said) == (0, b"") and len(small) < 800, (status, said, len(small))
    assert len(count.read_text()) < 60, len(count.read_text())


TESTS = [
    shortens_the_example,
    says_why_nothing_is_shrunk,
    reads_any_log,
    says_what_can_not_be_written,
    says_what_is_wrong_with_words,
    says_what_is_wrong_with_the_program,
    writes_the_smallest_so_far,
    writes_nothing_before_it_has_something,
    tells_a_terminal_how_far_it_is,
    ends_where_nothing_can_go,
    asks_seldom,
]
