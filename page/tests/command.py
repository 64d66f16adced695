"""The command: what it answers, and what it does to files."""

import contextlib
import os
import re
import resource
import shlex
import shutil
import signal
import stat
import subprocess
import sys
from pathlib import Path

import logs
import programs
from processes import SECONDS, SIGNALS, is_running, quoted, until, with_signals

TOP = Path(__file__).resolve().parent.parent.parent
COMMAND = TOP / "page/lspcheck-page"
EXAMPLE = TOP / "examples/wrong-column.log"


def run(*words, **how):
    """Runs the command as a user does, but who does not want the smallest log unless he says so."""
    how = {"capture_output": True, "text": True, "timeout": SECONDS, **how}
    return subprocess.run([sys.executable, COMMAND, "--shrink", "0", *map(str, words)], **how)


def answers(done, status, errors):
    """Fails unless a run ended with this status, and standard error is one line with these words."""
    assert done.returncode == status, done
    assert done.stderr.startswith("lspcheck-page: ") and errors in done.stderr, done.stderr
    assert done.stderr.endswith("\n") and done.stderr[:-1].isprintable(), done.stderr


def writes_a_page(program, place):
    log = place / "a b.log"
    shutil.copy(EXAMPLE, log)
    done = run(log, "--program", program)
    page = place / "a b.html"
    assert (done.returncode, done.stdout, done.stderr) == (0, f"{page}\n", ""), done
    assert stat.S_IMODE(page.stat().st_mode) == 0o600
    assert sorted(it.name for it in place.iterdir()) == ["a b.html", "a b.log"]
    again = run(log, "--program", program)
    assert again.returncode == 0, again
    shown = run(log, "--program", program, "-o", "-")
    assert shown.stdout == page.read_text()


def writes_odd_names(program, place):
    """A name that is not UTF-8, and one that looks like an option."""
    for name in (b"a\xff.log", b"-b.log", b"\x1b[31m.log"):
        path = os.path.join(os.fsencode(place), name)
        shutil.copy(EXAMPLE, path)
        words = [os.fsencode(it) for it in (sys.executable, COMMAND, "--program", program)]
        done = subprocess.run([*words, "--", name], cwd=place, capture_output=True, timeout=SECONDS)
        assert done.returncode == 0 and done.stdout == name[:-4] + b".html\n", done


def says_what_standard_output_refuses(program, place):
    with open("/dev/full", "wb") as full:
        for words in ([EXAMPLE, "-o", "-"], [EXAMPLE, "-o", place / "x.html"], ["--help"], ["--version"]):
            done = subprocess.run([sys.executable, COMMAND, *words, "--program", program],
                                  stdout=full, stderr=subprocess.PIPE, text=True, timeout=SECONDS)
            answers(done, 3, "standard output: No space left on device")


def keeps_logs(program, place):
    """The log is not replaced by its page, whichever name it has, and neither is another log."""
    log, other = place / "x.log", place / "other.log"
    shutil.copy(EXAMPLE, log)
    other.write_bytes(b"lsp-session 1\n")
    (place / "link").symlink_to(log)
    os.link(log, place / "x.html")
    for name in (log, "link", "x.html", "./x.log"):
        for given in (log, "x.log", "link"):
            answers(run(given, "--program", program, "-o", name, cwd=place), 64, "this is the log itself")
    answers(run(log, "--program", program), 64, "this is the log itself")
    answers(run(log, "--program", program, "-o", other), 64, "this is a log: it is not replaced")
    assert log.read_bytes() == EXAMPLE.read_bytes() and other.read_bytes() == b"lsp-session 1\n"
    assert sorted(it.name for it in place.iterdir()) == ["link", "other.log", "x.html", "x.log"]


def device(place, name, number):
    """A device of memory: for root a copy, since root can replace the system's; None if there is none."""
    if os.getuid() != 0:
        return Path("/dev", name)
    try:
        os.mknod(place / name, stat.S_IFCHR | 0o666, os.makedev(1, number))
        with open(place / name, "rb"):
            return place / name
    except OSError:
        return None


def writes_to_what_is_no_plain_file(program, place):
    """A device and a named pipe stay what they are, and a link leads to the page."""
    null = device(place, "null", 3)
    if null:
        done = run(EXAMPLE, "--program", program, "-o", null)
        assert done.returncode == 0 and stat.S_ISCHR(os.stat(null).st_mode), done
    full = device(place, "full", 7)
    if full:
        answers(run(EXAMPLE, "--program", program, "-o", full), 3, "full: No space left on device")
        assert stat.S_ISCHR(os.stat(full).st_mode)
    os.mkfifo(place / "pipe")
    words = [sys.executable, COMMAND, EXAMPLE, "--program", program, "--shrink", "0", "-o", place / "pipe"]
    with subprocess.Popen(words, stdout=subprocess.DEVNULL) as running:
        page = (place / "pipe").read_bytes()
        assert running.wait(SECONDS) == 0 and stat.S_ISFIFO(os.stat(place / "pipe").st_mode)
    (place / "link").symlink_to("target.html")
    assert run(EXAMPLE, "--program", program, "-o", place / "link").returncode == 0
    assert (place / "link").is_symlink() and (place / "target.html").read_bytes() == page
    assert page.startswith(b"<!doctype html>") and page.endswith(b"</html>\n")


def reads_standard_input(program, place):
    """From a pipe, a file or a named pipe; the page has no name of a log then."""
    words = [sys.executable, COMMAND, "--program", program, "--shrink", "0"]
    given = EXAMPLE.read_bytes()
    piped = subprocess.run([*words, "-"], input=given, capture_output=True, timeout=SECONDS)
    assert piped.returncode == 0 and piped.stdout.startswith(b"<!doctype html>"), piped.stderr
    with EXAMPLE.open("rb") as file:
        redirected = subprocess.run([*words, "-"], stdin=file, capture_output=True, timeout=SECONDS)
    assert redirected.stdout == piped.stdout
    named = subprocess.run([*words, "-", "-o", place / "x.html"], input=given, capture_output=True, timeout=SECONDS)
    assert named.returncode == 0 and (place / "x.html").read_bytes() == piped.stdout
    os.mkfifo(place / "pipe.log")
    with subprocess.Popen([*words, place / "pipe.log"], stdout=subprocess.DEVNULL) as running:
        (place / "pipe.log").write_bytes(given)
        assert running.wait(SECONDS) == 0 and (place / "pipe.html").is_file()
    empty = subprocess.run([*words, "-"], input=b"", capture_output=True, text=False, timeout=SECONDS)
    assert empty.returncode == 2 and b"standard input: not a log" in empty.stderr, empty


def says_its_version(program, place):
    """That of the lspcheck that it would run, word for word."""
    said = subprocess.run([program, "--version"], capture_output=True, text=True).stdout
    other = script(place / "other", "echo compiling >&2\necho 'lspcheck 9.9 (checked, not proved), commit 0123456789ab'")
    for words, status, out, errors in [
        (["--program", program], 0, said, ""),
        (["--program", other], 0, "lspcheck 9.9 (checked, not proved), commit 0123456789ab\n", "compiling\n"),
        ([EXAMPLE, "--program", script(place / "hides", "printf 'lspcheck 1\\033[8m\\n'")], 0, "lspcheck 1?[8m\n", ""),
        (["--program", "true"], 1, "", f"lspcheck-page: {shutil.which('true')}: this program is not lspcheck\n"),
        ([], 1, "", "lspcheck-page: there is no lspcheck next to this command or on the PATH: use --program\n"),
    ]:
        path = {} if words else {"env": {"PATH": str(place / "empty")}}
        for given in (["--version", *words], [*words, "--version"]):
            done = run(*given, **path)
            assert (done.returncode, done.stdout, done.stderr) == (status, out, errors), done
    assert f'"lspcheck {said.split()[1]}"' in (TOP / "docs/lspcheck-page.1").read_text().split("\n")[0]


def ends_quietly_where_its_reader_is_gone(program, place):
    for words in (["--help"], ["--version"], [EXAMPLE, "-o", "-"], [EXAMPLE, "-o", place / "x.html"]):
        reader, writer = os.pipe()
        os.close(reader)
        done = run(*words, "--program", program, capture_output=False, stdout=writer, stderr=subprocess.PIPE)
        os.close(writer)
        assert (done.returncode, done.stderr) == (141, ""), (words, done)


def needs_no_terminal(program, place):
    """Standard output or standard error that was closed before."""
    words = shlex.join(map(str, (sys.executable, COMMAND, EXAMPLE, "--program", program, "-o", "x.html")))
    for closed, status, errors in ((">&-", 3, "lspcheck-page: standard output: Bad file descriptor\n"), ("2>&-", 0, "")):
        done = subprocess.run(["bash", "-c", f"{words} {closed}"], cwd=place, capture_output=True, text=True, timeout=SECONDS)
        assert (done.returncode, done.stderr) == (status, errors), done
    done = subprocess.run(["bash", "-c", f"{words} --bogus 2>&-"], cwd=place, capture_output=True, text=True, timeout=SECONDS)
    assert (done.returncode, done.stdout) == (64, ""), done


def keeps_other_files(program, place):
    log, other = place / "x.log", place / "x.html"
    shutil.copy(EXAMPLE, log)
    other.write_text("<!doctype html>mine")
    answers(run(log, "--program", program), 3, "not a page of this command")
    assert other.read_text() == "<!doctype html>mine"
    done = run(log, "--program", program, "-o", other)
    assert done.returncode == 0 and other.read_text().startswith("<!doctype html><!-- lspcheck-page -->")


def says_what_is_wrong_with_files(program, place):
    log, page = place / "x.log", place / "x.html"
    words = ["--program", program, "-o", page]
    answers(run(log, *words), 3, "x.log: No such file or directory")
    answers(run(place, *words), 3, "Is a directory")
    answers(run("/dev/null", *words), 2, "/dev/null: not a log")
    log.write_text("hello\n")
    answers(run(log, *words), 2, "x.log: not a log")
    log.write_bytes(b"")
    answers(run(log, *words), 2, "x.log: not a log")
    answers(run(EXAMPLE, "--program", program, "-o", place / "none/x.html"), 3, "No such file or directory")
    assert not page.exists()
    odd = place / "\x1b[31m\u202elog\n.log"
    answers(run(odd, *words), 3, "\\u001b[31m\\u202elog\\n.log\": No such file or directory")
    if os.getuid() != 0:
        log.chmod(0)
        answers(run(log, *words), 3, "Permission denied")


def says_what_is_wrong_with_words(program, place):
    answers(run(), 64, "LOG")
    answers(run(EXAMPLE, "--bogus"), 64, "--bogus")
    answers(run(EXAMPLE, "--most-events", "0"), 64, "0 is not a number from 1")
    answers(run(EXAMPLE, "--\x1b[31m"), 64, "--?[31m")
    answers(run(EXAMPLE, "--small", "--with-checker"), 64, "exclude each other")
    answers(run(EXAMPLE, EXAMPLE), 64, "several LOGs need --output FOLDER or --markdown")
    answers(run(EXAMPLE, "--output", place / "x", "-o", "x.html"), 64, "-o is for one page")
    answers(run(EXAMPLE, "--markdown", "-o", "x.html"), 64, "-o is for one page")
    answers(run("-", EXAMPLE, "-", "--markdown"), 64, "standard input is read once")
    answers(run(EXAMPLE, "--markdown", "--with-checker"), 64, "--markdown alone writes none")
    answers(run(EXAMPLE, "--markdown", "--jobs", "0"), 64, "0 is not a number from 1")
    answers(run(EXAMPLE, "--shrink", "-1"), 64, "--shrink")
    answers(run(EXAMPLE, "--shrink", "1.5"), 64, "1.5 is not a number from 0")
    assert not (place / "x").exists()
    nowhere = {**os.environ, "LSPCHECK_WEB": str(place)}
    answers(run(EXAMPLE, "--with-checker", "--program", program, env=nowhere), 1, "lspcheck.wasm: package/wasm builds it")
    help_text = run("--help")
    assert help_text.returncode == 0 and "--program" in help_text.stdout


def script(path, text):
    path.write_text(f"#!/bin/sh\n{text}\n")
    path.chmod(0o755)
    return path


def wait_for(path):
    """What a script does until a file exists."""
    return f"for it in $(seq {10 * SECONDS}); do [ -e {quoted(path)} ] && break; sleep 0.1; done"


def says_what_is_wrong_with_the_program(program, place):
    words = ["-o", place / "x.html"]
    path = {"PATH": str(place / "empty")}
    answers(run(EXAMPLE, *words, env=path), 1, "there is no lspcheck")
    answers(run(EXAMPLE, *words, "--program", place / "none"), 1, "there is no such program")
    answers(run(EXAMPLE, *words, "--program", "true"), 1, "is not lspcheck")
    ends = script(place / "ends", f'[ "$1" = show ] && {{ echo "lspcheck: out of memory" >&2; exit 4; }}\nexec {quoted(program)} "$@"')
    answers(run(EXAMPLE, *words, "--program", ends), 4, "lspcheck show: lspcheck: out of memory")
    dies = script(place / "dies", f'[ "$1" = explain ] && kill -9 $$\nexec {quoted(program)} "$@"')
    answers(run(EXAMPLE, *words, "--program", dies), 1, "lspcheck explain: it was ended by SIGKILL")
    other = script(place / "other", f'[ "$1" = show ] && exec {quoted(program)} show --all --long --json {quoted(TOP / "examples/clangd-session.log")}\nexec {quoted(program)} "$@"')
    answers(run(EXAMPLE, *words, "--program", other), 1, "differ")
    log = place / "x.log"
    shutil.copy(EXAMPLE, log)
    writes = script(place / "writes", f'[ "$1" = show ] && touch {quoted(log)}\nexec {quoted(program)} "$@"')
    answers(run(log, *words, "--program", writes), 1, "it changed while it was read")
    fails = script(place / "fails", "echo compiling >&2; exit 5")
    done = run(EXAMPLE, *words, "--program", fails)
    assert done.stderr == f"compiling\nlspcheck-page: {fails} --version: it ended with status 5\n", done
    assert done.returncode == 1 and not (place / "x.html").exists()


def says_what_is_wrong_with_the_objects(program, place):
    """A program that has no --json, and one whose objects are none: a line, and no page."""
    words = ["-o", place / "x.html", "--program"]
    older = script(place / "older", f"""for it; do [ "$it" = --json ] && {{ echo "lspcheck: error: unexpected argument '--json' found" >&2; echo >&2; echo usage >&2; exit 64; }}; done
exec {quoted(program)} "$@\"""")
    answers(run(EXAMPLE, *words, older), 1, "older: this lspcheck does not know 'explain --json'; it may be an older version")
    no = '{"is":"no","rule":605,"who":"editor","number":31,"event":48,"follows":false,"text":"x"}'
    for command, written, said in [
        ("show", "1 editor request 1", "lspcheck show: it wrote a line that is not an object of --json: '1 editor request 1"),
        ("show", '{"is":"request","event":1,', 'not an object of --json: \'{"is":"request","event":1,'),
        ("show", "[1]", "not an object of --json: '[1]"),
        ("show", '{"event":1}', "not an object of --json"),
        ("show", "[" * 20000, "not an object of --json"),
        ("show", r"\033[31m", "not an object of --json"),
        ("show", "", "lspcheck show: what it wrote has no end"),
        ("show", '{"is":"request","event":1,"side":"editor","id":1,"method":"initialize","number":1}', "what it wrote has no end"),
        ("show", '{"is":"request","event":1,"side":"other","number":1}', "lspcheck show: it wrote an event without its members"),
        ("show", '{"is":"request","event":1,"side":"editor"}\n{"is":"yes"}', "lspcheck show: it wrote an event without its members"),
        ("explain", "", "lspcheck explain: it wrote nothing"),
        ("explain", "no 605 editor 31 event 48", "lspcheck explain: it wrote a line that is not an object of --json: 'no 605 editor 31"),
        ("explain --all", no.replace('"rule":605,', ""), "lspcheck explain: it wrote a violation without its members"),
    ]:
        (place / "written").write_text(f"{written}\n" if written else "")
        other = script(place / "other", f'case "$* " in "{command} --"*) ;; *) exec {quoted(program)} "$@" ;; esac\n'
                       f'cat {quoted(place / "written")}')
        answers(run(EXAMPLE, *words, other), 1, said)
        assert not (place / "x.html").exists(), command


def passes_through_what_the_program_says_first(program, place):
    """A script like ./run says that it compiles while it does, and not only at the end."""
    go = place / "go"
    slow = script(place / "slow", f'[ "$1" = --version ] && {{ echo compiling >&2; {wait_for(go)}; }}\nexec {quoted(program)} "$@"')
    words = [sys.executable, COMMAND, EXAMPLE, "--program", slow, "-o", place / "x.html"]
    with subprocess.Popen(words, stdout=subprocess.PIPE, stderr=subprocess.PIPE, text=True) as running:
        assert running.stderr.readline() == "compiling\n"
        assert running.poll() is None and not (place / "x.html").exists()
        go.touch()
        assert running.wait(SECONDS) == 0 and running.stderr.read() == ""


def leaves_no_file_when_it_is_stopped(program, place):
    """One line, the status of the signal, no page, and no run of lspcheck that continues."""
    temporary = place / "temporary"
    temporary.mkdir()
    waits = script(place / "waits", f'[ "$1" = --version ] && exec {quoted(program)} "$@"\necho $$ >> {quoted(place / "pids")}\nexec sleep 600')
    for number in SIGNALS:
        (place / "pids").unlink(missing_ok=True)
        words = [sys.executable, COMMAND, EXAMPLE, "--program", waits, "-o", place / "x.html"]
        how = {"stdout": subprocess.PIPE, "stderr": subprocess.PIPE, "text": True, "preexec_fn": with_signals}
        with subprocess.Popen(words, env={**os.environ, "TMPDIR": str(temporary)}, **how) as running:
            assert until(lambda: (place / "pids").exists() and len((place / "pids").read_text().split()) == 3)
            running.send_signal(number)
            said, errors = running.communicate(timeout=SECONDS)
        assert running.returncode == -number and said == "", (running.returncode, said)
        assert errors == f"lspcheck-page: stopped by {number.name}: no page is written\n", errors
        left = [int(it) for it in (place / "pids").read_text().split() if is_running(it)]
        for it in left:
            os.kill(it, signal.SIGKILL)
        assert not left
        assert sorted(it.name for it in place.iterdir()) == ["pids", "temporary", "waits"]
        assert not [*temporary.iterdir()]


def ends_what_the_program_started(program, place):
    """A signal while ./run compiles: it is asked to end, and has the time to."""
    slow = script(place / "slow", f"ends() {{ echo ended > {quoted(place / 'ended')}; kill $!; exit 1; }}\ntrap ends TERM\necho compiling >&2\nsleep 600 &\nwait")
    words = [sys.executable, COMMAND, EXAMPLE, "--program", slow, "-o", place / "x.html"]
    with subprocess.Popen(words, stderr=subprocess.PIPE, text=True, preexec_fn=with_signals) as running:
        assert running.stderr.readline() == "compiling\n"
        running.terminate()
        assert running.wait(SECONDS) == -signal.SIGTERM
    assert (place / "ended").read_text() == "ended\n" and not (place / "x.html").exists()


def reads_a_log_as_often_as_needed(program, place):
    """The list of events once, and the explanations at the same time: a program with checks is slow. The
    text before a wrong position is asked for later."""
    started = quoted(place / "started")
    waits = script(place / "waits", f"""[ "$1" = --version ] && exec {quoted(program)} "$@"
echo "$*" >> {started}
for it in $(seq 6000); do [ $(wc -l < {started}) -ge 3 ] && exec {quoted(program)} "$@"; sleep 0.1; done
exit 9""")
    done = run(EXAMPLE, "--program", waits, "-o", place / "x.html")
    started = (place / "started").read_text().split("\n")[:-1]
    assert done.returncode == 0, done.stderr
    assert sorted(started[:3]) == ["explain --all --notes --json --quiet", "explain --json --quiet", "show --all --long --json --quiet"], started
    assert started[3:] == ["text --all 30 file:///tmp/lspwork-e/cpp/small.c --quiet"], started


def shows_progress_on_a_terminal(program, place):
    """How far the log was read, each second, and nothing of it is left."""
    log = place / "x.log"
    log.write_bytes(logs.long(2000))
    go = place / "go"
    reads = f"head -c 1000000 > /dev/null; {wait_for(go)}; exec {quoted(program)} \"$@\" < {quoted(log)}"
    slow = script(place / "slow", f'[ "$1" = show ] && {{ {reads}; }}\nexec {quoted(program)} "$@"')
    ours, theirs = os.openpty()
    words = [sys.executable, COMMAND, log, "--program", slow, "-o", place / "x.html"]
    said = ""
    with subprocess.Popen(words, stdout=subprocess.DEVNULL, stderr=theirs) as running:
        os.close(theirs)
        # The terminal is closed when the command has ended.
        with contextlib.suppress(OSError):
            while piece := os.read(ours, 100000).decode():
                said += piece
                if "show read 1 of" in said:
                    go.touch()
        assert running.wait(SECONDS) == 0, said
    os.close(ours)
    lines = [it.strip() for it in said.split("\r") if it.strip()]
    for line in lines:
        read = re.fullmatch(r"lspcheck-page: (?:lspcheck \w+|it) read (\d+) of (\d+) MB, (\d+) %", line)
        assert read and int(read[2]) == log.stat().st_size // 10**6, lines
        assert int(read[3]) == 100 * int(read[1]) // int(read[2]), lines
    assert any("show read 1 of" in it for it in lines), lines
    assert said.endswith("\r") and not said.split("\r")[-2].strip(), said


def takes_little_memory(program, place):
    """Less than three times a log of many bytes, and one of many events; the page is far smaller."""
    is_slow = programs.is_checked(program)
    log = place / "x.log"
    for content in (logs.long(2000 if is_slow else 12000), logs.many(5000 if is_slow else 60000)):
        log.write_bytes(content)
        words = [sys.executable, COMMAND, log, "--program", program, "--most-events", "100000"]
        code = "import resource, subprocess, sys; done = subprocess.run(sys.argv[1:], stdout=subprocess.DEVNULL); print(resource.getrusage(resource.RUSAGE_CHILDREN).ru_maxrss, done.returncode)"
        done = subprocess.run([sys.executable, "-c", code, *words], capture_output=True, text=True, timeout=SECONDS)
        kilobytes, status = map(int, done.stdout.split())
        # What any Python script takes before it does anything.
        assert status == 0 and 1024 * (kilobytes - 20000) < 3 * len(content), (kilobytes, len(content))
        assert (place / "x.html").stat().st_size < len(content) / 3


# What no page can do without: the commands of lspcheck, and the log compressed once.
NEEDED = """
import base64, subprocess, sys, zlib
program, log = sys.argv[1:]
for words in ("explain", "explain --all --notes", "show --all --long"):
    subprocess.run([program, *words.split(), "--json", log], stdout=subprocess.PIPE)
with open(log, "rb") as file:
    while block := file.read(1_000_000):
        base64.b64encode(zlib.compress(block, 3))
"""


def processor_time(*words):
    """The seconds of processor time of a command and what it starts, the least of three runs."""
    found = []
    for _ in range(3):
        before = resource.getrusage(resource.RUSAGE_CHILDREN)
        subprocess.run(list(map(str, words)), stdout=subprocess.DEVNULL, timeout=SECONDS, check=True)
        after = resource.getrusage(resource.RUSAGE_CHILDREN)
        found.append(after.ru_utime - before.ru_utime + after.ru_stime - before.ru_stime)
    return min(found)


def takes_little_time(program, place):
    """Less than four times what no page can do without."""
    log = place / "x.log"
    log.write_bytes(logs.long(2000 if programs.is_checked(program) else 20000))
    needed = processor_time(sys.executable, "-c", NEEDED, program, log)
    took = processor_time(sys.executable, COMMAND, log, "--program", program)
    assert took < 4 * needed, (took, needed)


def has_a_manual_page(program, place):
    """Its options and statuses are those of the help."""
    manual = (TOP / "docs/lspcheck-page.1").read_text().replace("\\-", "-")
    help_text = run("--help").stdout
    options = [set(re.findall(r"(?<![\w-])--?[a-z][a-z-]*", text)) for text in (manual, help_text)]
    assert options[0] == options[1], options
    said = " ".join(help_text.partition("Exit status:")[2].partition("positional")[0].split())
    statuses = [part.split()[0] for part in said.split(";")]
    assert re.findall(r"\.TP\n\.B (\d+)\n", manual) == statuses != [], statuses
    for default in ("20000", "50000000"):
        assert f"default is\n{default}." in manual or f"default is {default}." in manual
        assert f"(default: {default})" in " ".join(help_text.split())


def finds_the_program(program, place):
    (place / "bin").mkdir()
    (place / "bin/lspcheck").symlink_to(program)
    (place / "bin/lspcheck-page").symlink_to(COMMAND)
    near = subprocess.run([place / "bin/lspcheck-page", EXAMPLE, "--shrink", "0", "-o", place / "x.html"], capture_output=True)
    assert near.returncode == 0, near
    on_path = {"PATH": f"{place}/bin:{os.environ['PATH']}"}
    assert run(EXAMPLE, "-o", place / "y.html", env=on_path).returncode == 0
    assert (place / "x.html").read_bytes() == (place / "y.html").read_bytes()


TESTS = [
    writes_a_page,
    writes_odd_names,
    says_what_standard_output_refuses,
    keeps_logs,
    writes_to_what_is_no_plain_file,
    reads_standard_input,
    says_its_version,
    ends_quietly_where_its_reader_is_gone,
    needs_no_terminal,
    keeps_other_files,
    says_what_is_wrong_with_files,
    says_what_is_wrong_with_words,
    says_what_is_wrong_with_the_program,
    says_what_is_wrong_with_the_objects,
    passes_through_what_the_program_says_first,
    leaves_no_file_when_it_is_stopped,
    ends_what_the_program_started,
    reads_a_log_as_often_as_needed,
    shows_progress_on_a_terminal,
    takes_little_memory,
    takes_little_time,
    has_a_manual_page,
    finds_the_program,
]
