"""The command: its statuses and messages, each value that it writes, and its options."""

import contextlib
import json
import os
import pty
import re
import subprocess
import sys

from hunts import COMMAND, TOP, check, has_played, objects_of, replayed, run, run_longer, until_found, words_of
from processes import SECONDS, quoted


def refuses(done, status, words):
    """Fails unless the run ended with this status, and said one thing on standard error."""
    assert done.returncode == status, done
    last = done.stderr.splitlines()[-1]
    assert last.startswith("lspcheck-fuzz: ") and words in last, done.stderr
    assert "Traceback" not in done.stderr, done.stderr


def answers_bad_arguments(program, place):
    for options, words in [
        (["--seconds", "0"], "0 is not a number of seconds"),
        (["--seed", "x"], "x is not a number from 1"),
        (["--jobs", "0"], "0 is not a number from 1"),
        (["--only", "bogus"], "bogus is not a feature"),
        (["--without", "typing,bogus"], "bogus is not a feature"),
        (["--only", "cr", "--without", "cr,typing,deleting"], "--without leaves no feature"),
        (["--folder", place / "none"], "none is not a folder"),
        (["--small", "-"], "- is not a file to write: standard output has the report"),
        (["--start", "a.bogus"], "a.bogus is not known: give --language"),
        # No option may be cut short, so that a later one can't change what a script means.
        (["--smal", place / "x"], "--smal"),
    ]:
        refuses(run(program, options=options), 64, words)
    refuses(run(program, server=[]), 64, "SERVER")
    bare = [sys.executable, COMMAND, "--program", program, "./my-server"]
    done = subprocess.run(list(map(str, bare)), capture_output=True, text=True)
    refuses(done, 64, "the language of ./my-server is not known: give --language")


def answers_faults_of_files(program, place):
    refuses(run(program, options=["--small", place / "no/file"]), 3, "No such file or directory")
    refuses(run(program, options=["--small", place]), 3, "Is a directory")
    refuses(run(program, options=["--start", place / "none.c"]), 3, "none.c: No such file or directory")
    (place / "bad.c").write_bytes(b"\xff")
    refuses(run(program, options=["--start", place / "bad.c"]), 2, "bad.c: it is not UTF-8")
    with open("/dev/full", "w") as full:
        for options in (["--version"], ["--help"], ["--seconds", "1"]):
            done = run(program, options=options, capture_output=False, stdout=full, stderr=-1)
            refuses(done, 3, "standard output: No space left on device")


def says_why_nothing_can_be_said(program, place):
    refuses(run(program, server=["/no/such/server"]), 2, "/no/such/server: No such file")
    refuses(run(program, "offerless"), 2, "offers none of the questions")
    refuses(run(program, "now"), 2, "the server answers otherwise each time")
    error = 'an error, such as error -32602 "no such document"'
    refuses(run(program, "errors"), 2, f"the server answers each question with {error}")
    refuses(run(program, "none"), 2, "the server wants no changes of documents")
    refuses(run(program, server=["true"]), 2, "true ended with status 0")
    refuses(run("/no/such/lspcheck"), 2, "/no/such/lspcheck: there is no such program")
    refuses(run(program, "silent", options=["--wait", 2]), 2, 'gave no answer in 2 seconds (see --wait) to')


def says_that_a_session_is_not_legal(program, place):
    """What lspcheck does not answer yes to says nothing about the server."""
    for size, words in [(0, "no 605 editor 3 event 4"), (3000, "no 702 snapshot 9 event 20")]:
        other = place / "other"
        other.write_text(f"""#!/bin/sh
[ "$1" = check ] || exec {quoted(program)} "$@"
cat > {quoted(place)}/log.$$
if [ $(wc -c < {quoted(place)}/log.$$) -gt {size} ]; then echo {words}; exit 1; fi
exec {quoted(program)} "$@" < {quoted(place)}/log.$$
""")
        other.chmod(0o755)
        done = run_longer(other, is_wanted=lambda it: it.returncode == 2 or has_played(it))
        refuses(done, 2, f'lspcheck says "{words}" about a session of this command')


def says_its_version(program, place):
    """That of the lspcheck that it would run, word for word."""
    said = subprocess.run([program, "--version"], capture_output=True, text=True).stdout
    for words in (["--version", "--program", program], ["--program", program, "--version"]):
        done = subprocess.run([sys.executable, COMMAND, *map(str, words)], capture_output=True, text=True)
        assert (done.returncode, done.stdout, done.stderr) == (0, said, ""), done
    assert f'"lspcheck {said.split()[1]}"' in (TOP / "docs/lspcheck-fuzz.1").read_text().split("\n")[0]


def writes_each_value(program, place):
    """The lines of a drift, and the same as objects; the small case is six messages."""
    small = place / "small.log"
    options = ["--small", small, "--only", "astral", "--seconds", SECONDS]
    done = run(program, "characters", options=options)
    first, second, last = done.stdout.splitlines()
    pattern = (r'drift astral: counts characters; text ("[^"]*") change 0:(\d+)-0:(\d+) ("[^"]*") '
               r'right ("[^"]*") seed 1 session \d+ edits \d+')
    found = re.fullmatch(pattern, first)
    assert found and done.returncode == 1, done
    text, start, end, new, right = (json.loads(it) for it in found.groups())
    units = text.encode("utf-16-le")
    changed = units[: 2 * start] + new.encode("utf-16-le") + units[2 * end :]
    assert changed.decode("utf-16-le") == right, first
    assert second == f"small {small} 6 messages", second
    assert re.fullmatch(r"drifts 1 sessions \d+ edits \d+ answers \d+ unconfirmed 0 failures 0 seed 1", last), last
    assert check(program, small) == "yes" and replayed(program, small, "characters").returncode == 1
    done = run(program, "characters", options=[*options, "--json"])
    drift, written, total, status = objects_of(done)
    assert (drift["is"], drift["feature"], drift["causes"]) == ("drift", "astral", ["counts characters"])
    assert (drift["text"], drift["right"], drift["messages"]) == (text, right, 6), drift
    assert written == {"is": "small", "file": str(small), "messages": 6}, written
    assert (total["is"], total["drifts"], total["seed"]) == ("drifts", 1, 1), total
    assert status == {"is": "status", "status": 1, "why": None}, status


def leaves_out_what_it_is_told(program, place):
    """A feature that is left out shows nothing, and one that is not asked for neither."""
    for faults, options in [
        (["characters"], ["--without", "astral"]),
        (["past=dropped"], ["--without", "past-end"]),
        (["beyond"], []),
        (["cr"], ["--only", "astral,crlf"]),
    ]:
        done = run_longer(program, *faults, options=options, is_wanted=has_played)
        assert (done.returncode, done.stderr) == (0, ""), (faults, done)


def begins_with_a_file(program, place):
    """In its language, which a folder's documents have, too."""
    start = place / "start.c"
    start.write_bytes("int a;\r\nint é;\n".encode())
    options = ["--start", start, "--folder", place, "--small", place / "small.log"]
    objects = until_found(program, "ignores=😀", options=options)
    assert [it["feature"] for it in objects if it["is"] == "drift"] == ["astral"], objects
    log = (place / "small.log").read_text()
    assert f'"rootUri":"{place.as_uri()}"' in log and f'"uri":"{place.as_uri()}/fuzz1.c"' in log, log
    assert '"languageId":"c"' in log and sorted(it.name for it in place.iterdir()) == ["small.log", "start.c"]


def ends_quietly_where_its_reader_is_gone(program, place):
    for options in (["--help"], ["--version"], ["--seconds", "1"]):
        reader, writer = os.pipe()
        os.close(reader)
        done = run(program, options=options, capture_output=False, stdout=writer, stderr=-1)
        os.close(writer)
        assert (done.returncode, done.stderr) == (141, ""), (options, done)


def tells_a_terminal_how_far_it_is(program, place):
    """In a line that is taken back at the end."""
    terminal, its_end = pty.openpty()
    words = words_of(program, options=["--seconds", 1])
    with subprocess.Popen(words, stdout=subprocess.PIPE, stderr=its_end) as process:
        os.close(its_end)
        said = b"".join(read_all(terminal))
        process.communicate()
    os.close(terminal)
    assert re.search(rb"\r\x1b\[K\d+ of 1 seconds, \d+ sessions, \d+ edits, 0 drifts\r\x1b\[K", said), said
    assert said.endswith(b"\r\x1b[K"), said


def read_all(terminal):
    """What a terminal is written, until its other end is closed."""
    with contextlib.suppress(OSError):
        while data := os.read(terminal, 1 << 16):
            yield data


def helps_as_its_manual_page_does(program, place):
    helped = run(program, "--help", server=[]).stdout
    manual = (TOP / "docs/lspcheck-fuzz.1").read_text().replace("\\-", "-")
    options = re.findall(r"^  (--[\w-]+)", helped, re.M)
    assert sorted(re.findall(r"^\.TP\n\.BI? (--[\w-]+)", manual, re.M)) == sorted(options), options
    synopsis = manual.partition(".SH DESCRIPTION")[0]
    assert sorted([*re.findall(r"--[\w-]+", synopsis), "--version"]) == sorted(options), synopsis
    statuses = re.findall(r"^\.TP\n\.B (\d+)$", manual, re.M)
    assert statuses == ["0", "1", "2", "3", "64"], statuses
    features = re.findall(r"^  ([a-z-]+)  +\w", helped.partition("Features:")[2], re.M)
    part = manual.partition(".SH FEATURES")[2].partition(".SH ")[0]
    assert re.findall(r"^\.TP\n\.B ([a-z-]+)$", part, re.M) == features and len(features) == 23, features


TESTS = [
    answers_bad_arguments,
    answers_faults_of_files,
    says_why_nothing_can_be_said,
    says_that_a_session_is_not_legal,
    says_its_version,
    writes_each_value,
    leaves_out_what_it_is_told,
    begins_with_a_file,
    tells_a_terminal_how_far_it_is,
    ends_quietly_where_its_reader_is_gone,
    helps_as_its_manual_page_does,
]
