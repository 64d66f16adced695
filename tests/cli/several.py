"""`check` of several files: the line of each, the worst status, names, faults, and what is open; and
`--compared`, of one file too."""

import contextlib
import os
import re
import resource
import subprocess

import programs
import sessions
from processes import SECONDS, until

# How many seconds a program may take for what it does at once, on a busy machine.
MOMENT = 30

READ_FAULT = b"lspcheck: read fault\n"
WRITE_FAULT = b"lspcheck: write fault\n"

# Logs by the status of `check`: their content, and the first line of their report.
LOGS = {
    0: (sessions.WHOLE, b"yes"),
    1: (sessions.EXITS, b"no 406 editor 6 event 9"),
    2: (sessions.HEAD + b"X\n", b"bad log L2 record 1"),
}

# Names that need care, and how each is written.
NAMES = [
    ("plain.log", b"plain.log"),
    ("two words: yes.log", b"two words: yes.log"),
    ("caf\u00e9 \U0001f600.log", "caf\u00e9 \U0001f600.log".encode()),
    ('"quoted".log', b'"quoted".log'),
    ("line\nfeed: yes.log", rb'"line\nfeed: yes.log"'),
    ("escape\x1b[2J\t\".log", rb'"escape\u001b[2J\t\".log"'),
    # The controls end with U+001F and U+009F; the characters next to them are none.
    ("tilde~\x7f.log", rb'"tilde~\u007f.log"'),
    ("\x80next\x85line\x9b2J\x9f.log", rb'"\u0080next\u0085line\u009b2J\u009f.log"'),
    ("no\xa0break\u2028.log", "no\xa0break\u2028.log".encode()),
    ("both\x1f \xa0\x9e\u1f00.log", b'"both' + rb"\u001f" + " \xa0".encode() + rb"\u009e" + '\u1f00.log"'.encode()),
]

# Logs that get yes: the counts in the report, and whether a snapshot is compared.
SNAPSHOT = b"T %d 9 2\nfile:///a\nab\n"
OPENED = sessions.HEAD + sessions.INITIALIZE + sessions.ANSWER + sessions.INITIALIZED + sessions.OPEN
COUNTED = [
    ("nothing", sessions.HEAD, b"messages 0 0\nsnapshots 0 unmatched 0\nencoding - sync -\n", False),
    ("only", sessions.HEAD + SNAPSHOT % 1, b"messages 0 0\nsnapshots 1 unmatched 1\nencoding - sync -\n", False),
    ("open", OPENED, b"messages 3 1\nsnapshots 0 unmatched 0\n", False),
    ("later", OPENED + SNAPSHOT % 7 + SNAPSHOT % 8, b"messages 3 1\nsnapshots 2 unmatched 2\n", False),
    ("some", OPENED + SNAPSHOT % 1 + SNAPSHOT % 7, b"messages 3 1\nsnapshots 2 unmatched 1\n", True),
    ("all", OPENED + SNAPSHOT % 1, b"messages 3 1\nsnapshots 1 unmatched 0\n", True),
]
LACK = b"lspcheck: --compared: no snapshot was compared\n"


def lines(*rows):
    """The lines of these names and first lines."""
    return b"".join(b"%s: %s\n" % (os.fsencode(name), line) for name, line in rows)


def cause(name, number):
    return b"lspcheck: %s: %s (os error %d)\n" % (os.fsencode(name), os.strerror(number).encode(), number)


def try_statuses(trial):
    """Each pair of logs, in each order: the greater status."""
    paths = {status: trial.file(f"log{status}", log) for status, (log, _) in LOGS.items()}
    paths[3] = trial.folder / "missing"
    words = {status: line for status, (_, line) in LOGS.items()} | {3: b"read fault"}
    for one, first in paths.items():
        for two, second in paths.items():
            err = b"".join(READ_FAULT + cause(path, 2) for path in (first, second) if path == paths[3])
            out = lines((first, words[one]), (second, words[two]))
            trial.run("two logs", ["check", first, second], max(one, two), out, err)


def try_options(trial):
    """Options apply to all; what lists violations takes one file, and standard input is read once."""
    whole, killed = trial.file("whole", sessions.WHOLE), trial.file("killed", sessions.KILLED)
    yes, cut = lines((whole, b"yes"), (killed, b"yes")), lines((whole, b"yes"), (killed, b"no 407 editor 5 event 8"))
    trial.run("several", ["check", whole, killed], 0, yes)
    for words in [["--complete", whole, killed], [whole, "--complete", killed], [whole, killed, "--complete"]]:
        trial.run("several", ["check", *words], 1, cut)
    folder = trial.folder / "ends"
    folder.mkdir()
    ends = sessions.HEAD + sessions.INITIALIZE + sessions.ANSWER + sessions.INITIALIZED + sessions.OPEN
    path = trial.file("ends/log", ends + b"T 1 9 3\nfile:///a\nab\n\n")
    differs = lines((whole, b"yes"), (path, b"no 702 snapshot 1 event 5"))
    trial.run("several", ["check", whole, path], 1, differs)
    trial.run("several", ["check", "--ignore-line-ends", whole, path], 0, lines((whole, b"yes"), (path, b"yes")))
    ending = b"\n\nFor more information, try '--help'.\n"
    listing = b"lspcheck: error: --all and --every list the violations of one FILE" + ending
    for words in [["--all"], ["--every"], ["--all", "--complete"], ["--every", "--all"], ["--all", "--compared"]]:
        trial.run("several", ["check", *words, whole, killed], 64, b"", listing)
    twice = b"lspcheck: error: standard input ('-') can be read only once" + ending
    trial.run("several", ["check", "-", "-"], 64, b"", twice, sessions.WHOLE)
    trial.run("several", ["check", "-", whole, "-"], 64, b"", twice, sessions.WHOLE)
    trial.run("several", ["check", killed, "-"], 0, lines((killed, b"yes"), ("-", b"yes")), b"", sessions.WHOLE)
    trial.run("several", ["check", "-", whole], 1, lines(("-", LOGS[1][1]), (whole, b"yes")), b"", sessions.EXITS)
    trial.run("several", ["check", whole, whole], 0, lines((whole, b"yes"), (whole, b"yes")))


def try_compared(trial):
    """A yes that compared no snapshot: the line of such a log, and `--compared`, under which its
    status is 1 and standard error says why once. Everything else stays as it is."""
    paths = {name: trial.file(name, log) for name, log, _, _ in COUNTED}
    said = {name: b"yes" if compared else b"yes nothing-compared" for name, _, _, compared in COUNTED}
    for name, log, counts, compared in COUNTED:
        begun = re.compile(rb"(?s)yes\n" + re.escape(counts) + b".*")
        for words in [[], ["--all"], ["--every"], ["--ignore-line-ends"]]:
            trial.each_way(["check", *words], log, 0, begun)
            trial.each_way(["check", "--compared", *words], log, int(not compared), begun, b"" if compared else LACK)
        other = paths["some" if compared else "nothing"]
        out = lines((paths[name], said[name]), (other, said[other.name]))
        trial.run("compared", ["check", paths[name], other], 0, out)
        end = (0, out, b"") if compared else (1, out, LACK)
        trial.run("compared", ["check", "--compared", paths[name], other], *end)
    every = lines(*((paths[name], said[name]) for name in paths))
    trial.run("compared", ["check", *paths.values()], 0, every)
    trial.run("compared", ["check", *paths.values(), "--compared"], 1, every, LACK)
    for status, (log, line) in LOGS.items():
        path = trial.file(f"log{status}", log)
        trial.run("compared", ["check", "--compared", path], status, re.compile(re.escape(line) + b"\n(?s:.*)"))
        out = lines((path, line), (paths["open"], said["open"]))
        trial.run("compared", ["check", "--compared", path, paths["open"]], max(status, 1), out, LACK)
    trial.run("compared", ["check", "--compared", "missing"], 3, b"", READ_FAULT + cause("missing", 2))
    out, err = lines(("missing", b"read fault"), (paths["open"], said["open"])), READ_FAULT + cause("missing", 2) + LACK
    trial.run("compared", ["check", "--compared", "missing", paths["open"]], 3, out, err)
    # Without `exit` the verdict is a no, and the option is not about that.
    killed = b"no 407 editor 4 event 5\nexit is missing\n"
    trial.each_way(["check", "--complete", "--compared"], OPENED, 1, killed)
    with open("/dev/full", "wb") as full:
        told = WRITE_FAULT + cause("standard output", 28)
        trial.run("compared", ["check", "--compared", paths["open"]], 3, b"", told, stdout=full)
        trial.run("compared", ["check", "--compared", paths["open"], paths["open"]], 3, b"", told, stdout=full)


def try_names(trial):
    """Names with spaces, colons, quotes, line feeds and other control characters, on standard output
    and in messages; and bytes that are not UTF-8."""
    folder = trial.folder / "names"
    folder.mkdir()
    for name, _ in NAMES:
        (folder / name).write_bytes(sessions.WHOLE)
    run = subprocess.run(
        [trial.program, "check", *(name for name, _ in NAMES)], cwd=folder, capture_output=True, timeout=SECONDS
    )
    wanted = b"".join(b"%s: yes\n" % shown for _, shown in NAMES)
    got = (run.returncode, run.stdout, run.stderr)
    trial.note("names", got == (0, wanted, b""), got)
    empty = trial.folder / "empty"
    empty.mkdir()
    gone = [READ_FAULT + b"lspcheck: %s: No such file or directory (os error 2)\n" % shown for _, shown in NAMES]
    run = subprocess.run(
        [trial.program, "check", *(name for name, _ in NAMES)], cwd=empty, capture_output=True, timeout=SECONDS
    )
    wanted = (3, b"".join(b"%s: read fault\n" % shown for _, shown in NAMES), b"".join(gone))
    got = (run.returncode, run.stdout, run.stderr)
    trial.note("names of files that are not there", got == wanted, got)
    for (name, _), told in zip(NAMES, gone):
        run = subprocess.run([trial.program, "explain", name], cwd=empty, capture_output=True, timeout=SECONDS)
        got = (run.returncode, run.stdout, run.stderr)
        trial.note(f"the name {name!r} in a message", got == (3, b"", told), got)
    stream = trial.file("stream\x1b[2J\x9b", sessions.CANONICAL)
    told = b'lspcheck: hint: "%s/stream\\u001b[2J\\u009b": this looks like' % os.fsencode(trial.folder)
    run = subprocess.run([trial.program, "check", stream, stream], capture_output=True, timeout=SECONDS)
    trial.note("a name in a hint", run.stderr.count(told) == 2 and run.stderr.count(b"\n") == 2, run.stderr)
    for words, shown in [
        (["bad\x1b[2J\x9b"], rb"lspcheck: error: unrecognized subcommand 'bad\u001b[2J\u009b'"),
        (["explain", "a", "b\x1b[2J"], rb"lspcheck: error: unexpected argument 'b\u001b[2J' found"),
        (["check", "--\x85"], rb"lspcheck: error: unexpected argument '--\u0085' found"),
        (["frames", "--as", "\x7f"], rb"lspcheck: error: invalid value '\u007f' for '--as <MODE>'"),
    ]:
        trial.run("names", words, 64, b"", re.compile(re.escape(shown) + b"\n(?s:.*)"))
    refused = b"lspcheck: error: a word of the command line is not UTF-8\n"
    trial.run("names", ["check", b"\xff.log", "b.log"], 64, b"", refused)


def try_faults(trial, nobody):
    """Files that cannot be read among others, and outputs that cannot be written."""
    whole, stream = trial.file("whole", sessions.WHOLE), trial.file("stream", sessions.CANONICAL)
    folder, locked = trial.folder / "several", trial.file("unreadable", sessions.WHOLE)
    folder.mkdir()
    locked.chmod(0)
    rows = [(whole, b"yes"), ("missing", b"read fault"), (folder, b"read fault"), (locked, b"read fault")]
    rows += [(stream, b"bad log L1 record 0"), (whole, b"yes")]
    err = b"".join(READ_FAULT + cause(name, number) for name, number in [("missing", 2), (folder, 21), (locked, 13)])
    hint = b"lspcheck: hint: %s: this looks like one raw stream of frames: try 'lspcheck frames'\n" % os.fsencode(stream)
    trial.run("faults", ["check", *(name for name, _ in rows)], 3, lines(*rows), err + hint, before=nobody)
    # The second file is a pipe that nobody writes: opening it would take forever.
    pipe = trial.folder / "never"
    os.mkfifo(pipe)
    for first in [whole, "missing"]:
        with open("/dev/full", "wb") as full:
            told = WRITE_FAULT + cause("standard output", 28)
            trial.run("full device", ["check", first, pipe], 3, b"", told, stdout=full)
        reader, writer = os.pipe()
        os.close(reader)
        told = WRITE_FAULT + cause("standard output", 32)
        trial.run("closed pipe", ["check", first, pipe], 3, b"", told, stdout=writer)
        os.close(writer)


def try_memory(trial):
    """Memory that suffices for all files but one, whose message is larger. A program compiled with
    checks needs more just to begin."""
    if programs.leaves_out(trial.program, "memory of several logs"):
        return
    small, large = trial.file("small", sessions.EXITS), trial.folder / "large"
    content = b'{"jsonrpc":"2.0","method":"%s"}' % (b"x" * 50_000_000)
    message = b"Content-Length: %d\r\n\r\n%s" % (len(content), content)
    pieces = [message[at : at + 1_000_000] for at in range(0, len(message), 1_000_000)]
    large.write_bytes(sessions.HEAD + b"".join(b"E %d\n%s\n" % (len(piece), piece) for piece in pieces))
    rows = [(small, LOGS[1][1]), (large, b"out of memory"), (small, LOGS[1][1])]
    limited = ["prlimit", "--as=33554432"]
    out, err = lines(*rows), b"lspcheck: out of memory\n"
    trial.run("memory", ["check", *(name for name, _ in rows)], 4, out, err, before=limited)
    large.unlink()


def try_one_open(trial):
    """A line is written before the next file is opened, and then the first is closed."""
    first, second = trial.file("first", sessions.EXITS), trial.folder / "second"
    os.mkfifo(second)
    run = subprocess.Popen([trial.program, "check", first, second], stdout=subprocess.PIPE)
    line = run.stdout.readline()
    with open(second, "wb") as pipe:
        opened = opened_by(run.pid, second)
        pipe.write(sessions.WHOLE)
    rest = run.stdout.read()
    got = (line, rest, run.wait(SECONDS), second in opened, first in opened)
    wanted = (lines((first, LOGS[1][1])), lines((second, b"yes")), 1, True, False)
    trial.note("one file is open at a time", got == wanted, got)


def opened_by(process, path):
    """What a process has open, once it has opened this."""
    opened = []

    def has_opened():
        opened.clear()
        for it in os.scandir(f"/proc/{process}/fd"):
            # One that was just closed is gone.
            with contextlib.suppress(FileNotFoundError):
                opened.append(path.with_name(os.path.basename(os.readlink(it))))
        return path in opened

    until(has_opened, MOMENT)
    return opened


def try_many(trial):
    """A thousand logs: a line each, the worst status, and no more time than a run for each takes."""
    if programs.leaves_out(trial.program, "a thousand logs"):
        return
    folder = trial.folder / "many"
    folder.mkdir()
    names, wanted = [f"{number:03}.log" for number in range(1000)], []
    for number, name in enumerate(names):
        log, line = LOGS[2 if number == 500 else 1 if number % 7 == 3 else 0]
        (folder / name).write_bytes(log)
        wanted.append((name, line))
    before = used()
    run = subprocess.run([trial.program, "check", *names], cwd=folder, capture_output=True, timeout=SECONDS)
    together = used() - before
    got = (run.returncode, run.stdout, run.stderr)
    trial.note("a thousand logs", got == (2, lines(*wanted), b""), (run.returncode, run.stdout[:200], run.stderr[:200]))
    before = used()
    for name in names:
        subprocess.run([trial.program, "check", name], cwd=folder, capture_output=True, timeout=SECONDS)
    alone = used() - before
    trial.note("time of a thousand logs", together <= 1.1 * alone, f"{together:.2f} s, {alone:.2f} s one by one")


def used():
    """The processor time of the runs that ended, in seconds."""
    spent = resource.getrusage(resource.RUSAGE_CHILDREN)
    return spent.ru_utime + spent.ru_stime
