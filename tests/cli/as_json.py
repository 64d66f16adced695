"""`--json`: of one log the lines as objects, while more of it may come too; of several logs an object
for each, with its file; and what it cannot be used with."""

import json
import os
import re
import select
import subprocess

import objects
import programs
import sessions
from several import LOGS, MOMENT, NAMES, READ_FAULT, WRITE_FAULT, cause
from processes import SECONDS

# The objects of the logs by their status; and that of one that cannot be read.
BODIES = {
    0: {"is": "yes"},
    1: {"is": "no", "rule": 406, "who": "editor", "number": 6, "event": 9, "follows": False,
        "text": "editor message after exit"},
    2: {"is": "bad log", "code": "L2", "record": 1, "text": "bad record line"},
    3: {"is": "read fault"},
}


def written(*rows):
    """The objects of these files, on a line each."""
    made = ({"file": os.fsdecode(name), **body} for name, body in rows)
    return "".join(json.dumps(it, ensure_ascii=False, separators=(",", ":")) + "\n" for it in made).encode()


def try_one(trial):
    """One log, by its name or on standard input: its objects have no file."""
    for status, (log, _) in LOGS.items():
        report = subprocess.run([trial.program, "check"], input=log, capture_output=True, timeout=SECONDS).stdout
        for words in [["check", "--json"], ["check", "--json", "-"]]:
            run = subprocess.run([trial.program, *words], input=log, capture_output=True, timeout=SECONDS)
            got = (run.returncode, run.stderr, [*objects.faults_of(report.decode(), run.stdout.decode())])
            trial.note(f"lspcheck {' '.join(words)}", got == (status, b"", []), got)
    first = b'{"is":"no","rule":406,"who":"editor","number":6,"event":9,"follows":false,'
    first += b'"text":"editor message after exit"}\n'
    trial.run("one log", ["check", "--json"], 1, first, given=sessions.EXITS)


def try_statuses(trial):
    """Each pair of logs, in each order: the greater status, as without the option."""
    paths = {status: trial.file(f"log{status}", log) for status, (log, _) in LOGS.items()}
    paths[3] = trial.folder / "missing"
    for one, first in paths.items():
        for two, second in paths.items():
            err = b"".join(READ_FAULT + cause(path, 2) for path in (first, second) if path == paths[3])
            out = written((first, BODIES[one]), (second, BODIES[two]))
            trial.run("two logs", ["check", "--json", first, second], max(one, two), out, err)


def try_options(trial):
    """The other options of `check`, and a yes that compared no snapshot."""
    whole, killed = trial.file("whole", sessions.WHOLE), trial.file("killed", sessions.KILLED)
    missing = {"is": "no", "rule": 407, "who": "editor", "number": 5, "event": 8, "follows": False,
               "text": "exit is missing"}
    out = written((whole, BODIES[0]), (killed, missing))
    trial.run("several", ["check", "--json", "--complete", whole, killed], 1, out)
    unsure, nothing = {"is": "yes", "remark": "nothing-compared"}, trial.file("nothing", sessions.HEAD)
    out = written((nothing, unsure), (whole, BODIES[0]))
    trial.run("several", ["check", "--json", nothing, whole], 0, out)
    told = b"lspcheck: --compared: no snapshot was compared\n"
    trial.run("several", ["check", "--json", "--compared", nothing, whole], 1, out, told)


def try_names(trial):
    """A file has the name that was given, whatever characters it has."""
    folder = trial.folder / "named"
    folder.mkdir()
    names = [name for name, _ in NAMES]
    for name in names:
        (folder / name).write_bytes(sessions.WHOLE)
    for words, status, body in [(names, 0, BODIES[0]), ([f"{name}.gone" for name in names], 3, BODIES[3])]:
        run = subprocess.run([trial.program, "check", "--json", *words], cwd=folder, capture_output=True, timeout=SECONDS)
        wanted = written(*((name, body) for name in words))
        trial.note("names in JSON", (run.returncode, run.stdout) == (status, wanted), run.stdout)
        read = [json.loads(line).get("file") for line in run.stdout.decode().split("\n")[:-1]]
        trial.note("names read from JSON", read == words, read)


def try_memory(trial):
    """Memory that suffices for all files but one."""
    if programs.leaves_out(trial.program, "memory of several logs"):
        return
    small, large = trial.file("small", sessions.EXITS), trial.folder / "large"
    content = b'{"jsonrpc":"2.0","method":"%s"}' % (b"x" * 50_000_000)
    message = b"Content-Length: %d\r\n\r\n%s" % (len(content), content)
    pieces = [message[at : at + 1_000_000] for at in range(0, len(message), 1_000_000)]
    large.write_bytes(sessions.HEAD + b"".join(b"E %d\n%s\n" % (len(piece), piece) for piece in pieces))
    out = written((small, BODIES[1]), (large, {"is": "out of memory"}), (small, BODIES[1]))
    words = ["check", "--json", small, large, small]
    trial.run("memory", words, 4, out, b"lspcheck: out of memory\n", before=["prlimit", "--as=33554432"])
    large.unlink()


def try_refused(trial):
    """One of two texts is no report, and other commands do not have the option."""
    whole = trial.file("whole", sessions.WHOLE)
    ending = b"\n\nFor more information, try '--help'.\n"
    told = b"lspcheck: error: --json cannot be used with --by-messages or --in-editor" + ending
    for words in [["--by-messages"], ["--in-editor"], ["--all", "--by-messages"]]:
        trial.run("refused", ["explain", "--json", *words, whole], 64, b"", told)
    listing = b"lspcheck: error: --all and --every list the violations of one FILE" + ending
    trial.run("refused", ["check", "--json", "--all", whole, whole], 64, b"", listing)
    unknown = re.compile(rb"lspcheck: error: unexpected argument '--json' found\n(?s:.*)")
    for words in [["text", "1", "file:///a"], ["event", "1"], ["normal"], ["upgrade"], ["frames"]]:
        trial.run("refused", [words[0], "--json", *words[1:], whole], 64, b"", unknown)
    with open("/dev/full", "wb") as full:
        told = WRITE_FAULT + cause("standard output", 28)
        for words in [[whole], [whole, whole]]:
            trial.run("full device", ["check", "--json", *words], 3, b"", told, stdout=full)


def try_watched(trial):
    """What is written of a log while more of it may come, as without the option."""
    causes = sessions.WRONG_LINES + sessions.WRONG_LATER
    for words, log, early in [
        (["check", "--all"], sessions.WRONGS, causes),
        (["explain", "--all"], sessions.WRONGS, sessions.WRONGS_EXPLAINED),
        (["explain", "--all", "--notes"], sessions.NOTED, sessions.NOTED_EXPLAINED),
        (["show"], sessions.WHOLE, sessions.WHOLE_LINES),
        (["show", "--all"], sessions.WRONGS, sessions.WRONGS_SHOWN),
    ]:
        pipes = {"stdin": subprocess.PIPE, "stdout": subprocess.PIPE}
        run = subprocess.Popen([trial.program, *words, "--json"], **pipes)
        run.stdin.write(log)
        run.stdin.flush()
        count = early.count(b"\n") - len(re.findall(rb"(?m)^no ", early))
        got = objects_meanwhile(run.stdout, count)
        run.stdin.close()
        run.stdout.read()
        faults = [*objects.faults_of(early.decode(), got.decode())]
        ended = run.wait(SECONDS)
        trial.note(f"watched: lspcheck {' '.join(words)} --json", not faults, (ended, faults))


def objects_meanwhile(pipe, count):
    """So many lines that come through a pipe, or fewer if nothing comes any more."""
    got = b""
    while got.count(b"\n") < count and select.select([pipe], [], [], MOMENT)[0]:
        piece = os.read(pipe.fileno(), 1)
        if not piece:
            break
        got += piece
    return got


PARTS = [try_one, try_statuses, try_options, try_names, try_memory, try_refused, try_watched]
