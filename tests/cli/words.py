"""Words that request the same, that request nothing, and inputs of another kind than was wanted."""

import os
import re

import bad_logs
import manual
import programs
import sessions
import tables
from pages import TOP, shell
from runs import OFFENCES, begins
from watching import on_terminal

SOME = re.compile(rb".+", re.S)

NO_COMMAND = b"lspcheck: hint: that is a file: did you mean 'lspcheck check FILE'?\n"
NO_URI = b"lspcheck: hint: the URI is the name of a file: did you mean 'text N URI FILE'?\n"

BAD_WORDS = [
    [],
    ["bogus"],
    ["--bogus"],
    ["check", "a", "b", "--all"],
    ["check", "-", "-"],
    ["check", "--as", "kinds"],
    ["check", "--complete", "--complete"],
    ["check", "--complete=true"],
    ["check", "--all", "--all"],
    ["check", "--every=true"],
    ["frames", "--quiet", "--quiet"],
    ["check", "--ignore-line-ends", "--ignore-line-ends"],
    ["check", "--ignore-line-ends=true"],
    ["show", "--ignore-line-ends"],
    ["upgrade", "--ignore-line-ends"],
    ["show", "--every"],
    ["explain", "--every"],
    ["explain", "--all", "--all"],
    ["explain", "--all", "--notes", "--notes"],
    ["explain", "--notes=true"],
    ["check", "--all", "--notes"],
    ["show", "--all", "--notes"],
    ["explain", "--by-messages", "--by-messages"],
    ["explain", "--in-editor=true"],
    ["explain", "--by-messages", "--in-editor"],
    ["explain", "--in-editor", "--all", "--by-messages", "a"],
    ["explain", "--compared"],
    ["check", "--compared", "--compared"],
    ["check", "--compared=true"],
    ["show", "--compared"],
    ["check", "--by-messages"],
    ["explain", "--complete", "--complete"],
    ["explain", "a", "b"],
    ["check", "--long"],
    ["show", "--complete"],
    ["show", "--long", "--long"],
    ["show", "--long=true"],
    ["text"],
    ["text", "1"],
    ["text", "0", "u"],
    ["text", "x", "u"],
    ["text", "-1", "u"],
    ["text", "1099511627777", "u"],
    ["text", "1", "u", "a", "b"],
    ["text", "1", "u", "--all", "--all"],
    ["event"],
    ["event", "0"],
    ["event", "x"],
    ["event", "-1"],
    ["event", "1099511627777"],
    ["event", "1", "a", "b"],
    ["event", "1", "--as", "kinds"],
    ["normal", "--as", "lengths"],
    ["upgrade", "--complete"],
    ["upgrade", "a", "b"],
    ["redact", "--complete"],
    ["redact", "--ignore-line-ends", "--ignore-line-ends"],
    ["redact", "a", "b"],
    ["frames", "--as"],
    ["frames", "--as", "other"],
    ["frames", "--as", "kinds", "--as", "kinds"],
    ["frames", "a", "b"],
    [b"check", b"\xff.log"],
]

# What each kind of run must give for KILLED, which keeps the rules, and for WRONGS, which does not:
# the status and standard output.
MISSING = sessions.KILLED_REPORT + sessions.KILLED_FACTS
GIVEN = {
    "check": [(0, sessions.KILLED_YES), (1, sessions.STAYS)],
    "complete": [(1, sessions.KILLED_REPORT), (1, sessions.STAYS)],
    "every": [
        (0, sessions.KILLED_YES),
        (1, sessions.WRONG_LINES + sessions.WRONG_FOLLOWS + sessions.WRONG_LATER + OFFENCES),
    ],
    "all complete": [
        (1, sessions.KILLED_REPORT + b"offences 1 following 0\n"),
        (1, sessions.WRONG_LINES + sessions.WRONG_LATER + OFFENCES),
    ],
    "explain complete": [(1, MISSING), (1, sessions.STAYS + sessions.STAYS_FACTS)],
    "explain all complete": [(1, MISSING + b"offences 1 following 0\n"), (1, sessions.WRONGS_EXPLAINED + OFFENCES)],
    "long": [
        (0, b"".join(sessions.WHOLE_LONG.splitlines(True)[:7]) + sessions.KILLED_YES),
        (1, b"".join(sessions.WHOLE_LONG.splitlines(True)[:4]) + sessions.STAYS),
    ],
    "text": [(0, b"ab"), (0, b"ab")],
    "event": [(0, b"ab"), (0, sessions.content(sessions.changed(1)))],
    "no event": [(5, b""), (5, b"")],
    "frames": [(2, b"fault 102 frame 1\nbad header line\n")] * 2,
}

# What standard error has in addition.
SAID = {
    "no event": b"fewer events\n",
    "frames": b"lspcheck: hint: this looks like the log of a session: try 'lspcheck check'\n",
}

# Words of each kind: all words of a kind request the same.
SAME = [
    ("check", "check FILE"),
    ("check", "check - < FILE"),
    ("check", "check < FILE"),
    ("check", "check -- - < FILE"),
    ("check", "check -- FILE"),
    ("check", "check -- --complete"),
    ("complete", "check --complete FILE"),
    ("complete", "check FILE --complete"),
    ("every", "check --every FILE"),
    ("every", "check FILE --all --every"),
    ("all complete", "check --all --complete FILE"),
    ("all complete", "check FILE --all --complete"),
    ("all complete", "check --complete --all FILE"),
    ("all complete", "check --complete --all - < FILE"),
    ("explain complete", "explain --complete FILE"),
    ("explain complete", "explain FILE --complete"),
    ("explain all complete", "explain --complete --all FILE"),
    ("explain all complete", "explain --all --complete FILE"),
    ("explain complete", "explain --notes --complete FILE"),
    ("explain all complete", "explain --complete --notes --all FILE"),
    ("long", "show --long FILE"),
    ("long", "show FILE --long"),
    ("text", "text 3 file:///a FILE"),
    ("text", "text +3 file:///a FILE"),
    ("text", "text 003 file:///a FILE"),
    ("event", "event 5 FILE"),
    ("event", "event +5 FILE"),
    ("no event", "event 1099511627776 FILE"),
    ("no event", "event 1099511627776 - < FILE"),
    ("frames", "frames FILE"),
    ("frames", "frames --as lengths FILE"),
]


def try_advice(trial):
    """What is said beyond the fixed words: on a terminal, which command explains a no of `check`."""
    kept, path = trial.file("kept.log", sessions.WHOLE), trial.file("exits.log", sessions.EXITS)
    log, says = str(path).encode(), b"lspcheck: hint: lspcheck explain%s says why\r\n"
    for words, given, status, told in [
        (["check", path], b"", 1, says % (b" " + log)),
        (["check", "--quiet", path], b"", 1, says % (b" " + log)),
        (["check", "--complete", path], b"", 1, says % (b" --complete " + log)),
        (["check", "--ignore-line-ends", path], b"", 1, says % (b" --ignore-line-ends " + log)),
        (["check", "--all", path], b"", 1, says % (b" --all " + log)),
        (["check", "--every", "--complete", path], b"", 1, says % (b" --all --complete " + log)),
        (["check"], sessions.EXITS, 1, says % b""),
        (["check", path, kept, path], b"", 1, says % b" FILE"),
        (["check", kept], b"", 0, b""),
        (["check", kept, kept], b"", 0, b""),
        (["explain", path], b"", 1, b""),
        (["show", path], b"", 1, b""),
    ]:
        got = on_terminal(trial, words, False, given)
        trial.note(f"advice: lspcheck {' '.join(map(str, words))}", (got[0], got[2]) == (status, told), got)
    unknown = b"lspcheck: error: unexpected argument '--xxx' found\n\nUsage: lspcheck check [OPTIONS] [FILE]...\n"
    trial.run("advice", ["check", "--xxx"], 64, b"", unknown + b"\nFor more information, try '--help'.\n")
    similar = re.compile(rb"(?s)lspcheck: error: unexpected argument '--complet' found\n\n  tip: .*'--complete'\n.*")
    trial.run("advice", ["check", "--complet", path], 64, b"", similar)
    escape = trial.file("exits\x1b[2J\x9b.log", sessions.EXITS)
    told = says % (b' "%s/exits\\u001b[2J\\u009b.log"' % os.fsencode(trial.folder))
    got = on_terminal(trial, ["check", escape])
    trial.note("advice on a name with an escape sequence", (got[0], got[2]) == (1, told), got)
    for stream, word in NO_STREAMS.items():
        trial.each_way(["frames"], stream, 2, SOME, begins(b"", word))
    for stream, rule in STREAMS_WITH_FIELDS.items():
        trial.each_way(["frames"], stream, 2, re.compile(rb"fault %d frame 1\n.*\n" % rule))
    for stream, word in STREAMS_AS_LOGS.items():
        trial.each_way(["check"], stream, 2, bad_logs.BAD_FIRST_LINE, begins(b"", word))


# What is not a stream of frames, and a word of the hint that says so.
NO_STREAMS = {
    sessions.WHOLE: b"lspcheck check",
    b"\x1f\x8b\x08\x00\x00\x00\x00\x00": b"compressed",
    b"\x28\xb5\x2f\xfd\x00": b"compressed",
    b"hello\nworld\n": b"Content-Length: 52",
    b"warning: starting\r\n\r\n": b"Content-Length: 52",
    b"[Info] x\r\nContent-Length: 2\r\n\r\n{}": b"Content-Length: 52",
    b"X-A: b\r\n\r\n": b"Content-Length: 52",
    b"Error: cannot find module 'x'\n": b"Content-Length: 52",
    b"Error: cannot find module 'x', which is wanted\n": b"Content-Length: 52",
    b"Error: x\nby: y\r\n": b"Content-Length: 52",
    b"X A: b\r\n": b"Content-Length: 52",
    b"X-A b\r\n": b"Content-Length: 52",
}

# Streams that begin with a header part, of whatever fields, and the rule that they break.
STREAMS_WITH_FIELDS = {
    b"X-A: b\r\nContent-Length: 2\r\n\r\n{": 107,
    b"X-A: b\r\nContent-Len": 107,
    b"x1: \r\nContent-Length: x\r\n\r\n{}": 104,
    b"CONTENT-LENGTH: 2\r\n\r\n{": 107,
    b"cONTENT-tYPE: x\r\n\r\n{}": 103,
    b"Content-Length: 2": 107,
}

# The same where a log was wanted, and a word of the hint: a field that only LSP has shows a stream.
STREAMS_AS_LOGS = {
    b"CONTENT-LENGTH: 2\r\n\r\n{}": b"lspcheck frames",
    b"cONTENT-tYPE: x\r\n\r\n{}": b"lspcheck frames",
    b"X-A: b\r\nContent-Length: 2\r\n\r\n{}": b"lsp-session 2",
    b"Content_Length: 2\r\n\r\n{}": b"lsp-session 2",
    b"Content": b"lsp-session 2",
}


def try_same(trial):
    """Words that request the same, on a session that keeps the rules and on one that does not. A
    file may have the name of an option."""
    for number, log in enumerate([sessions.KILLED, sessions.WRONGS]):
        trial.file("--complete", log)
        for kind, words in SAME:
            line = "lspcheck " + words.replace("FILE", "./--complete")
            got, wanted = shell(trial, line, cwd=trial.folder), (*GIVEN[kind][number], SAID.get(kind, b""))
            trial.note(words, got == wanted, got)


def try_dash(trial):
    """A file with the name `-`, and standard input."""
    trial.file("-", sessions.KILLED)
    trial.file("whole", sessions.WHOLE)
    for words, report in [
        ("check - < whole", sessions.WHOLE_REPORT),
        ("check -- - < whole", sessions.WHOLE_REPORT),
        ("check ./- < whole", sessions.KILLED_YES),
        ("check -- ./- < whole", sessions.KILLED_YES),
    ]:
        got = shell(trial, f"lspcheck {words}", cwd=trial.folder)
        trial.note(words, got == (0, report, b""), got)


def try_words(trial):
    """Bad arguments, and the version."""
    for words in BAD_WORDS:
        # No words at all ask for help.
        trial.run("words", words, 64, b"", begins(b"lspcheck: error: ") if words else begins(b"Judges recorded sessions"))
    path = trial.file("session.log", sessions.WHOLE)
    trial.run("no command", [path], 64, b"", re.compile(rb"(?s).+" + re.escape(NO_COMMAND)))
    trial.run("no command", ["missing"], 64, b"", re.compile(rb"(?s)(?!.*hint).+"))
    trial.run("no URI", ["text", "1", path], 2, b"", NO_URI + bad_logs.BAD_FIRST_LINE)
    trial.run("no URI", ["text", "3", path, path], 5, b"", tables.NO_DOCUMENT)
    version = manual.version((TOP / "docs/lspcheck.1").read_text())
    made = rf" {re.escape(programs.CHECKED)}(, commit [0-9a-f]{{12}}( with changes)?)?"
    line = re.escape(f"lspcheck {version}") + (made if programs.is_checked(trial.program) else "") + "\n"
    for words in [["--version"], ["-V"]]:
        trial.run("version", words, 0, re.compile(line.encode()))
