"""The pages for users: each example is run, and its output is compared with the page. So are the
recorder that LOG_FORMAT shows, the script for CI of IN_A_TEST_SUITE, and what README has for a clone."""

import os
import re
import shutil
import subprocess
from pathlib import Path

from processes import SECONDS

TOP = Path(__file__).resolve().parent.parent.parent
PAGES = [
    "README.md",
    "docs/GOT_A_LOG.md",
    "docs/REPORT.md",
    "docs/RECORDERS.md",
    "docs/LOG_FORMAT.md",
    "docs/RULES.md",
    "docs/IN_A_TEST_SUITE.md",
]


def shell(trial, line, **how):
    """The status and both outputs of a command line in a shell that finds the program."""
    search = {**os.environ, "PATH": f"{trial.program.parent}:{os.environ['PATH']}"}
    run = subprocess.run(["sh", "-c", line], env=search, capture_output=True, timeout=SECONDS, **how)
    return run.returncode, run.stdout, run.stderr


def examples(page):
    """The commands that a page shows after `$ `, and the lines that follow; `..` stands for any
    lines."""
    for block in re.findall(r"^```\n(\$ .*?)^```$", page, re.S | re.M):
        for part in re.split(r"^\$ ", block, flags=re.M)[1:]:
            command, _, shown = part.partition("\n")
            yield command, shown


# Which of the lines that a page shows are written to standard error.
SAYS = re.compile(r"lspcheck: .*\n|no such document\n|no content\n|no texts .*\n|fewer .*\n")

# How many of the first lines that a page shows are a report on standard error, if there is one.
REPORTED = {
    "lspcheck text 6 file:///tmp/lspwork/cpp/main.cpp examples/stopped-twice.log": 2,
}

# The status that belongs to the first line of a report, or of what is written instead of one.
STATUSES = [
    (r'no \d|.*\nno \d|\{"is":"no",', 1),
    (r"bad log |(.*\n)*fault ", 2),
    (r"((.+: |\{).*\n)*lspcheck: (read|write) fault", 3),
    (r"no such document|no content|no texts |fewer ", 5),
    (r"(?s:.*)lspcheck: --compared: ", 1),
]


def due(command, shown):
    """What the lines of a page require: both outputs, the first as a pattern, and the status."""
    lines = shown.splitlines(True)
    first = REPORTED.get(command, 0)
    said = lines[:first] + [line for line in lines[first:] if SAYS.fullmatch(line)]
    out = "".join(line for line in lines[first:] if not SAYS.fullmatch(line))
    last = re.split(r"[|;] *", command)[-1]
    ends = [status for begin, status in STATUSES if last.startswith("lspcheck") and re.match(begin, shown)]
    pattern = re.escape(out).replace(re.escape("..\n"), r"(.*\n)*?")
    return re.compile(pattern.encode()), "".join(said).encode(), (ends or [0])[0]


def try_pages(trial):
    """Each example of the pages: what it writes on either output, and its status."""
    for name in PAGES:
        shown = 0
        for command, lines in examples((TOP / name).read_text()):
            if command.startswith(("lspcheck-replay ", "lspcheck-fuzz ")):
                # This needs a server: replay/run and fuzz/run do it.
                continue
            if re.search(r"\bnode ", command) and not shutil.which("node"):
                print(f"left out, since there is no node: {name}: {command}")
                continue
            out, err, status = due(command, lines)
            got = shell(trial, command, cwd=TOP)
            good = got[0] == status and out.fullmatch(got[1]) is not None and got[2] == err
            trial.note(f"{name}: {command}", good, got)
            shown += 1
        trial.note(f"{name} has examples", shown > 0)


def try_fresh_clone(trial):
    """The first command of README that needs neither the kit nor the program: a reader meets it within
    forty lines, and it needs no variable but PATH."""
    lines = (TOP / "README.md").read_text().splitlines()
    at = next((number for number, line in enumerate(lines, 1) if line.startswith("$ recorders/")), 0)
    trial.note("README: a command for a fresh clone within forty lines", 0 < at <= 40, at)
    search = {"PATH": os.environ["PATH"]}
    run = subprocess.run(["sh", "-c", lines[at - 1][2:]], cwd=TOP, env=search, capture_output=True, timeout=SECONDS)
    trial.note("README: a command for a fresh clone", run.stdout.decode() == f"{lines[at]}\n", run)


def shown_after(page, mark):
    """The block of code that a page shows after a comment."""
    text = (TOP / page).read_text()
    return re.search(rf"^<!-- {re.escape(mark)} -->\n```\w*\n(.*?)^```$", text, re.S | re.M)[1]


# A session of one document, whose server answers at once: who passes bytes, and their contents.
URI, TEXT, LONGER = "file:///greeting.txt", "good 😀 morning\n", "good 😀 morning!\n"
PASSED = [
    (b"E", '{"jsonrpc":"2.0","id":1,"method":"initialize","params":{"capabilities":{}}}'),
    (b"S", '{"jsonrpc":"2.0","id":1,"result":{"capabilities":{"textDocumentSync":2}}}'),
    (b"E", '{"jsonrpc":"2.0","method":"initialized","params":{}}'),
    (b"E", '{"jsonrpc":"2.0","method":"textDocument/didOpen","params":{"textDocument":{"uri":"%s","languageId":"x",'
           '"version":1,"text":"%s"}}}' % (URI, TEXT.replace("\n", "\\n"))),
    (b"E", '{"jsonrpc":"2.0","method":"textDocument/didChange","params":{"textDocument":{"uri":"%s","version":2},'
           '"contentChanges":[{"range":{"start":{"line":0,"character":15},"end":{"line":0,"character":15}},'
           '"text":"!"}]}}' % URI),
]


def recorded(trial, name, first, second, extra=b""):
    """The report on a log that the recorder of LOG_FORMAT wrote, with these two texts."""
    names = {}
    exec(shown_after("docs/LOG_FORMAT.md", "a recorder"), names)
    path = trial.folder / name
    recorder = names["Recorder"](path)
    for side, content in PASSED:
        recorder.passed(side, b"Content-Length: %d\r\n\r\n%s" % (len(content.encode()), content.encode()))
    recorder.passed(b"S", extra)
    recorder.snapshot(URI, 1, first)
    recorder.snapshot(URI, 2, second)
    return subprocess.run([trial.program, "check", path], capture_output=True, text=True, timeout=SECONDS).stdout


def try_recorder(trial):
    """The recorder of LOG_FORMAT: its logs are judged, and its snapshots compared; it is as long as the
    page says, cuts what is too long for a record, and replaces no file."""
    lines = shown_after("docs/LOG_FORMAT.md", "a recorder").splitlines()
    trial.note("the recorder has ten lines", len([line for line in lines if line.strip()]) == 10, lines)
    got = recorded(trial, "yes.log", TEXT, LONGER).splitlines()
    wanted = ["yes", "messages 4 1", "snapshots 2 unmatched 0", "encoding utf-16 sync incremental"]
    trial.note("the recorder: yes", got[:4] == wanted, got)
    got = recorded(trial, "no.log", TEXT, TEXT)
    trial.note("the recorder: no", got == "no 702 snapshot 2 event 7\nsnapshot differs\n", got)
    long = '{"jsonrpc":"2.0","method":"window/logMessage","params":{"type":4,"message":"%s"}}' % ("x" * 3_000_000)
    got = recorded(trial, "long.log", TEXT, LONGER, b"Content-Length: %d\r\n\r\n%s" % (len(long), long.encode()))
    trial.note("the recorder: a long message", got.startswith("yes\nmessages 4 2\n"), got)
    try:
        recorded(trial, "yes.log", TEXT, LONGER)
        trial.note("the recorder replaces no log", False)
    except FileExistsError:
        trial.note("the recorder replaces no log", True)


def try_judge(trial):
    """The script for CI: its status, what it writes, and, unless all logs are clean, pages and a summary.
    It runs as shells run the lines of a job."""
    commands = trial.folder / "commands"
    commands.mkdir()
    (commands / "lspcheck").symlink_to(trial.program)
    (commands / "lspcheck-page").symlink_to(TOP / "page/lspcheck-page")
    search = {**os.environ, "PATH": f"{commands}:{os.environ['PATH']}"}
    clean, stopped = [(TOP / f"examples/{name}.log").read_bytes() for name in ("clangd-session", "stopped-twice")]
    for what, logs, status, words, pages, summary in [
        ("clean", {"a": clean, "b": clean}, 0, "logs/a.log: yes\nlogs/b.log: yes\n", [], ""),
        ("a violation", {"a": clean, "b c": stopped}, 1, "phase exited\n", ["a.html", "b-c.html"], "**2 logs: 1 no, 1 yes**\n"),
        ("names", {"a": clean, "b c": stopped}, 1, "\n\nlogs/b c.log:\nno ", ["a.html", "b-c.html"], "\n### `logs/b c.log`\n"),
        ("nothing compared", {"a": b"lsp-session 2\n"}, 1, "note nothing-compared\n", ["a.html"], "\n- `note nothing-compared`\n"),
        ("a damaged log", {"a": clean[:-1]}, 2, "bad log L4 ", ["a.html"], "Bad log L4 ("),
        ("no log", {}, 3, "", ["log.html"], ""),
    ]:
        place = trial.folder / what
        (place / "logs").mkdir(parents=True)
        (place / "judge.sh").write_text(shown_after("docs/IN_A_TEST_SUITE.md", "judge.sh"))
        for name, log in logs.items():
            (place / f"logs/{name}.log").write_bytes(log)
        run = subprocess.run(["sh", "judge.sh"], cwd=place, env=search, capture_output=True, text=True, timeout=SECONDS)
        good = run.returncode == status and words in run.stdout and (status > 0 or run.stdout == words)
        trial.note(f"judge.sh: {what}", good, run)
        wanted = sorted([*pages, "index.html"]) if pages else []
        trial.note(f"judge.sh: {what}: pages", sorted(it.name for it in place.glob("pages/*")) == wanted, run)
        told = (place / "summary.md").read_text() if pages else ""
        trial.note(f"judge.sh: {what}: summary", summary in told and (place / "summary.md").exists() == bool(pages), told)
