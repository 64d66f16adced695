"""Pages of several logs: the folder, the index, the links between them, and what goes wrong."""

import base64
import contextlib
import hashlib
import json
import os
import re
import shutil
import signal
import stat
import subprocess
import sys
from collections import Counter
from html.parser import HTMLParser
from pathlib import Path

import logs
from command import COMMAND, EXAMPLE, TOP, answers, run, script
from data import EXAMPLES, Tags, lines_of, output, page_of, written
from processes import SECONDS, is_running, quoted, until, with_signals

HEADS = ["Log", "Verdict", "What", "Editor", "Server", "Events", "Bytes"]


class Table(HTMLParser):
    """The rows of a table, as the texts of their cells; and the links, each with its `rel` and text."""

    def __init__(self, page):
        super().__init__()
        self.rows, self.links, self.cell = [], [], None
        self.feed(page)
        self.close()

    def handle_starttag(self, tag, attributes):
        given = dict(attributes)
        if tag == "tr":
            self.rows.append([])
        elif tag in ("td", "th"):
            self.rows[-1].append("")
            self.cell = tag
        elif tag == "a":
            self.links.append([given["href"], given.get("rel"), ""])

    def handle_endtag(self, tag):
        self.cell = None if tag == self.cell else self.cell

    def handle_data(self, text):
        if self.cell:
            self.rows[-1][-1] += text
        if self.links and self.get_starttag_text() == "<bdi>":
            self.links[-1][2] += text if not self.links[-1][2] else ""


def name_in(message, *path):
    """The name in a message of the handshake, with the number in its version. Of a log without a
    handshake, event 2 may be a snapshot, which has none."""
    try:
        found = json.loads(message)
    except ValueError:
        return ""
    for key in path:
        found = (found or {}).get(key)
    if not found or not found.get("name"):
        return ""
    number = re.search(r"\d+(\.\d+)+", found.get("version", ""))
    return f"{found['name']} {number[0] if number else found.get('version', '')}".strip()


def due(program, given, log):
    """The row of a log that is one, from what `check`, `explain`, `show` and `event` write."""
    check, explain = lines_of(program, "check", log), lines_of(program, "explain", log)
    notes = [it for it in lines_of(program, "explain", "--all", "--notes", log) if it.startswith("note ")]
    kind = re.match(r"yes|no (\d+)|bad log (L\d)", check[0])
    verdict = {"y": "Yes", "n": f"No {kind[1]}", "b": f"Bad log {kind[2]}"}[check[0][0]]
    sentences = [json.loads(it[3:]) for it in explain if it.startswith("so ")]
    what = sentences[0] if sentences else "" if verdict == "Yes" else check[1]
    if verdict == "Yes" and notes:
        what = "no snapshot was compared" if "note nothing-compared" in notes else f"{len(notes)} note{'s' * (len(notes) > 1)}"
    shown = lines_of(program, "show", "--all", log)
    broken = [it for it in shown if it.startswith("no ")]
    events = sum(it[:1].isdigit() for it in shown) + len([it for it in broken if not re.match("no (107|303|407) ", it)])
    editor = name_in(output(program, "event", 1, log), "params", "clientInfo")
    server = name_in(output(program, "event", 2, log), "result", "serverInfo")
    return [str(given), verdict, what, editor, server, f"{events:,}", f"{log.stat().st_size:,}"]


def folder_of(program, place, given, *words):
    """The folder of pages that is written, once the command has said where its index is."""
    folder = place / "pages"
    done = run(*given, "--program", program, "--output", folder, *words, cwd=place)
    assert (done.returncode, done.stdout, done.stderr) == (0, f"{folder}/index.html\n", ""), done
    return folder


def has_a_row_for_each_log(program, place):
    """In the order in which they were given, what `lspcheck` says about each."""
    made = [written(place, name, content) for name, content in logs.telling().items()]
    given = [*EXAMPLES, *made, written(place, "cut.log", (TOP / "examples/clangd-session.log").read_bytes()[:9000])]
    page = (folder_of(program, place, given) / "index.html").read_text()
    table = Table(page)
    assert table.rows[0] == HEADS, table.rows[0]
    assert len(table.rows) == 1 + len(given)
    for row, log in zip(table.rows[1:], given):
        assert row == due(program, log, log), (row, due(program, log, log))
    found = Counter(lines_of(program, "check", log)[0].split()[0] for log in given)
    assert found.keys() == {"yes", "no", "bad"}
    assert f"<h1>{len(given)} logs: {found['no']} no, {found['bad']} bad log, {found['yes']} yes</h1>" in page, found


def has_a_page_for_each_log(program, place):
    """The page that the command writes of this log alone, and links to those next to it."""
    (place / "sub").mkdir()
    for name in ("a.log", "sub/a.log", "b c.log", "A.log", "index.log"):
        shutil.copy(EXAMPLES[len(name) % len(EXAMPLES)], place / name)
    given = ["a.log", "sub/a.log", "b c.log", "A.log", "index.log"]
    folder = folder_of(program, place, given)
    wanted = ["a.html", "a-2.html", "b-c.html", "A-3.html", "index-2.html"]
    assert sorted(it.name for it in folder.iterdir()) == sorted([*wanted, "index.html"])
    assert stat.S_IMODE(folder.stat().st_mode) == 0o700
    assert {stat.S_IMODE(it.stat().st_mode) for it in folder.iterdir()} == {0o600}
    index = Table((folder / "index.html").read_text())
    assert index.links == [[page, None, name] for page, name in zip(wanted, given)], index.links
    for at, (name, page) in enumerate(zip(given, wanted)):
        text = (folder / page).read_text()
        nav, alone = re.search(r"<nav .*?</nav>\n", text, re.S)[0], page_of(program, place / name)
        assert text.replace(nav, "") == alone, name
        links = [["index.html", None, "All logs"]]
        links += [[wanted[at - 1], "prev", f"‹ {given[at - 1]}"]] if at else []
        links += [[wanted[at + 1], "next", f"{given[at + 1]} ›"]] if at + 1 < len(given) else []
        assert Table(nav).links == links, (nav, links)
    one = folder_of(program, place / "sub", ["a.log"])
    assert sorted(it.name for it in one.iterdir()) == ["a.html", "index.html"]


def stays_in_its_folder(program, place):
    """However a log is named: no page outside, no two of one name, also where case makes no difference."""
    logs_of = place / "logs"
    logs_of.mkdir()
    names = [b"<img src=x onerror=alert(1)>&quot;.log", b"..log", b"...log", b".log", b"-x.log", b"a\xff.log", b"a\xfe.log",
             "\u202e\u0301.log".encode(), b"A" * 200 + b".log", b"a" * 199 + b".log", b"Index", b"index.html", b"\n.log", b"%2e%2e%2f.log"]
    for name in names:
        shutil.copy(EXAMPLES[0], os.path.join(os.fsencode(logs_of), name))
    before = sorted(os.listdir(place))
    words = [os.fsencode(it) for it in (sys.executable, COMMAND, "--program", program, "--shrink", "0", "--output", place / "pages", "--")]
    done = subprocess.run([*words, *names, *names[:3]], cwd=logs_of, capture_output=True, timeout=SECONDS)
    assert done.returncode == 0 and done.stderr == b"", done
    assert sorted(os.listdir(place)) == sorted([*before, "pages"]) and len(os.listdir(logs_of)) == len(names)
    pages = os.listdir(place / "pages")
    assert len({it.lower() for it in pages}) == len(pages) == len(names) + 3 + 1, pages
    assert all(re.fullmatch(r"[A-Za-z0-9_][A-Za-z0-9._-]{0,110}\.html", it) for it in pages), pages
    hrefs = [it[0] for it in Table((place / "pages/index.html").read_text()).links]
    assert sorted([*hrefs, "index.html"]) == sorted(pages)


def keeps_hostile_contents_text(program, place):
    """The index has the tags of a harmless one, no script, and a policy that allows only its style."""
    mark = "\u202e" + "a" + "\u0301" * 40
    client = {"name": f"{logs.EVIL}{mark}", "version": f"{logs.EVIL} 1.2.3"}
    start = b"lsp-session 2\n" + logs.frame(b"E", logs.request(1, "initialize", {"capabilities": {}, "clientInfo": client}))
    named = start + logs.frame(b"S", logs.result(1, {"capabilities": {}, "serverInfo": client}))
    hostile = [written(place, f"{'<b>' * at}&lt;{mark}.log", it) for at, it in enumerate([named, logs.hostile(), *logs.evil().values()])]
    harmless = [written(place, f"{at}.log", log) for at, log in enumerate([logs.noted(), *[logs.joined()] * (len(hostile) - 1)])]
    pages = []
    for name, given in (("hostile", hostile), ("harmless", harmless)):
        (place / name).mkdir()
        pages.append((folder_of(program, place / name, given) / "index.html").read_text())
    tags = [Tags(it) for it in pages]
    names = [[tag for tag, _ in it.tags] for it in tags]
    assert {*names[0]} == {*names[1]} and "script" not in names[0], names[0]
    assert [names[0].count(it) for it in ("tr", "td", "a", "style")] == [names[1].count(it) for it in ("tr", "td", "a", "style")]
    assert {key for _, given in tags[0].tags for key, _ in given} == {key for _, given in tags[1].tags for key, _ in given}
    assert tags[0].comments == [" lspcheck-page "]
    assert "\u202e" not in pages[0] and "\u0301" * 4 not in pages[0] and "[U+0301]" in pages[0] and "<img" not in pages[0]
    style = "".join(text for tag, _, text in tags[0].raw if tag == "style")
    digest = base64.b64encode(hashlib.sha256(style.encode()).digest()).decode()
    assert tags[0].policy == f"default-src 'none'; style-src 'sha256-{digest}'; base-uri 'none'; form-action 'none'"
    shown = [row[3] for row in Table(pages[0]).rows]
    assert any(logs.EVIL in it for it in shown), shown
    for page in (place / "hostile/pages").iterdir():
        nav = re.search(r"<nav .*?</nav>\n", page.read_text(), re.S)
        assert nav is None or {tag for tag, _ in Tags(nav[0]).tags} == {"nav", "a", "bdi"}, page


def says_which_logs_cannot_be_read(program, place):
    """A line and a page for each, the others as if it were not there, and the greatest status."""
    (place / "folder.log").mkdir()
    shutil.copy(EXAMPLE, place / "a.log")
    (place / "text.log").write_text("hello\n")
    for given, status in ((["a.log", "text.log"], 2), (["none.log", "a.log", "text.log", "folder.log"], 3)):
        done = run(*given, "--program", program, "--output", "pages", cwd=place)
        assert (done.returncode, done.stdout) == (status, "pages/index.html\n"), done
        said = {"none.log": "No such file or directory", "folder.log": "Is a directory",
                "text.log": "not a log: its first line is not that of a log"}
        lines = [f"lspcheck-page: {it}: {said[it]}" for it in given if it in said]
        assert sorted(done.stderr.splitlines()) == sorted(lines), done.stderr
        rows = Table((place / "pages/index.html").read_text()).rows[1:]
        assert [row[0] for row in rows] == given
        for row in rows:
            wanted = due(program, row[0], place / row[0]) if row[0] == "a.log" else [row[0], "Not read", f"{row[0]}: {said[row[0]]}", "", "", "", ""]
            assert row == wanted, (row, wanted)
        for name in given:
            page = (place / "pages" / name.replace(".log", ".html")).read_text()
            assert (said.get(name, "</script>") in page) and '<a href="index.html">' in page, name
            assert ("<script" in page) == (name == "a.log"), name


def goes_on_after_a_fault_of_the_program(program, place):
    """Of one log lspcheck dies, of the other it has no memory: the third has its page."""
    for name, content in (("dies", b"lsp-session 2\nE 4\ndies\n"), ("full", b"lsp-session 2\nE 4\nfull\n"), ("a", EXAMPLE.read_bytes())):
        written(place, f"{name}.log", content)
    fails = script(place / "fails", f"""[ "$1" = explain ] || exec {quoted(program)} "$@"
cat > "{place}/given$$"
grep -qx dies "{place}/given$$" && kill -9 $$
grep -qx full "{place}/given$$" && {{ echo "lspcheck: out of memory" >&2; exit 4; }}
exec {quoted(program)} "$@" < "{place}/given$$\"""")
    done = run("dies.log", "full.log", "a.log", "--program", fails, "--output", "pages", cwd=place)
    assert done.returncode == 4 and done.stdout == "pages/index.html\n", done
    assert sorted(done.stderr.splitlines()) == [
        "lspcheck-page: dies.log: lspcheck explain: it was ended by SIGKILL",
        "lspcheck-page: full.log: lspcheck explain: lspcheck: out of memory"], done.stderr
    rows = Table((place / "pages/index.html").read_text()).rows[1:]
    assert [row[1] for row in rows] == ["Not read", "Not read", due(program, "a.log", place / "a.log")[1]], rows


def keeps_files_that_are_no_pages(program, place):
    """In its folder, also of a name that only the index has: then nothing is written."""
    shutil.copy(EXAMPLE, place / "a.log")
    folder = place / "pages"
    for name, make in [
        ("a.html", lambda it: it.write_text("<!doctype html>mine")),
        ("index.html", lambda it: it.write_text("")),
        ("index.html", lambda it: it.symlink_to(place / "a.log")),
        ("a.html", lambda it: it.mkdir()),
        ("a.html", lambda it: os.mkfifo(it)),
        ("a.html", lambda it: os.link(place / "a.log", it)),
    ]:
        folder.mkdir()
        make(folder / name)
        done = run(place / "a.log", "--program", program, "--output", folder)
        answers(done, 3, f"{folder}/{name} exists and is not a page of this command")
        assert [it.name for it in folder.iterdir()] == [name]
        shutil.rmtree(folder)
    folder.write_text("x")
    answers(run(place / "a.log", "--program", program, "--output", folder), 3, "pages: File exists")
    folder.unlink()
    if os.getuid() != 0:
        folder.mkdir(mode=0o500)
        answers(run(place / "a.log", "--program", program, "--output", folder / "x"), 3, "Permission denied")
        folder.rmdir()
    for _ in range(2):
        folder_of(program, place, ["a.log"])
    assert (place / "a.log").read_bytes() == EXAMPLE.read_bytes()


def reads_standard_input_once(program, place):
    """A log on standard input has its place among the others."""
    shutil.copy(EXAMPLE, place / "a.log")
    words = [sys.executable, COMMAND, "a.log", "-", "--program", program, "--shrink", "0", "--output", "pages"]
    done = subprocess.run(words, cwd=place, input=EXAMPLES[0].read_bytes(), capture_output=True, timeout=SECONDS)
    assert done.returncode == 0, done
    assert sorted(it.name for it in (place / "pages").iterdir()) == ["a.html", "index.html", "standard-input.html"]
    rows = Table((place / "pages/index.html").read_text()).rows[1:]
    assert rows[1] == due(program, "standard input", EXAMPLES[0]), rows


def reads_several_at_once(program, place):
    """As many as it is told, and no more: each waits for the others to begin, or for a while."""
    given = [shutil.copy(EXAMPLES[0], place / f"{at}.log") for at in range(3)]
    for jobs, seen in ((3, 3), (2, 2), (1, 1)):
        (place / "begun").write_text("")
        waits = script(place / "waits", f"""[ "$*" = "explain --json --quiet" ] || exec {quoted(program)} "$@"
echo + >> {quoted(place / "begun")}
for it in $(seq 30); do [ $(grep -c + {quoted(place / "begun")}) -gt {jobs} ] && break; sleep 0.1; done
{quoted(program)} "$@"
echo - >> {quoted(place / "begun")}""")
        folder_of(waits, place, given, "--jobs", jobs)
        running = most = 0
        for sign in (place / "begun").read_text().split():
            running += 1 if sign == "+" else -1
            most = max(most, running)
        assert most == seen, (jobs, most)


def ends_all_when_it_is_stopped(program, place):
    """One line, the status of the signal, no index, and nothing that continues or is left."""
    temporary = place / "temporary"
    temporary.mkdir()
    waits = script(place / "waits", f'[ "$1" = --version ] && exec {quoted(program)} "$@"\necho $$ >> {quoted(place / "pids")}\nexec sleep 600')
    given = [shutil.copy(EXAMPLE, place / f"{at}.log") for at in range(2)]
    pids = place / "pids"
    for number in (signal.SIGINT, signal.SIGTERM, signal.SIGHUP):
        pids.unlink(missing_ok=True)
        words = [sys.executable, COMMAND, *given, "--program", waits, "--output", place / "pages", "--jobs", "2"]
        how = {"stdout": subprocess.PIPE, "stderr": subprocess.PIPE, "text": True, "preexec_fn": with_signals}
        with subprocess.Popen(words, env={**os.environ, "TMPDIR": str(temporary)}, **how) as running:
            assert until(lambda: pids.exists() and len(pids.read_text().split()) == 6)
            children = Path(f"/proc/{running.pid}/task/{running.pid}/children").read_text().split()
            assert len(children) == 2, children
            running.send_signal(number)
            said, errors = running.communicate(timeout=SECONDS)
        assert running.returncode == -number and said == "", (running.returncode, said)
        assert errors == f"lspcheck-page: stopped by {number.name}: no index is written\n", errors
        left = [int(it) for it in [*pids.read_text().split(), *children] if is_running(it)]
        for it in left:
            os.kill(it, signal.SIGKILL)
        assert not left and not [*temporary.iterdir()] and not [*(place / "pages").iterdir()]


def tells_how_many_there_are(program, place):
    """On a terminal, each second, and nothing of it is left."""
    given = [shutil.copy(EXAMPLES[0], place / f"{at}.log") for at in range(3)]
    slow = script(place / "slow", f'[ "$1" = show ] && sleep 1.2\nexec {quoted(program)} "$@"')
    ours, theirs = os.openpty()
    words = [sys.executable, COMMAND, *given, "none.log", "--program", slow, "--output", place / "pages", "--jobs", "1"]
    said = ""
    with subprocess.Popen(words, cwd=place, stdout=subprocess.DEVNULL, stderr=theirs) as running:
        os.close(theirs)
        # The terminal is closed when the command has ended.
        with contextlib.suppress(OSError):
            while piece := os.read(ours, 100000).decode():
                said += piece
        assert running.wait(SECONDS) == 3, said
    os.close(ours)
    told = [it.strip() for it in said.split("\r") if it.strip()]
    assert "lspcheck-page: 1 of 4 logs" in told and "lspcheck-page: 2 of 4 logs" in told, told
    assert told[-1] == "lspcheck-page: none.log: No such file or directory", told
    assert all(re.fullmatch(r"lspcheck-page: [0-3] of 4 logs", it) for it in told[:-1]), told


def takes_the_memory_of_one_log(program, place):
    """Of many logs, no process takes more than one does that writes the page of one."""
    log = written(place, "0.log", logs.long(600))
    given = [log, *(shutil.copy(log, place / f"{at}.log") for at in range(1, 12))]
    code = "import resource, subprocess, sys; done = subprocess.run(sys.argv[1:], stdout=subprocess.DEVNULL); print(resource.getrusage(resource.RUSAGE_CHILDREN).ru_maxrss, done.returncode)"
    took = []
    for some in (given[:1], given):
        words = [sys.executable, COMMAND, *some, "--program", program, "--output", place / "pages", "--jobs", "2"]
        done = subprocess.run([sys.executable, "-c", code, *words], capture_output=True, text=True, timeout=SECONDS)
        kilobytes, status = map(int, done.stdout.split())
        assert status == 0, done
        took.append(kilobytes)
    assert took[1] < 1.3 * took[0], took


TESTS = [
    has_a_row_for_each_log,
    has_a_page_for_each_log,
    stays_in_its_folder,
    keeps_hostile_contents_text,
    says_which_logs_cannot_be_read,
    goes_on_after_a_fault_of_the_program,
    keeps_files_that_are_no_pages,
    reads_standard_input_once,
    reads_several_at_once,
    ends_all_when_it_is_stopped,
    tells_how_many_there_are,
    takes_the_memory_of_one_log,
]
