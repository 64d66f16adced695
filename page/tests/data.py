"""The data of a page is what lspcheck wrote, and nothing of a log is outside it."""

import base64
import hashlib
import html
import re
import subprocess
import time
from html.parser import HTMLParser

import logs
from command import TOP, run, script
from processes import is_running, quoted, until

EXAMPLES = sorted((TOP / "examples").glob("*.log"))
WRONG = TOP / "examples/wrong-column.log"
# What follows the number of a rule in docs/RULES.md: the rows that only explain lines have no third cell.
TEXT_OF_RULE = r"[^|]*\| [^|]*\|"
NO = re.compile(r"no (\d+) (\w+) (\d+) event (\d+)( follows)?")


def output(program, *words):
    return subprocess.run([program, *map(str, words)], stdout=subprocess.PIPE, stderr=subprocess.DEVNULL).stdout


def lines_of(program, *words):
    """The lines of an output. They end with LF; what they show may contain other line ends."""
    return output(program, *words).decode().removesuffix("\n").split("\n")


def page_of(program, log, *words):
    done = run(log, "--program", program, "-o", "-", *words)
    assert done.returncode == 0, done.stderr
    return done.stdout


def shrunk(program, log, *words):
    """What `recorders/shrink` writes."""
    return output(TOP / "recorders/shrink", *words, "--quiet", "--program", program, log)


def smallest_of(program, log):
    """What `recorders/shrink --lit` writes."""
    return shrunk(program, log, "--lit").decode(errors="replace")


def written(place, name, log):
    path = place / name
    path.write_bytes(log)
    return path


def line_of(index, row):
    """The line of `show --all --long` of a row that breaks no rule."""
    event, kind = row["event"], index["kinds"][row["kind"]]
    uri = index["documents"][row["document"]] if row["document"] >= 0 else None
    if kind == "snapshot":
        return [event, kind, row["version"], row["bytes"], uri, row["number"]]
    words = [event, ["editor", "server"][row["side"]], kind, row["id"] if kind != "notification" else None]
    words += [index["methods"][row["method"]] if kind in ("request", "notification") else None]
    return [it for it in words if it is not None]


def section_of(rule):
    """The heading of docs/RULES.md below which the table has a rule, or a span of them."""
    before = re.split(rf"^\| (?:{rule} \| {TEXT_OF_RULE})", (TOP / "docs/RULES.md").read_text(), flags=re.M)[0]
    return re.findall(r"^## (.*?)(?: \(.*\))?$", before, re.M)[-1]


def has_what_was_written(program, place):
    """Each event, its content, the violations, and the lines of `explain`."""
    made = {**logs.telling(), "hostile.log": logs.hostile()}
    for log in [*EXAMPLES, *(written(place, name, content) for name, content in made.items())]:
        index, contents = logs.data_of(page_of(program, log))
        shown = lines_of(program, "show", "--all", "--long", log)
        lines = {int(line.split()[0]): line for line in shown if line[0].isdigit()}
        rows = {row["event"]: row for row in index["rows"]}
        assert list(rows) == list(range(1, len(rows) + 1))
        for event, line in lines.items():
            for word in line_of(index, rows[event]):
                plain = str(word).replace("\\", "\\\\").replace('"', '\\"')
                assert str(word) in line or plain in line, (word, line)
        for row, content in zip(index["rows"], contents):
            assert content == output(program, "event", str(row["event"]), log)
        assert index["report"] == lines_of(program, "explain", log)
        found = [NO.fullmatch(line).groups() for line in shown if line.startswith("no ")]
        listed = [(str(it["rule"]), it["who"], str(it["number"]), str(it["event"]), it["follows"])
                  for it in index["violations"]]
        assert listed == [(*it[:4], it[4] is not None) for it in found]
        explained = output(program, "explain", "--all", log).decode()
        for it in index["violations"]:
            assert ("\n".join(it["lines"]) in explained) and bool(it["lines"]) != it["follows"]
            assert len(it["lines"]) == (len(it["facts"]) + 2 if it["lines"] else 0), it
            rule = index["rules"][str(it["rule"])]
            assert rule["text"] == it["text"] and rule["section"] == section_of(it["rule"]), (it, rule)


def has_both_texts(program, place):
    log = written(place, "hostile.log", logs.hostile())
    index, _ = logs.data_of(page_of(program, log))
    assert index["texts"]["messages"].encode() == output(program, "explain", "--by-messages", log)
    assert index["texts"]["editor"].encode() == output(program, "explain", "--in-editor", log)
    assert index["texts"]["messages"] != index["texts"]["editor"]


def joins_requests(program, place):
    index, _ = logs.data_of(page_of(program, written(place, "joined.log", logs.joined())))
    joins = {
        row["event"]: (row["partner"], row["cancel"])
        for row in index["rows"]
        if row["partner"] or row["cancel"]
    }
    assert joins == logs.JOINS, joins


class Tags(HTMLParser):
    """The tags and attributes of a page, and the contents of its scripts and styles."""

    def __init__(self, page):
        super().__init__()
        self.tags, self.raw, self.comments, self.policy = [], [], [], None
        self.feed(page)
        self.close()

    def handle_starttag(self, tag, attributes):
        self.tags.append((tag, tuple(attributes)))
        if dict(attributes).get("http-equiv") == "Content-Security-Policy":
            self.policy = dict(attributes)["content"]

    def handle_data(self, text):
        if self.tags and self.tags[-1][0] in ("script", "style") and text.strip():
            self.raw.append((self.tags[-1][0], self.tags[-1][1], text))

    def handle_comment(self, text):
        self.comments.append(text)


def keeps_hostile_contents_in_data(program, place):
    """The page of a hostile log has the tags of a harmless one's; its policy allows its own code."""
    name = "<img src=x onerror=alert(1)>&quot;.log"
    hostile = page_of(program, written(place, name, logs.hostile()))
    harmless = page_of(program, written(place, "joined.log", logs.joined()))
    tags = Tags(hostile)
    assert [it for it in tags.tags if it[0] != "meta"] == [it for it in Tags(harmless).tags if it[0] != "meta"]
    assert tags.comments == [" lspcheck-page "]
    index, contents = logs.data_of(hostile)
    assert index["name"] == name
    assert logs.EVIL_URI in index["documents"] and f"textDocument/{logs.EVIL}" in index["methods"]
    assert any(logs.EVIL.encode() in it for it in contents)
    outside = logs.BLOCK.sub("", hostile)
    assert "<img" not in outside and "</script><" not in outside and "\u202e" not in outside
    said = html.unescape(re.search(r"<pre>(.*?)</pre>", outside, re.S)[1])
    assert said.split("\n")[:2] == lines_of(program, "check", place / name), said
    assert said.replace("[U+2028]", "\u2028").replace("[U+0085]", "\x85") == "\n".join(index["report"]), said
    for kind in ("script", "style"):
        code = [text for tag, attributes, text in tags.raw if tag == kind and not attributes]
        digest = base64.b64encode(hashlib.sha256("".join(code).encode()).digest()).decode()
        assert f"{kind}-src 'sha256-{digest}'" in tags.policy, kind
    assert "default-src 'none'" in tags.policy and "unsafe" not in tags.policy


def cuts_long_logs(program, place):
    """A cut page has the violation with what is near it, and says what it leaves out."""
    log = written(place, "long.log", logs.long(4000, difference=2001, lines=60))
    words = ["--most-events", "300"]
    index, contents = logs.data_of(page_of(program, log, *words))
    events = [row["event"] for row in index["rows"]]
    violation = index["violations"][0]["event"]
    assert lines_of(program, "check", log)[0].endswith(f"event {violation}")
    assert len(events) <= 300 and {1, 2, 3, violation - 50, violation, violation + 50} <= set(events)
    gaps = [event for gap in index["left"]["gaps"] for event in range(gap["from"], gap["to"] + 1)]
    assert sorted(events + gaps) == list(range(1, index["events"] + 1))
    assert "4,000 events" in index["left"]["said"][0]
    whole, _ = logs.data_of(page_of(program, log))
    assert whole["left"] is None and len(whole["rows"]) == 4000
    own = {"document": 0, "method": 0, "block": 0}
    shown = {row["event"]: {**row, **own} for row in whole["rows"]}
    assert all(shown[row["event"]] == {**row, **own} for row in index["rows"])
    for point in index["left"]["checkpoints"]:
        before = [it["number"] for it in whole["rows"] if it["event"] <= point["to"] and it["side"] == 0][-1]
        uri = index["documents"][point["document"]]
        assert point["text"].encode() == output(program, "text", "--all", str(before), uri, log)
    assert index["left"]["checkpoints"]
    small, contents = logs.data_of(page_of(program, log, "--most-bytes", "100000"))
    assert sum(len(it or b"") for it in contents) <= 200000
    assert violation in [row["event"] for row in small["rows"]]


def shows_bad_logs(program, place):
    """What precedes the fault of a damaged log, and the fault itself."""
    log = written(place, "cut.log", (TOP / "examples/clangd-session.log").read_bytes()[:9000])
    index, _ = logs.data_of(page_of(program, log))
    assert index["report"][0] == "bad log L4 record 12"
    assert index["rules"]["L4"]["text"] == index["report"][1]
    assert len(index["rows"]) == 12


def shows_how_the_server_ended(program, place):
    log = written(place, "a.log", logs.joined())
    (place / "a.exit").write_text(f"signal 11\ntime {logs.EVIL}\n")
    page = page_of(program, log)
    assert logs.data_of(page)[0]["exit"] == ["signal 11", f"time {logs.EVIL}"]
    assert "onerror" not in logs.BLOCK.sub("", page)
    (place / "a.exit").unlink()
    assert logs.data_of(page_of(program, log))[0]["exit"] == []


def has_the_smallest_session(program, place):
    """--small: the editor's messages of the smallest session that shows the violation."""
    frames = written(place, "frames.log", WRONG.read_bytes().replace(b"Content-Length: ", b"Content-Length; ", 1))
    damaged = written(place, "damaged.log", WRONG.read_bytes()[:9000])
    for log in [*EXAMPLES, frames, damaged]:
        index, _ = logs.data_of(page_of(program, log, "--small"))
        wanted = smallest_of(program, log)
        assert (index["smallest"] or "") == wanted, (log, index["smallest"], wanted)
        rule = re.match(r"no ([2-7]\d\d) ", index["report"][0])
        assert (index["smallest"] is not None) == (rule is not None), (log, index["report"])
        assert rule is None or index["smallest"].count("\n---\n") < index["events"], log
    assert logs.data_of(page_of(program, WRONG))[0]["smallest"] is None


def has_the_smallest_log(program, place):
    """The log that `recorders/shrink` writes, if it is found in time."""
    for log in EXAMPLES:
        page = page_of(program, log, "--shrink", "300")
        index, found = logs.data_of(page)[0], logs.blocks_of(page).get("case")
        wanted = shrunk(program, log) or None
        assert found == wanted, (log, found, wanted)
        assert (wanted is None) == (index["case"] is None) == (index["report"][0] == "yes"), log
        if wanted is not None:
            small = written(place, "small.log", wanted)
            events = [it for it in lines_of(program, "show", "--all", "--long", small) if it[0].isdigit()]
            rule = NO.fullmatch(index["report"][0])[1]
            assert NO.fullmatch(lines_of(program, "check", small)[0])[1] == rule, log
            # That of the verdict has two lines without its number.
            assert index["case"] == {"events": len(events) + 1, "bytes": len(wanted)}, (log, index["case"], events)
    assert logs.data_of(page_of(program, WRONG, "--small", "--shrink", "300"))[0]["case"] is None


def waits_a_while_for_the_smallest_log(program, place):
    """As long as the user says, and then what looks for it has ended."""
    slow = script(place / "slow", f'[ "$*" = "explain --quiet" ] && {{ echo $$ > {quoted(place / "pid")}; exec sleep 600; }}\nexec {quoted(program)} "$@"')
    # On a busy machine, it may not have started the program in a second.
    for seconds in (1, 4, 16, 64):
        begun = time.monotonic()
        index, _ = logs.data_of(page_of(slow, WRONG, "--shrink", seconds))
        assert index["case"] is None and time.monotonic() - begun > seconds
        assert index["report"] == lines_of(program, "explain", WRONG)
        if (place / "pid").exists():
            break
    assert until(lambda: not is_running(int((place / "pid").read_text())))
    (place / "pid").unlink()
    assert logs.data_of(page_of(slow, WRONG, "--shrink", "0"))[0]["case"] is None and not (place / "pid").exists()
    fails = script(place / "fails", f'[ "$*" = "explain --quiet" ] && exit 3\nexec {quoted(program)} "$@"')
    assert logs.data_of(page_of(fails, WRONG, "--shrink", "300"))[0]["case"] is None


def shows_no_words_of_a_redacted_log(program, place):
    """A page of what `lspcheck redact` writes has no words of the sources, whole or small."""
    words = ["include", "stdio", "ASCII", "struct", "printf", "strlen", "lspwork", "Emacs"]
    redacted = written(place, "redacted.log", output(program, "redact", WRONG))
    for options in ([], ["--small"]):
        for log, wanted in ((WRONG, words), (redacted, [])):
            data = b" ".join(logs.blocks_of(page_of(program, log, *options)).values()).decode()
            found = [it for it in words if it in data]
            assert found == wanted or options and len(found) > 1 and wanted, (log, options, found)


TESTS = [
    has_what_was_written,
    has_both_texts,
    joins_requests,
    keeps_hostile_contents_in_data,
    cuts_long_logs,
    shows_bad_logs,
    shows_how_the_server_ended,
    has_the_smallest_session,
    has_the_smallest_log,
    waits_a_while_for_the_smallest_log,
    shows_no_words_of_a_redacted_log,
]
