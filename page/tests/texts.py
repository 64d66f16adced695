"""What a page works out from the messages: texts, differences, summaries. Its scripts are run by node."""

import json
import shutil
import subprocess
from pathlib import Path

import lint
import logs
from data import EXAMPLES, output, page_of, smallest_of, written
from processes import SECONDS
from summaries import count, summary

HERE = Path(__file__).resolve().parent
SNAPSHOT = 2
SCHEMA = HERE.parent.parent / "docs/report.schema.json"


def node(script, given):
    """What a script writes for a value that it is given, both in JSON."""
    assert shutil.which("node"), "there is no node"
    words = ["node", HERE / script]
    done = subprocess.run(words, input=json.dumps(given), capture_output=True, text=True, timeout=SECONDS)
    assert done.returncode == 0, done.stderr
    return json.loads(done.stdout)


def blocks_of(page):
    """The data of a page, as they are in it."""
    return dict(logs.BLOCK.findall(page))


def contents_are_those_of_lspcheck(program, place):
    """Of each event: the content, in which a byte that is not UTF-8 is a lone surrogate, and what the
    page says about it in one line, worked out a second time."""
    found = {**logs.telling(), **logs.evil(), "hostile": logs.hostile(), "said": logs.said()}
    for log in [*EXAMPLES, *(written(place, name, content) for name, content in found.items())]:
        for row in node("contents.mjs", blocks_of(page_of(program, log))):
            content = output(program, "event", str(row["event"]), log)
            assert row["content"] == content.decode("utf-8", "surrogateescape"), (log, row)
            try:
                wanted = summary(json.loads(content), row["method"])
            except (ValueError, RecursionError):
                wanted = ""
            wanted = count(len(content), "byte") if row["side"] == SNAPSHOT else wanted
            assert row["summary"] == wanted, (log, row, wanted)


def texts_are_those_of_lspcheck(program, place):
    """After each message of the editor, for each document: the text of `lspcheck text --all`."""
    made = [written(place, f"{name}.log", logs.edited(name, seed)) for seed, name in enumerate(logs.UNITS)]
    compared = 0
    for log in [*EXAMPLES, *made]:
        for at in node("texts.mjs", blocks_of(page_of(program, log))):
            words = ["text", "--all", str(at["number"]), at["uri"], log]
            wanted = output(program, *words).decode()
            assert (at["text"] or "") == wanted, f"{log.name}: {words[2:4]}"
            compared += at["text"] is not None
    assert compared > 200, compared


def texts_after_a_gap(program, place):
    """A cut page makes the same texts from its checkpoints, or says that it cannot."""
    log = written(place, "long.log", logs.long(1000, difference=501, lines=100))
    whole = {it["event"]: it["text"] for it in node("texts.mjs", blocks_of(page_of(program, log)))}
    cut = node("texts.mjs", blocks_of(page_of(program, log, "--most-events", "150")))
    known = [it for it in cut if it["text"] is not None]
    assert len(known) > 30 and all(it["text"] == whole[it["event"]] for it in known)


def value_of(line):
    """The JSON value of a line, or None."""
    try:
        return json.loads(line)
    except ValueError:
        return None


def smallest_sessions_mean_the_same(program, place):
    """The same lines, with JSON of the same values, but no character that cannot be seen."""
    for name, log in logs.evil().items():
        log = written(place, f"{name}.log", log)
        wanted = smallest_of(program, log).split("\n")[:-1]
        found = node("smallest.mjs", blocks_of(page_of(program, log, "--small")))
        assert found["odd"] == [], (name, found)
        assert len(found["lines"]) == len(wanted), (name, found)
        for line, own in zip(found["lines"], wanted):
            assert value_of(line) == value_of(own), (name, line)
            assert [line[:1] == "#", line == "---"] == [own[:1] == "#", own == "---"], (name, line)
    assert smallest_of(program, place / "encodings.log"), "an evil log has no smallest session"


def differences_lead_from_one_text_to_the_other(program, place):
    assert node("differences.mjs", None) == "good"


# The objects of other commands, of a verdict, and of the count of notes.
REPORTED = {"yes", "no", "bad log", "read fault", "out of memory", "messages", "snapshots", "document",
            "offences", "notification", "result", "error", "note", "notes"}


def has_words_for_each_form(program, place):
    """Of the forms in report.schema.json, each that explains something, and each note."""
    forms = [it["properties"] for it in json.loads(SCHEMA.read_text())["anyOf"]]
    found = node("forms.mjs", None)
    assert set(found["kinds"]) == {it["is"]["const"] for it in forms} - REPORTED, found["kinds"]
    assert set(found["notes"]) == {it["note"]["const"] for it in forms if "note" in it}, found["notes"]


TESTS = [
    has_words_for_each_form,
    contents_are_those_of_lspcheck,
    texts_are_those_of_lspcheck,
    texts_after_a_gap,
    smallest_sessions_mean_the_same,
    differences_lead_from_one_text_to_the_other,
    *lint.TESTS,
]
