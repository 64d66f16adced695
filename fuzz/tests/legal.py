"""Each session is one that lspcheck answers yes: of each feature, in each encoding, and cut down."""

import random
import shutil
import subprocess
import tempfile
from pathlib import Path

from hunts import check, side_by_side
from lsptools.base import messages, session_log
from lsptools.fuzz import editing, features, greeting, shrinking, stores
from lsptools.fuzz.cases import Editor
from lsptools.servers import languages

# How many sessions of each kind, and in which encodings.
TIMES, MANY, ENCODINGS = 3, 40, ("utf-16", "utf-8", "utf-32")
PLAIN = set(features.PLAIN)


def head(encoding, sync=2):
    """How a session begins."""
    offers = {"capabilities": {"general": {"positionEncodings": [encoding, "utf-16"]}}}
    answer = {"capabilities": {"textDocumentSync": sync, "positionEncoding": encoding}}
    first = [
        (session_log.EDITOR, messages.request(1, "initialize", offers)),
        (session_log.SERVER, messages.response(1, "result", answer)),
        (session_log.EDITOR, messages.notification("initialized", {})),
    ]
    records = (it for kind, content in first for it in session_log.as_records(kind, session_log.framed(content)))
    return session_log.FIRST_LINE + b"".join(records)


def sent_of(case, encoding):
    return list(Editor("c", encoding).messages(case, ["file:///one.c", "file:///two.c"]))


def log_of(case, encoding, sync=2):
    return head(encoding, sync) + b"".join(greeting.records_of(sent_of(case, encoding)))


def case_of(seed, chosen, has_ranges=True):
    return editing.CaseGenerator(seed, frozenset(chosen), languages.FORMS["c"], None, has_ranges).case()


def are_legal(program, place, logs):
    """Whether each of some logs is answered yes, in one run, which writes a line for each."""
    place = Path(tempfile.mkdtemp(dir=place))
    paths = [place / f"{number}.log" for number in range(len(logs))]
    for path, log in zip(paths, logs):
        path.write_bytes(log)
    done = subprocess.run([program, "check", "--compared", *paths], capture_output=True, text=True)
    assert done.stdout.splitlines() == [f"{path}: yes" for path in paths], done
    shutil.rmtree(place)


def kinds():
    """The features of sessions: each alone and with the plain ones, and all at once."""
    every = set(features.FEATURES)
    return [*({it} | PLAIN for it in every), every, every - {"cr"}, PLAIN]


def feature_is_legal(program, place, chosen, times):
    cases = [case_of(seed, chosen) for seed in range(times)]
    logs = [log_of(case, encoding) for case in cases for encoding in ENCODINGS]
    whole = [case_of(seed, chosen, has_ranges=False) for seed in range(times)]
    are_legal(program, place, [*logs, *(log_of(case, "utf-16", sync=1) for case in whole)])


def sessions_are_legal(program, place):
    side_by_side(feature_is_legal, [(program, place, chosen, TIMES) for chosen in kinds()])


def many_sessions_are_legal(program, place):
    side_by_side(feature_is_legal, [(program, place, chosen, MANY) for chosen in kinds()])


def sessions_begin_with_the_text_that_is_given(_program, _place):
    """With the line ends of the session, and without the characters that only others have."""
    given = "int a; \u2028\r\nint é;\n\n// 😀"
    for chosen, wanted in [
        ((), "int a; x\nint x;\n\n// x\n"),
        (("crlf",), "int a; x\r\nint x;\r\n\r\n// x\r\n"),
        (("astral", "combining"), "int a; x\nint é;\n\n// 😀\n"),
        (("separators", "cr"), "int a; \u2028\rint x;\r\r// x\r"),
    ]:
        made = editing.CaseGenerator(1, PLAIN | set(chosen), languages.FORMS["c"], given)
        assert made.text() == wanted, (chosen, made.text())
    open_ended = {editing.CaseGenerator(it, PLAIN | {"no-last-end"}, None, given).text() for it in range(40)}
    assert open_ended == {"int a; x\nint x;\n\n// x\n", "int a; x\nint x;\n\n// x"}, open_ended
    assert editing.CaseGenerator(1, PLAIN, None, "").text() == ""


def cut_sessions_are_legal(program, place):
    """Whatever is cut away: what is left is what a coin says."""
    logs = []
    for seed in range(6):
        chance = random.Random(seed)
        tried = []

        def is_shown(case):
            tried.append(case)
            return chance.random() < 0.3

        case = case_of(seed, set(features.FEATURES) - {"bursts", "long"})
        smallest = shrinking.Shrinking(case, is_shown, lambda it: None).smallest()
        assert len(tried) > 20 and smallest != case
        logs += [log_of(it, "utf-16") for it in [*tried[:: len(tried) // 10], smallest]]
    are_legal(program, place, logs)


def is_held_otherwise(case, wrong):
    """Whether a wrong store holds another text than the right one."""
    contents = [it.content for it in sent_of(case, "utf-16")]
    one, other = (stores.held(it, contents, "utf-16", "file:///one.c")[0] for it in (stores.Store(), wrong))
    return one != other


def cuts_down_to_what_it_takes(_program, _place):
    """A drift that needs an emoji in the text, and an edit after it; and one that needs a form feed there,
    also where a change has both."""
    for chosen, wrong in (
        (["astral"], stores.Store(encoding="utf-32")),
        (["separators", "several", "whole"], stores.Store(ends=f"{stores.LINE_ENDS}|[\f\x85\u2028]")),
    ):
        found = 0
        for seed in range(40):
            case = case_of(seed, PLAIN | set(chosen))
            if is_held_otherwise(case, wrong):
                is_shown = lambda it, wrong=wrong: is_held_otherwise(it, wrong)  # noqa: E731
                smallest = shrinking.Shrinking(case, is_shown, lambda it: None).smallest()
                assert len(smallest.steps) == len(smallest.steps[0].edits) == 1, smallest
                assert len(smallest.texts[0]) <= 4 and features.features_of(smallest)[0] == chosen[0], smallest
                assert chosen[0] == "astral" or smallest.texts[0].isascii(), smallest
                found += 1
        assert found > 10, found


def right_store_holds_the_right_text(_program, _place):
    """The stores are wrong in what they name alone: the one that names nothing holds what is right."""
    for seed in range(TIMES):
        for chosen in kinds():
            for encoding in ENCODINGS:
                sent = sent_of(case_of(seed, chosen), encoding)
                last = [it for it in sent if it.uri == "file:///one.c" and it.text is not None][-1]
                contents = [it.content for it in sent]
                held, _ = stores.held(stores.Store(), contents, encoding, last.uri)
                assert held == last.text, (seed, chosen, encoding)


def is_compared(program, place):
    """A snapshot of another text is noticed: so the right texts are looked at."""
    case = case_of(1, PLAIN | {"astral"})
    log = log_of(case, "utf-16")
    at = log.rindex(b"\nT ")
    line_end = log.index(b"\n", at + 1)
    version, uri, size = map(int, log[at + 3 : line_end].split())
    start = line_end + 1 + uri + 1
    other = log[:start] + (b"y" if log[start : start + 1] != b"y" else b"z") + log[start + 1 :]
    (place / "other.log").write_bytes(other)
    assert "no 702 snapshot" in check(program, place / "other.log"), (version, size)


TESTS = [
    sessions_are_legal,
    sessions_begin_with_the_text_that_is_given,
    cut_sessions_are_legal,
    cuts_down_to_what_it_takes,
    right_store_holds_the_right_text,
    is_compared,
]
LONG_TESTS = [many_sessions_are_legal]
