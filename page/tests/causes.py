"""What a stranger sees first: the cause of a violation, in the first card of a page."""

import json
import re

import logs
from data import EXAMPLES, lines_of, written
from expected import READ
from logs import frame, handshake, notification, opened, request, result, snapshot
from window import THEMES, WIDTHS

URI = "file:///c%3A/a.c"
HOVER = {"textDocument": {"uri": URI}, "position": {"line": 0, "character": 0}}
FAR = {"range": {"start": {"line": 1, "character": 0}, "end": {"line": 0, "character": 0}}, "text": "x"}


def session(*messages):
    """Frames after a handshake, those of the server as pairs with None."""
    return handshake() + b"".join(
        frame(b"S", it[1]) if isinstance(it, tuple) else frame(b"E", it) for it in messages)


def wrong():
    """For each log, by name: its content, the event that breaks a rule, and what of its message is wrong."""
    about = {"uri": URI, "version": 1}
    change = notification("textDocument/didChange", {"textDocument": about, "contentChanges": [{"text": "b"}]})
    twice = session(request(3, "textDocument/hover", HOVER), (None, result(3, None)), (None, result(3, "again")),
                    request(4, "shutdown"))
    return {
        "answered-twice.log": (twice, 6, '"id":3'),
        "no-version.log": (session(notification("textDocument/didOpen", {"textDocument": {"uri": URI, "text": "a"}})), 4, ""),
        "bad-version.log": (session(opened(URI, "1", "a")), 4, '"version":"1"'),
        "version-again.log": (session(opened(URI, 1, "a"), change), 5, '"version":1'),
        "too-early.log": (b"lsp-session 2\n" + frame(b"E", request(1, "textDocument/hover", HOVER)), 1,
                          '"method":"textDocument/hover"'),
        "never-opened.log": (session(change), 4, f'"uri":"{URI}"'),
        "bad-id.log": (session({"jsonrpc": "2.0", "id": 1.5, "method": "m"}), 4, '"id":1.5'),
        "bad-error.log": (session(request(3, "shutdown"), (None, {"jsonrpc": "2.0", "id": 3, "error": "no"})), 5, '"error":"no"'),
        "not-2.0.log": (session({"jsonrpc": "1.0", "method": "m"}), 4, '"jsonrpc":"1.0"'),
        "a-list.log": (session([1, 2]), 4, ""),
    }


def spelled():
    """A change of a document that is open under another spelling of its URI."""
    other = notification("textDocument/didChange", {"textDocument": {"uri": URI.replace("%3A", ":"), "version": 2},
                                                    "contentChanges": [{"text": "b"}]})
    return session(opened(URI, 1, "a"), other)


def marks_the_wrong_member(page, program, log, event, wanted):
    """The message, with the member that is wrong marked, and the five rows around it."""
    assert re.match(rf"no \d+ \w+ \d+ event {event}$", lines_of(program, "check", log)[0]), lines_of(program, "check", log)
    for width in WIDTHS:
        page.open(width)
        marked = page.run(READ + "return [...document.querySelectorAll('.first .wrong-message mark')].map(plain)")
        assert re.sub(r"\s", "", "".join(marked)) == wanted, (width, marked)
        content = page.run(READ + "return plain(document.querySelector('.first .wrong-message .json'))")
        sent = json.loads(lines_of(program, "event", str(event), log)[0])
        # Of a long message, what is near to what is wrong.
        lines = [it.rstrip(",") for it in json.dumps(sent, indent=2, ensure_ascii=False).split("\n")]
        assert json.loads(content) == sent if "\n…" not in content else all(
            it.rstrip(",") in lines for it in content.split("\n") if it != "…"), content
        assert page.run("return document.documentElement.scrollWidth") <= width
    shown = page.run("return [...document.querySelectorAll('.first .near-row .number')].map((it) => Number(it.innerText))")
    last = len(page.all("#lanes .row .say"))
    assert shown == list(range(max(event - 2, 1), min(event + 2, last) + 1)), (shown, last)
    assert page.texts(".first .near-row.is-here .number") == [str(event)]
    said = page.run(READ + """const of = (rows, part) => [...document.querySelectorAll(rows)].map((it) =>
          [it.querySelector('.number').innerText, plain(it.querySelector(part))]);
        return [of('.first .near-row', '.near-what'), of('#lanes .row:not(:last-child)', '.say')]""")
    assert said[0] and all(it in said[1] for it in said[0]), said
    page.all(".first .near-row")[0].click()
    page.wait("return document.querySelector('.selected .number')?.innerText === arguments[0]", str(shown[0]))


def names_the_request_of_an_answer(page):
    """301: which request had the id, and when."""
    page.open()
    said = page.text(".first .wrong-message p")
    assert said.startswith("The last request with this id is textDocument/hover, event 4."), said


def says_what_is_missing(page):
    page.open()
    assert "It has no /params/textDocument/version." in page.text(".first .wrong-message"), page.text(".first")


def marks_how_uris_differ(page):
    """602: both spellings, and the characters in which they differ."""
    page.open()
    shown = page.run(READ + "return [...document.querySelectorAll('.first .uris dd')].map(plain)")
    assert shown == [URI.replace("%3A", ":"), URI], shown
    marked = page.run(READ + "return [...document.querySelectorAll('.first .uris mark')].map(plain)")
    assert marked == [":", "%3A"], marked


def shows_suspects_under_the_texts(page, program, log):
    """The texts, then the suspects with the notes on them, then why."""
    page.open()
    order = page.run("return [...document.querySelector('.first .violation-part').children].map((it) => it.className)")
    assert order == ["unseen", "texts", "suspects", "why", "about-rule"], order
    suspects = [it for it in lines_of(program, "explain", log) if it.startswith("suspect ")]
    assert len(page.all(".first .suspects > .suspect")) == len(suspects) > 0
    noted = page.run("return [...document.querySelectorAll('.first .suspects .suspect')].map((it) => it.querySelectorAll('.notes li').length)")
    events = [re.search(r" event (\d+) ", it)[1] for it in suspects]
    notes = [it for it in lines_of(program, "explain", "--all", "--notes", log) if it.startswith("note ")]
    assert noted == [sum(f" event {event} " in it for it in notes) for event in events], (noted, notes)


def says_nothing_twice(page, program, log):
    """What is above an explanation is left out of it: the texts, or the characters and the encoding. Whose
    fault it is is said once."""
    page.open()
    kinds = {it.split()[0] for it in lines_of(program, "explain", log)}
    labels = page.texts(".first .facts dt")
    above = {"Columns", "Inside"} if page.all(".first .columns-table") else {"By the messages", "In the editor", "Saved"}
    assert kinds & {"by-messages", "inside"} and not above & set(labels), labels
    assert labels.count("Usually") + labels.count("Whose fault") == 1, labels


def says_what_applies(page, program, log):
    """Of the page about rules, only what concerns lines that the explanation has."""
    page.open()
    page.run("document.querySelector('.first .about-rule .folded').open = true")
    page.wait("return document.querySelector('.first .rule-more')")
    kinds = {it.split()[0] for it in lines_of(program, "explain", log)}
    said = page.texts(".first .rule-more code")
    assert "suspect" in kinds and any(it.startswith("suspect") for it in said), said
    for kind in ("lines-by", "at-once", "exchanged", "converted", "right-from"):
        assert kind in kinds or kind not in said or kind == "right-from", (kind, said)
    assert not re.search(r"^(lines-by|at-once|exchanged|ends)\b", page.text(".first .rule-more"), re.M)


SHINE = r"""
const shine = (color) => { const [r, g, b] = color.match(/[\d.]+/g).slice(0, 3).map((it) => { it /= 255;
  return it <= 0.03928 ? it / 12.92 : ((it + 0.055) / 1.055) ** 2.4; }); return 0.2126 * r + 0.7152 * g + 0.0722 * b; };
const ratio = (one, other) => { const [a, b] = [shine(one), shine(other)].sort((x, y) => y - x); return (a + 0.05) / (b + 0.05); };
const style = (node) => getComputedStyle(node);
"""


def marks_differences_strongly(page):
    """Each side has its sign; a mark has an edge of contrast 3 to the line that it is in."""
    for theme in THEMES:
        page.open(theme=theme)
        signs = page.run("""return [...document.querySelectorAll('.first .pair.differs')].map((it) =>
            [...it.children].map((cell) => cell.querySelector('.sign').innerText))""")
        assert signs and all(it in (["−", "+"], ["−", ""], ["", "+"]) for it in signs), signs
        assert set(page.texts(".first .pair.equal .sign")) == {""}
        ratios = page.run(SHINE + """return [...document.querySelectorAll('.first .differs mark')].map((it) =>
            ratio(style(it).borderBottomColor, style(it.closest('.cell')).backgroundColor))""")
        assert ratios and min(ratios) >= 3, (theme, ratios)


def has_neutral_pills(page):
    """Who says something is not in the colors of a verdict."""
    page.open()
    colors = page.run("""const color = (it) => getComputedStyle(document.querySelector(it)).color;
        return [color('.source-lspcheck'), color('.quiet')]""")
    assert colors[0] == colors[1], colors


def says_whose_stream_ended(page):
    """107: the head says whose last frame is cut off."""
    page.open()
    assert "the server’s last frame, at the end of the log" in page.text(".rule"), page.text(".rule")


def says_that_nothing_follows(page):
    """201: where the content ends, there is no empty box."""
    page.open()
    empty = page.run("return [...document.querySelectorAll('.first dd')].filter((it) => !it.innerText.trim()).length")
    assert empty == 0 and "nothing" in page.text(".first .facts"), page.text(".first .facts")


def tests_of(window, program, place):
    for name, (content, event, wanted) in wrong().items():
        log = written(place, name, content)
        page = window(log)
        given = (page, program, log, event, wanted)
        yield f"marks_the_wrong_member {name}", lambda given=given: marks_the_wrong_member(*given)
        for test, of in ((names_the_request_of_an_answer, "answered-twice.log"), (says_what_is_missing, "no-version.log")):
            if of == name:
                yield test.__name__, lambda test=test, page=page: test(page)
    uris = window(written(place, "spelled.log", spelled()))
    yield "marks_how_uris_differ", lambda: marks_how_uris_differ(uris)
    noted = written(place, "noted suspect.log", noted_suspect())
    yield "shows_suspects_under_the_texts", lambda: shows_suspects_under_the_texts(window(noted), program, noted)
    differs = written(place, "b differs.log", logs.differs())
    page_of_differs = window(differs)
    for log, page in ((EXAMPLES[-1], window(EXAMPLES[-1])), (differs, page_of_differs)):
        yield f"says_nothing_twice {log.name}", lambda page=page, log=log: says_nothing_twice(page, program, log)
    yield "says_what_applies", lambda: says_what_applies(page_of_differs, program, differs)
    for test in (marks_differences_strongly, has_neutral_pills):
        yield test.__name__, lambda test=test: test(page_of_differs)
    cut = window(written(place, "cut.log", handshake() + b"S 25\nContent-Length: 90\r\n\r\n{}{\n"))
    yield "says_whose_stream_ended", lambda: says_whose_stream_ended(cut)
    half = window(written(place, "half.log", handshake() + frame(b"S", b'{"jsonrpc":"2.0","method":')))
    yield "says_that_nothing_follows", lambda: says_that_nothing_follows(half)


def noted_suspect():
    """A snapshot that differs after a change past the end of its line."""
    uri = "file:///p.c"
    return handshake() + b"".join([
        frame(b"E", opened(uri, 1, "ab\ncd\n")),
        snapshot(uri, 1, "ab\ncd\n"),
        frame(b"E", logs.changed(uri, 2, logs.edit((0, 1), (0, 9), "x"))),
        snapshot(uri, 2, "axb\ncd\n"),
    ])
