#!/usr/bin/env python3
"""Opens pages in Chromium, light and dark, 380 to 1,600 pixels wide, and uses them.

usage: browser.py PROGRAM FOLDER [NAME ..]        FOLDER is for the pages
       browser.py PROGRAM FOLDER --asked

With a NAME, only the tests whose names contain one are run. It prints a line for each fault, and last
the numbers of tests that passed and failed; with --asked it does so for each line of standard input,
which is such a NAME.
"""

import json
import re
import subprocess
import sys
import traceback
from pathlib import Path

from selenium.common.exceptions import WebDriverException
from selenium.webdriver.common.keys import Keys

sys.path.append(str(Path(__file__).resolve().parent.parent.parent / "tests"))

import causes
import finding
import hands
import logs
import programs
import readers
import truth
import versions
from processes import quoted
from data import EXAMPLES, lines_of, output, written
from expected import READ
from window import THEMES, WIDTHS, Page, make, start

FAULTS = (AssertionError, AttributeError, LookupError, TypeError, ValueError, OSError, subprocess.SubprocessError,
          WebDriverException)
# Rows and their parts that may be in the tree of a page, however long the log is.
MOST_ROWS = 150


def brightness(color):
    return sum(map(int, re.findall(r"\d+", color)[:3])) / 3


def opens_without_faults(page, program, log):
    """In each width and theme: no error, the verdict, the lanes, nothing wider than the window."""
    report = lines_of(program, "check", log)
    for width in WIDTHS:
        for theme in THEMES:
            page.open(width, theme)
            head = page.text(".verdict")
            wanted = "Yes" if report[0] == "yes" else report[1]
            assert wanted in head, head
            assert page.run("return document.getElementById('plain').hidden")
            back = page.run("return getComputedStyle(document.body).backgroundColor")
            assert (brightness(back) > 128) == (theme == "light"), (theme, back)
            page.run("document.getElementById('lanes').scrollIntoView()")
            page.wait("return document.querySelector('.row.editor') && document.querySelector('.row.server')")
            assert page.run("return document.documentElement.scrollWidth") <= width
            assert not (found := page.log()), found


def shows_the_violation(page, program, log):
    """The lines of `explain` are on the page in words, with their events as links."""
    lines = lines_of(program, "explain", log)
    if not lines[0].startswith("no "):
        return
    page.open()
    said = page.text(".first")
    assert lines[1] in said
    for line in lines[2:]:
        for event in re.findall(r"\bevent (\d+) ", line)[:1]:
            links = page.all(f'.first a[href="#event-{event}"]')
            assert links or line.startswith("event "), line
        for text in re.findall(r'^(?:inside|uri|by-messages) (".*")$', line):
            plain = json.loads(text).rstrip("\n").replace("\u2028", "LS").replace("\x85", "NEL")
            assert plain in said, (plain, said)
            assert "\u2028" not in page.text("body")
    page.run("document.querySelector('.why .folded').open = true")
    page.wait("return document.querySelector('.why .raw') !== null")
    assert page.text(".why .raw").split("\n")[0] == lines[0]
    event = lines[0].split()[-1]
    page.run("arguments[0].click()", page.all(".where a")[0])
    page.wait("return document.querySelector('.selected .number')?.innerText === arguments[0]", event)
    assert lines[1] in page.text(".selected .details")


def marks_what_differs(page):
    """Of the hostile session: both texts, and the characters in which they differ."""
    for width in reversed(WIDTHS):
        page.open(width)
        right = page.run("return [...document.querySelectorAll('.first mark')].map((it) => it.getBoundingClientRect().right)")
        assert right and max(right) < width, (width, right)
    page.open()
    marked = page.texts(".first mark")
    assert "".join(marked), marked
    assert any("RLO" in it for it in page.texts(".first .odd")), page.texts(".first .odd")
    cells = page.texts(".first .differs .line-text")
    assert any(logs.EVIL in it for it in cells), cells
    assert page.run("return document.images.length + document.querySelectorAll('iframe, object').length") == 0
    assert page.run("return document.scripts.length") == len(re.findall("<script", page.path.read_text()))
    for event in range(1, 13):
        page.run("location.hash = arguments[0]", f"#event-{event}")
        page.wait("return document.querySelector('.selected .number')?.innerText === arguments[0]", str(event))
        page.run("document.querySelectorAll('details').forEach((it) => { it.open = true; })")
        page.run("return new Promise((done) => setTimeout(done))")
    assert not (found := page.log()), found


def forbids_everything_else(page):
    """What a script of the log could do is refused, should it ever get into the page."""
    page.open()
    for script in ("made.setAttribute('onerror', 'window.ran = 1')", "made.innerHTML = '<b>x</b>'"):
        refused = page.run(f"try {{ const made = document.createElement('img'); {script} }} catch (e) {{ return e.name }}")
        assert refused == "TypeError", (script, refused)
    page.run("const made = document.createElement('img'); made.src = 'x.png'; document.body.append(made)")
    page.run("const made = document.createElement('style'); made.textContent = 'body{display:none}'; document.body.append(made)")
    assert page.run("return getComputedStyle(document.body).display") == "block"
    assert page.wait("return document.images[0].complete") and page.run("return window.ran ?? null") is None
    assert any("Content Security Policy" in it["message"] for it in page.log())


def searches(page, program, log):
    """By method, side, document and id: as many events are found as `show` lists."""
    shown = lines_of(program, "show", "--all", "--long", log)
    page.open()
    listed = lines_of(program, "explain", "--all", log)
    is_change = re.compile(r'(event )?\d+ editor (\d+ )?notification "textDocument/didChange".*')
    changes = len([it for it in [*shown, *listed] if is_change.fullmatch(it)])
    box = page.all("input.search")[0]
    box.send_keys("textdocument/didchange notification")
    assert page.text(".found").split()[0] == str(changes), page.text(".found")
    page.run("arguments[0].click()", page.all(".search .plain")[0])
    assert page.text(".found") == ""
    side = page.all(".search select")[1]
    side.send_keys("server")
    servers = [it for it in shown if re.match(r"\d+ server ", it)]
    assert page.text(".found").split()[0] == str(len(servers)), page.text(".found")
    page.run("document.querySelector('.search').reset()")
    page.all("input.id")[0].send_keys("2")
    ids = [it for it in shown if re.match(r"\d+ \w+ (request|result|error) 2 ", it)]
    assert page.text(".found").split()[0] == str(len(ids)), page.text(".found")
    page.keys(Keys.ESCAPE)
    page.keys(Keys.ESCAPE)
    assert page.text(".found") == ""
    page.run("document.querySelector('.document .plain').click()")
    named = [it for it in shown if it[:1].isdigit() and json.dumps(page.run(
        "return document.querySelector('.document .shown-text').innerText")) in it]
    assert int(page.text(".found").split()[0]) >= len(named) > 0


def follows_links_and_keys(page, program, log):
    shown = lines_of(program, "show", "--all", "--long", log)
    snapshots = [it.split()[0] for it in shown if " snapshot " in it and it[0].isdigit()]
    edits = [it.split()[0] for it in shown if '"textDocument/didChange"' in it]
    page.open(link="#event-4")
    assert page.selected() == "4" and page.text(".selected .about").startswith("event 4")
    page.keys("s")
    assert page.selected() == (snapshots[0] if snapshots else "4"), page.selected()
    page.keys("e")
    if not edits:
        return
    assert page.selected() == edits[0], page.selected()
    assert page.run("return location.hash") == f"#event-{edits[0]}"
    page.keys("j")
    assert page.selected() == str(int(edits[0]) + 1)
    page.keys("k")
    page.keys("S")
    earlier = [it for it in snapshots if int(it) < int(edits[0])]
    assert page.selected() == (earlier or edits)[-1 if earlier else 0], page.selected()
    bad = re.findall(r"event (\d+)", output(program, "check", "--all", log).decode())
    page.open(link="#event-1")
    page.keys("a")
    page.wait("return document.querySelector('.selected .number').innerText === '2'")
    page.keys("n")
    assert page.selected() == (bad[0] if bad else "2")
    page.keys("?")
    assert page.run("return document.getElementById('keys').open")
    page.keys(Keys.ESCAPE)
    before = page.run("return getComputedStyle(document.body).backgroundColor")
    page.keys("d")
    after = page.run("return getComputedStyle(document.body).backgroundColor")
    assert brightness(before) > 128 > brightness(after)
    assert not (found := page.log()), found


def shows_texts_after_messages(page, program, log):
    """The text after a message, as lspcheck gives it, and the content of an event."""
    shown = lines_of(program, "show", "--all", "--long", log)
    found = next(it for it in shown if '"textDocument/didOpen"' in it)
    event, number, uri = found.split()[0], found.split()[4], json.loads(found.split()[5])
    page.open(link=f"#event-{event}")
    page.run("[...document.querySelectorAll('.selected .folded')].find((it) => it.innerText.startsWith('The text after')).open = true")
    page.wait("return document.querySelector('.selected .document-text') !== null")
    wanted = output(program, "text", "--all", number, uri, log).decode()
    text = page.run("return document.querySelector('.selected .document-text').textContent")
    assert text.replace("LF", "").replace("→", "").split() == wanted.replace("LF", "").split()
    content = output(program, "event", event, log).decode()
    shown_content = page.run("return document.querySelector('.selected .json').textContent")
    assert json.loads(shown_content) == json.loads(content)


def stays_small(page, events):
    """A long log: few rows are in the tree, at the beginning, in the middle and at the end, and the
    page takes little processor time to open."""
    page.driver.execute_cdp_cmd("Performance.enable", {"timeDomain": "threadTicks"})
    page.open()
    metrics = page.driver.execute_cdp_cmd("Performance.getMetrics", {})["metrics"]
    took = {it["name"]: it["value"] for it in metrics}["TaskDuration"]
    assert 0 < took < 4, took
    for place in (0, 0.5, 1):
        page.run("scrollTo(0, document.documentElement.scrollHeight * arguments[0])", place)
        page.run("return new Promise((done) => requestAnimationFrame(() => requestAnimationFrame(done)))")
        assert len(page.all(".row")) <= MOST_ROWS, len(page.all(".row"))
        assert place == 0 or page.all(".row")
    assert "End of the log" in page.text("#lanes")
    page.run("location.hash = arguments[0]", f"#event-{events // 2}")
    page.wait("return document.querySelector('.selected .number')?.innerText === arguments[0]", str(events // 2))
    top = page.run("return document.querySelector('.selected').getBoundingClientRect().top")
    assert 0 < top < 900, top


LATER = '{"is":"other","count":5,"text":"a<b>","event":3,"side":"editor","number":2}'


def shows_objects_that_are_not_known(page):
    """What a later lspcheck adds to an explanation is shown as it is, in words too."""
    page.open()
    facts = page.run(READ + "return plain(document.querySelector('.first .facts'))")
    assert LATER in facts, facts
    notes = page.run(READ + "return [...document.querySelectorAll('#overview li')].map(plain)")
    assert '{"is":"note","note":"constructor","new":[1]}' in notes, notes
    page.run("document.querySelector('.why .folded').open = true")
    page.wait("return document.querySelector('.why .raw') !== null")
    assert LATER in page.run(READ + "return plain(document.querySelector('.why .raw'))").split("\n")
    assert page.all('.first a[href="#event-3"]') == [] and not (found := page.log()), found


def later(program, place):
    """A program that adds objects to explanations, and a member to each."""
    path = place / "later"
    note = '{"is":"note","note":"constructor","new":[1]}'
    path.write_text(f"""#!/bin/sh
[ "$1" = explain ] || exec {quoted(program)} "$@"
{quoted(program)} "$@" | sed '/"is":"usually"/{{p;s/.*/{LATER}/;p;s/.*/{note}/;b}};s/}}$/,"more":7}}/'""")
    path.chmod(0o755)
    return path


def tests_of(driver, program, place):
    """Each test as a name and a call."""
    def window(log, *words, program=program):
        return Page(driver, lambda: make(program, place, log, *words))

    for log in EXAMPLES:
        page = window(log)
        for test in (opens_without_faults, shows_the_violation, searches, follows_links_and_keys,
                     shows_texts_after_messages):
            yield f"{test.__name__} {log.name}", lambda test=test, page=page, log=log: test(page, program, log)
    hostile = written(place, "<b onclick=alert(1)>.log", logs.hostile())
    page = window(hostile)
    for test in (opens_without_faults, shows_the_violation):
        yield f"{test.__name__} hostile", lambda test=test, page=page: test(page, program, hostile)
    for test in (marks_what_differs, forbids_everything_else):
        yield test.__name__, lambda test=test, page=page: test(page)
    events = 3000 if programs.is_checked(program) else 20000
    # What is long is written only if its test is run.
    yield "stays_small", lambda: stays_small(
        window(written(place, "long.log", logs.long(events, difference=events // 5 * 3 + 1))), events)
    known = window(EXAMPLES[-1], program=later(program, place))
    yield "shows_objects_that_are_not_known", lambda: shows_objects_that_are_not_known(known)
    for part in (hands, truth, versions, causes, readers, finding):
        yield from part.tests_of(window, program, place)


def tried(driver, program, place, names):
    """How many tests passed and failed."""
    passed = failed = 0
    for name, test in tests_of(driver, program, place):
        if names and not any(it in name for it in names):
            continue
        try:
            test()
            passed += 1
        except FAULTS as error:
            failed += 1
            places = traceback.extract_tb(error.__traceback__)
            where = [it for it in places if str(Path(__file__).parent) in it.filename][-1]
            print(f"FAILED {name}, {Path(where.filename).name} line {where.lineno}: {error or where.line}"[:2000], flush=True)
    return passed, failed


def asked(driver, program, place):
    """Tries what standard input names, a line each: in a tab and a folder of its own."""
    for number, line in enumerate(sys.stdin):
        driver.switch_to.new_window("tab")
        folder = place / str(number)
        folder.mkdir()
        print(*tried(driver, program, folder, [line.rstrip("\n")]), flush=True)
        driver.close()
        driver.switch_to.window(driver.window_handles[0])


def main(words):
    program, place, names = Path(words[0]).resolve(), Path(words[1]).resolve(), words[2:]
    driver = start()
    try:
        if names == ["--asked"]:
            asked(driver, program, place)
        else:
            print(*tried(driver, program, place, names))
    finally:
        driver.quit()


if __name__ == "__main__":
    main(sys.argv[1:])
