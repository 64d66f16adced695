"""What one looks for in a page: words, events, the rows around them, and what one keeps in sight."""

import re

from selenium.webdriver.common.keys import Keys

import logs
import programs
from data import EXAMPLES, lines_of, output, written

SHOWN = "return [...document.querySelectorAll('#lanes .row .number')].map((it) => Number(it.innerText))"
FOUND = "return /^[\\d,]+ /.test(document.querySelector('.found').innerText)"
# Counts how many blocks a page inflates.
COUNTING = """const Inflater = DecompressionStream; window.inflated = 0;
window.DecompressionStream = class extends Inflater { constructor(...words) { super(...words); window.inflated += 1; } };"""
ABSENT = "absentword"
# A page that has all of a log.
WHOLE = ("--most-events", "300000", "--most-bytes", "100000000")


def search(page, words):
    """Types words into the search. Returns the events that are found."""
    box = page.all("input.search")[0]
    box.clear()
    box.send_keys(words)
    page.wait(FOUND)
    page.wait_for_frame()
    return page.run(SHOWN)


def finds_what_rows_show(page, program, log, words):
    """Words that rows show and messages lack: rules, tags, words of notes. They are marked."""
    page.open()
    for word, events in words.items():
        found = search(page, word)
        assert set(events) <= set(found), (word, events, found)
        marked = page.run("return [...document.querySelectorAll('#lanes .found-word')].map((it) => it.innerText.toLowerCase())")
        shown = page.run("return [...document.querySelectorAll('#lanes .say')].map((it) => it.innerText.toLowerCase())")
        assert sum(word.lower() in it for it in shown) == 0 or word.lower() in marked, (word, marked)
    assert search(page, ABSENT) == [] and page.text(".found") == "0 events"


def marks_across_parts(page):
    """A word that is in several parts of a row is marked in all of them."""
    page.open()
    found = search(page, "textdocument/didopen")
    marked = page.run("""return [...document.querySelectorAll('#lanes .row')].filter((it) => it.querySelector('.found-word')).map((it) =>
        [...it.querySelectorAll('.found-word')].map((mark) => mark.innerText).join(''))""")
    assert len(marked) == len(found) > 0 and set(marked) == {"textDocument/didOpen"}, marked


def keeps_the_search_in_the_address(page):
    """What is searched for and the selected event are in the address, which shows them again."""
    page.open()
    search(page, "didChange")
    page.run("const it = document.querySelector('.search .hide'); it.click()")
    page.wait("return location.hash.includes('quiet')")
    page.wait_for_frame()
    found = page.run(SHOWN)
    page.run("document.querySelectorAll('#lanes .say')[1].click()")
    link = page.run("return location.hash")
    assert link == f"#event-{found[1]}?find=didChange&quiet=yes", link
    page.open(link=link)
    page.wait(FOUND)
    page.wait("return document.querySelector('.selected .number')?.innerText === arguments[0]", str(found[1]))
    assert page.run(SHOWN) == found and page.run("return document.querySelector('input.search').value") == "didChange"
    assert page.run("return document.querySelector('.search .hide').checked")
    page.open(link="#?only=nonsense&document=99&find=" + "%3Cimg%20src%3Dx%20onerror%3Dalert(1)%3E")
    page.wait(FOUND)
    assert page.run("return document.images.length") == 0 and not (said := page.log()), said


def shows_in_context(page):
    """From a row that was found to the same row among all others."""
    page.open()
    found = search(page, "didChange")
    page.all("#lanes .context")[2].click()
    page.wait("return document.querySelector('.selected .number')?.innerText === arguments[0]", str(found[2]))
    assert page.run("return document.querySelector('input.search').value") == ""
    shown = page.run(SHOWN)
    assert found[2] - 1 in shown and found[2] + 1 in shown, shown
    assert not page.all("#lanes .context") and not page.all(".found-word")


def goes_to_an_event(page):
    page.open()
    page.keys("g")
    page.keys("17", Keys.ENTER)
    page.wait("return document.querySelector('.selected .number')?.innerText === '17'")
    assert page.run("return location.hash") == "#event-17"


def hides_noise(page, program, log):
    """One switch hides progress and logs, and with them nothing that breaks a rule or has a note."""
    noise = re.compile(r'\d+ (editor|server) notification "(\$/progress|window/logMessage|telemetry/event)".*')
    shown = [it for it in lines_of(program, "show", "--all", "--long", log) if it[0].isdigit()]
    hidden = [int(it.split()[0]) for it in shown if noise.fullmatch(it)]
    page.open()
    page.all(".search .hide")[0].click()
    page.wait(FOUND)
    found = page.run(SHOWN)
    assert hidden and not set(hidden) & set(found) and len(found) == len(shown) - len(hidden), (hidden, found)
    page.run("document.activeElement.blur()")
    page.keys("h")
    page.wait("return document.querySelector('.found').innerText === ''")
    assert len(page.run(SHOWN)) == len(shown)


def pins_an_event(page):
    """A pinned event stays in sight while one goes to others, until it is unpinned."""
    for width in (1600, 800):
        page.open(width, link="#event-5")
        page.keys("p")
        about = page.text("#pane .about")
        assert about.startswith("event 5 ·"), about
        page.keys("j", "j", "j")
        assert page.selected() == "8" and page.text("#pane .about") == about
        box = page.run("const it = document.getElementById('pane').getBoundingClientRect(); return [it.top, it.bottom, innerHeight]")
        assert 0 <= box[0] < box[1] <= box[2] + 1, box
        row = page.run("return document.querySelector('.selected .say').getBoundingClientRect().toJSON()")
        assert page.run("return document.elementFromPoint(arguments[0], arguments[1])?.closest('#lanes') !== null", row["x"] + 5, row["y"] + 5)
        assert page.run("return document.documentElement.scrollWidth") <= width
        page.all("#pane .pane-head button")[1].click()
        assert page.run("return document.getElementById('pane').hidden")
        assert page.run("return document.activeElement.closest('.row.selected') !== null")


def copies_a_message(page, program, log):
    """One message, byte by byte as it was sent."""
    page.open(link="#event-4")
    page.driver.execute_cdp_cmd("Browser.grantPermissions", {"permissions": ["clipboardReadWrite", "clipboardSanitizedWrite"]})
    page.all(".selected .actions .copy")[0].click()
    page.wait("return document.querySelector('.selected .actions .copy').innerText === 'copied'")
    copied = page.driver.execute_async_script("navigator.clipboard.readText().then(arguments[0], (e) => arguments[0](String(e)))")
    assert copied == output(program, "event", "4", log).decode(), copied


def inflates_what_is_looked_at(page):
    """A block is inflated when one of its events is looked at; a search needs them all."""
    blocks = len(re.findall(r'id="contents-\d+"', page.path.read_text()))
    assert blocks > 3, blocks
    added = page.driver.execute_cdp_cmd("Page.addScriptToEvaluateOnNewDocument", {"source": COUNTING})
    try:
        page.open()
        page.wait_for_frame()
        assert page.run("return window.inflated") == 2, page.run("return window.inflated")
        page.run("scrollTo(0, document.documentElement.scrollHeight)")
        page.wait("return [...document.querySelectorAll('#lanes .summary')].some((it) => it.innerText)")
        page.wait("return window.inflated > 2")
        assert page.run("return window.inflated") <= 4
        assert search(page, ABSENT) == [] and page.run("return window.inflated") == blocks + 1
    finally:
        page.driver.execute_cdp_cmd("Page.removeScriptToEvaluateOnNewDocument", added)


def processor_seconds(page):
    """How long the page's thread has run: a busy machine does not count."""
    metrics = page.driver.execute_cdp_cmd("Performance.getMetrics", {})["metrics"]
    return {it["name"]: it["value"] for it in metrics}["TaskDuration"]


def is_quick(page):
    """A large log opens in two seconds, and a word that is nowhere in it is answered within one, on an
    idle machine. A processor that others use too may take twice as long."""
    page.driver.execute_cdp_cmd("Performance.enable", {"timeDomain": "threadTicks"})
    page.open()
    opened = processor_seconds(page)
    assert 0 < opened < 4, opened
    assert search(page, ABSENT) == []
    asked = processor_seconds(page) - opened
    assert 0 < asked < 2, (opened, asked)


def noisy():
    """Progress and logs among other messages, also one with a note."""
    uri = "file:///noisy.c"
    server = [logs.notification("$/progress", {"token": 1, "value": {"kind": "report", "percentage": it}}) for it in range(5)]
    server.append(logs.notification("window/logMessage", {"type": 4, "message": "said"}))
    return logs.handshake() + logs.frame(b"E", logs.opened(uri, 1, "a")) + b"".join(logs.frame(b"S", it) for it in server)


def large(events, size):
    """A log of this many events, with about this many bytes in the answers, and half as many elsewhere."""
    return logs.long(events, lines=60, label="xy z" * (size // (events // 4) // 20 // 4))


def tests_of(window, program, place):
    example = EXAMPLES[-1]
    page = window(example)
    violation = lines_of(program, "check", example)[0].split()
    noted, differs = written(place, "b noted.log", logs.noted()), written(place, "d differs.log", logs.differs())
    suspects = [int(it) for it in re.findall(r"^suspect \S+ event (\d+)", output(program, "explain", "--all", differs).decode(), re.M)]
    refused = int(re.search(r"^note refused .* event (\d+) ", output(program, "explain", "--all", "--notes", noted).decode(), re.M)[1])
    for log, words in ((example, {violation[1]: [int(violation[-1])]}), (differs, {"suspect": suspects, "differs": [], "equal": [5]}),
                       (noted, {"InvalidParams": [refused]})):
        shown = page if log == example else window(log)
        yield f"finds_what_rows_show {log.name}", lambda shown=shown, log=log, words=words: finds_what_rows_show(shown, program, log, words)
    for test in (marks_across_parts, keeps_the_search_in_the_address, shows_in_context, goes_to_an_event, pins_an_event):
        yield test.__name__, lambda test=test: test(page)
    yield "copies_a_message", lambda: copies_a_message(page, program, example)
    noise = written(place, "noisy.log", noisy())
    yield "hides_noise", lambda: hides_noise(window(noise), program, noise)
    long = written(place, "e long.log", logs.long(3000, lines=60, label="label " * 40))
    yield "inflates_what_is_looked_at", lambda: inflates_what_is_looked_at(window(long))
    events, size = (4000, 4_000_000) if programs.is_checked(program) else (20000, 33_000_000)
    yield "is_quick", lambda: is_quick(window(written(place, "large.log", large(events, size)), *WHOLE))
