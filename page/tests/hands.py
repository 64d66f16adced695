"""A page as it is used: with keys, by a screen reader, on paper, narrow, copied from, and cut."""

import base64
import re
import shutil
import subprocess

from selenium.webdriver.common.action_chains import ActionChains
from selenium.webdriver.common.by import By
from selenium.webdriver.common.keys import Keys

import logs
import programs
import truth
from data import EXAMPLES, lines_of, output, smallest_of, written
from processes import SECONDS

FOCUS = "return document.activeElement.getAttribute('aria-label') || document.activeElement.tagName"


def printed(page, **how):
    """The text of the page as it is printed, by the browser's own print command."""
    assert shutil.which("pdftotext"), "there is no pdftotext (Debian: poppler-utils)"
    data = page.driver.execute_cdp_cmd("Page.printToPDF", {"printBackground": True, **how})["data"]
    path = page.path.with_suffix(".pdf")
    path.write_bytes(base64.b64decode(data))
    return subprocess.run(["pdftotext", "-layout", path, "-"], capture_output=True, text=True).stdout


def rows_in(text, events):
    """The events whose rows are in a printed text: each has its number with an arrow's place around."""
    found = set(map(int, re.findall(r"(?:^|\s{2})(\d+)(?=\s{2}|$)", text, re.M)))
    return found & set(events)


def prints_each_row(page, log, program):
    """From windows of all widths: each row is on paper, with its number and its method."""
    shown = lines_of(program, "show", "--all", "--long", log)
    events = [int(it.split()[0]) for it in shown if it[0].isdigit()]
    for width in (380, 800, 1099, 1100, 1600):
        page.open(width)
        text = printed(page)
        missing = set(events) - rows_in(text, events)
        assert not missing, (width, sorted(missing)[:20])
        counts = [len(re.findall("didChange", it)) for it in (text, " ".join(shown))]
        assert counts[0] >= counts[1], (width, counts)
        assert "End of the log" in text and "Not printed" not in text
        assert not page.all(".printed"), width


def prints_from_the_command_line(page, log, program):
    """As Chromium prints a file without anyone at the keyboard."""
    target = page.path.with_suffix(".pdf")
    target.unlink(missing_ok=True)
    words = ["/usr/bin/chromium", "--headless=new", "--no-sandbox", "--disable-gpu", "--disable-dev-shm-usage",
             "--window-size=1600,900", f"--user-data-dir={page.path.parent}/profile",
             "--virtual-time-budget=20000", f"--print-to-pdf={target}", page.path.as_uri()]
    subprocess.run(words, capture_output=True, timeout=SECONDS)
    text = subprocess.run(["pdftotext", "-layout", target, "-"], capture_output=True, text=True).stdout
    events = [int(it.split()[0]) for it in lines_of(program, "show", "--all", "--long", log) if it[0].isdigit()]
    missing = set(events) - rows_in(text, events)
    assert not missing, sorted(missing)[:20]


def says_what_is_not_printed(page, events):
    """Of a long log, the rows around the selected event are printed; the rest is named."""
    page.open()
    page.run("location.hash = '#event-1500'")
    page.wait("return document.querySelector('.selected .number')?.innerText === '1500'")
    text = printed(page)
    found = [[int(it.replace(",", "")) for it in re.findall(r"[\d,]*\d", line)] for line in text.splitlines()
             if "Not printed" in line]
    assert len(found) == 2, found
    for number, first, last in found:
        assert last - first + 1 == number, found
    left = {at for _, first, last in found for at in range(first, last + 1)}
    there = rows_in(text, range(1, events + 1))
    assert 1500 in there and len(set(range(1, events + 1)) - left - there) == 0, sorted(set(range(1, events + 1)) - left - there)[:9]


def selects_with_a_click(page):
    """A click selects, opens and names the row in the address; the keys continue from there."""
    page.open()
    row = page.all("#lanes .row")[6]
    number = row.find_element(By.CSS_SELECTOR, ".number").text
    row.find_element(By.CSS_SELECTOR, ".say").click()
    assert page.selected() == number and page.run("return location.hash") == f"#event-{number}"
    assert page.text(".selected .about").startswith(f"event {number}")
    page.keys("j")
    assert page.selected() == str(int(number) + 1)
    page.open(link="#event-48")
    page.wait("return document.querySelector('.selected .number')?.innerText === '48'")
    page.run("scrollTo(0, 0)")
    page.wait_for_frame()
    page.all(".where a")[0].click()
    page.wait("return document.activeElement.getAttribute('aria-label')?.startsWith('event 48,') && scrollY > 0")


def keeps_the_focus(page):
    """Enter and Space open and close a row without losing the focus, which stays when one scrolls."""
    page.open(link="#event-5")
    assert page.run(FOCUS).startswith("event 5,"), page.run(FOCUS)
    for key, is_open in ((Keys.ENTER, False), (Keys.SPACE, True), (Keys.ENTER, False), (Keys.ENTER, True)):
        page.keys(key)
        assert page.run(FOCUS).startswith("event 5,"), (key, page.run(FOCUS))
        assert page.run("return document.activeElement.getAttribute('aria-expanded')") == str(is_open).lower()
        assert bool(page.all(".selected .details")) == is_open
    page.run("scrollTo(0, document.documentElement.scrollHeight)")
    page.wait_for_frame()
    assert page.run(FOCUS).startswith("event 5,"), page.run(FOCUS)


def says_what_is_selected(page):
    """The keys and links move the focus to the row, whose name says event, side, method and more."""
    page.open(link="#event-4")
    for key, event in (("j", 5), ("j", 6), ("k", 5)):
        page.keys(key)
        said = page.run(FOCUS)
        assert re.match(rf"event {event}, (editor|server|snapshot)", said), said
    page.run("location.hash = '#event-30'")
    page.wait("return document.activeElement.getAttribute('aria-label')?.startsWith('event 30,')")
    for label in page.run("return [...document.querySelectorAll('.say')].map((it) => it.getAttribute('aria-label'))"):
        assert re.match(r"event \d+, (snapshot|(editor|server), \w+)(, |$)", label), label
    for name in page.run("return [...document.querySelectorAll('button')].map((it) => "
                         "it.getAttribute('aria-label') || it.innerText)"):
        assert re.search(r"[a-z]{3}", name), name
    texts = page.run("return [...document.querySelectorAll('.say .what')].map((it) => it.textContent)")
    assert any(re.search(r"didChange small\.c v\d", it) for it in texts), texts[:9]


def keeps_rows_in_order(page):
    """The order of the rows in the tree is that on the screen, also after scrolling back."""
    page.open(height=700)
    for top in (0, 900, 1800, 2700, 1700, 600, 0):
        page.run("scrollTo(0, arguments[0])", top)
        page.wait_for_frame()
        numbers = page.run("return [...document.querySelectorAll('#lanes .row .number')].map((it) => Number(it.innerText))")
        assert numbers == sorted(numbers) and numbers, (top, numbers)


def returns_from_a_search(page):
    """Found rows are drawn at once, and a cleared search returns to the selected row."""
    page.open(link="#event-90", height=700)
    page.wait("return document.querySelector('.selected .number')?.innerText === '90'")
    page.keys("/")
    page.keys("shutdown")
    page.wait("return /^\\d/.test(document.querySelector('.found').innerText)")
    page.wait_for_frame()
    seen = "return [...document.querySelectorAll('#lanes .row')].filter((it) => { const box = it.getBoundingClientRect(); return box.bottom > 0 && box.top < innerHeight; }).length"
    assert page.run(seen) > 0
    page.keys(Keys.ESCAPE)
    page.keys(Keys.ESCAPE)
    page.wait("return document.querySelector('.found').innerText === ''")
    page.wait_for_frame()
    top = page.run("return document.querySelector('.selected').getBoundingClientRect().top")
    assert page.selected() == "90" and 0 < top < 700, top


def searches_in_messages(page, log, program):
    """Words that only a message has, also where JSON has escaped them; the row shows the place."""
    events = [int(it.split()[0]) for it in lines_of(program, "show", "--all", "--long", log) if it[0].isdigit()]
    page.open()
    for word in ("int é_3", "VALUE_33", "done", "\"contents\"", "no such word"):
        found = [event for event in events if all(
            part.lower() in said_by(output(program, "event", str(event), log)) for part in word.split())]
        box = page.all("input.search")[0]
        page.run("document.querySelector('form.search').reset()")
        box.send_keys(word)
        page.wait("return /^\\d/.test(document.querySelector('.found').innerText)")
        page.wait_for_frame()
        shown = page.run("return [...document.querySelectorAll('#lanes .row .number')].map((it) => Number(it.innerText))")
        assert set(found) <= set(shown) and (found or not shown), (word, found, shown)
        assert page.text(".found").split()[0] == str(len(shown)), (word, page.text(".found"))
        if word == "VALUE_33":
            assert all("int value_33;" in it for it in page.texts("#lanes .summary")), page.texts("#lanes .summary")


def said_by(content):
    """A content in lower case, with the escapes of JSON as what they mean."""
    text = content.decode()
    return (text + re.sub(r"\\u([0-9a-f]{4})", lambda it: chr(int(it[1], 16)), text).replace('\\"', '"')).lower()


CONTRAST = r"""
const parse = (color) => { const it = color.match(/[\d.]+/g).map(Number); return it.length < 4 ? [...it, 1] : it; };
const over = (a, b) => [0, 1, 2].map((at) => a[at] * a[3] + b[at] * (1 - a[3])).concat(1);
const shine = (color) => { const [r, g, b] = color.slice(0, 3).map((it) => { it /= 255;
  return it <= 0.03928 ? it / 12.92 : ((it + 0.055) / 1.055) ** 2.4; }); return 0.2126 * r + 0.7152 * g + 0.0722 * b; };
const backOf = (node) => { const colors = [];
  for (let it = node; it; it = it.parentElement) { colors.push(parse(getComputedStyle(it).backgroundColor)); }
  return colors.reverse().reduce((under, color) => over(color, under), [255, 255, 255, 1]); };
const found = [];
for (const node of document.querySelectorAll('body *')) {
  const has = [...node.childNodes].some((it) => it.nodeType === 3 && it.data.trim());
  if (!has || !node.getClientRects().length || node.closest('svg, option, select')) continue;
  const back = backOf(node), front = over(parse(getComputedStyle(node).color), back);
  const [a, b] = [shine(front), shine(back)].sort((one, other) => other - one);
  const ratio = (a + 0.05) / (b + 0.05);
  if (ratio < 4.5) found.push(`${node.className || node.tagName} ${ratio.toFixed(2)} ${node.textContent.slice(0, 20)}`);
}
return [...new Set(found)];
"""


def has_contrast(page):
    """Each text has a contrast of at least 4.5 to what is under it."""
    for theme in ("light", "dark"):
        page.open(theme=theme, height=4000)
        page.run("document.querySelectorAll('details').forEach((it) => { it.open = true; })")
        page.run("[...document.querySelectorAll('.say')].slice(0, 12).forEach((it) => it.click())")
        page.wait_for_frame()
        assert page.all(".odd")
        assert not (found := page.run(CONTRAST)), (theme, found)


def shows_methods_when_narrow(page, log, program):
    """The name of each row is seen whole, whatever the width."""
    for width in (380, 800, 1100, 1600):
        page.open(width, height=6000)
        cut = page.run("""return [...document.querySelectorAll('#lanes .names')].map((it) => {
            const last = it.lastElementChild ?? it, box = last.getBoundingClientRect();
            const say = it.closest('.say').getBoundingClientRect();
            return box.width > 20 && box.right <= say.right + 0.5 && box.left >= say.left ? null : it.innerText;
        }).filter(Boolean)""")
        assert not cut, (width, cut[:9])
        assert page.run("return document.documentElement.scrollWidth") <= width


def copies_what_is_there(page):
    """Boxes for line ends and other characters are copied as the characters themselves."""
    page.open()
    page.run("""const cells = document.querySelectorAll('.first .texts .differs .cell:last-child .line-text');
        getSelection().setBaseAndExtent(cells[0], 0, cells[cells.length - 1], cells[cells.length - 1].childNodes.length);""")
    wanted = "int e_3;\r\n"
    page.run("addEventListener('copy', (event) => { window.said = event.clipboardData.getData('text/plain'); })")
    ActionChains(page.driver).key_down(Keys.CONTROL).send_keys("c").key_up(Keys.CONTROL).perform()
    copied = page.wait("return window.said")
    assert copied == wanted, (copied, wanted)


def copied_markdown(page):
    """What the button puts on the clipboard."""
    page.open()
    page.driver.execute_cdp_cmd("Browser.grantPermissions", {"permissions": ["clipboardReadWrite", "clipboardSanitizedWrite"]})
    page.all("button.copy")[0].click()
    page.wait("return document.querySelector('button.copy').innerText === 'copied'")
    return page.driver.execute_async_script("navigator.clipboard.readText().then(arguments[0], (e) => arguments[0](String(e)))")


def has_the_smallest_session(page, log, program):
    """--small: what `recorders/shrink --lit` writes is on the page, and is copied as Markdown."""
    wanted = smallest_of(program, log).removesuffix("\n")
    assert wanted.count("\n---\n") == 3, wanted
    assert f"\n```\n{wanted}\n```\n" in copied_markdown(page), wanted
    assert page.text(".smallest .command") == f"lspcheck redact '{log.name}' | lspcheck-page --small -"
    page.run("document.querySelector('.smallest .folded').open = true")
    page.wait("return document.querySelector('.smallest pre')")
    assert page.text(".smallest summary") == "4 messages", page.text(".smallest summary")
    shown = page.run("return document.querySelector('.smallest pre').textContent")
    assert shown == wanted, (shown, wanted)


def saves_the_smallest_log(page):
    """The card of the smallest log has its numbers, and a button that saves it under its name."""
    index, _ = logs.data_of(page.path.read_text())
    case = logs.blocks_of(page.path.read_text())["case"]
    page.open()
    assert f"{index['case']['events']} events, {len(case):,} bytes" in page.text(".smallest-log"), page.text(".smallest-log")
    page.run("""const made = URL.createObjectURL; window.saved = [];
        URL.createObjectURL = (blob) => { blob.text().then((text) => window.saved.push(text)); return made(blob); };
        HTMLAnchorElement.prototype.click = function () { window.saved.push(this.download); };""")
    page.all(".smallest-log button")[0].click()
    page.wait("return window.saved.length === 2")
    assert set(page.run("return window.saved")) == {case.decode(), f"{page.path.name.removesuffix('.html').split('.log')[0]}-small.log"}


def copies_markdown(page):
    """The button copies the Markdown that is in the page."""
    index, _ = logs.data_of(page.path.read_text())
    assert index["markdown"] and copied_markdown(page) == index["markdown"], index["markdown"]


def shows_what_was_left_out(page, log, program):
    """A cut page: links to what it does not have lead to the gap, and commands count what it leaves out."""
    page.open(link="#event-2000")
    page.wait("return document.activeElement.classList.contains('wide')")
    said = page.text(".row.selected")
    first, last = [int(it.replace(",", "")) for it in re.search(r"left out: ([\d,]+) to ([\d,]+)", said).groups()]
    assert first <= 2000 <= last, said
    shown = {int(it.split()[0]): it.split() for it in lines_of(program, "show", "--all", "--long", log) if it[0].isdigit()}
    event = next(it for it in range(last + 1, last + 9) if shown[it][1] == "server" and shown[it - 1][1] == "editor" or shown[it][1] == "snapshot")
    page.open(link=f"#event-{event}")
    page.run("[...document.querySelectorAll('.selected .folded')].find((it) => it.innerText.startsWith('The text after'))"
             "?.setAttribute('open', '')")
    if page.all(".selected .command"):
        number = [it for at, it in shown.items() if at <= event and it[1] == "editor"][-1]
        wanted = next(word for word in number[4:] if word.isdigit()) if number[2] != "request" else number[5]
        assert f"--all {wanted} " in page.text(".selected .command"), (wanted, page.text(".selected .command"))


def says_when_a_log_is_damaged_too(page, program, log):
    """A violation in a log that is cut off: both are said at the top."""
    page.open()
    ending = lines_of(program, "check", "--all", log)
    said = next(it for it in ending if it.startswith("bad log"))
    assert said in page.text(".verdict") and page.run(
        "return document.querySelector('.damaged').getBoundingClientRect().top") < 300


def stays_readable_after_a_fault(page, log, program):
    """Without JavaScript, and after an error of the script: the verdict and its explanation."""
    report = lines_of(program, "explain", log)
    broken = page.path.with_name("broken.html")
    text = page.path.read_text()
    broken.write_text(re.sub(r'(id="session">)....', r"\1AAAA", text))
    page.driver.execute_cdp_cmd("Emulation.setScriptExecutionDisabled", {"value": True})
    try:
        page.driver.get(page.path.as_uri())
        seen = page.driver.find_element(By.CSS_SELECTOR, "#plain pre").text
        assert seen.split("\n") == report, (seen, report)
        assert "JavaScript" in page.driver.find_element(By.CSS_SELECTOR, "#plain").text
    finally:
        page.driver.execute_cdp_cmd("Emulation.setScriptExecutionDisabled", {"value": False})
    page.driver.get(broken.as_uri())
    page.wait("return document.documentElement.dataset.ready")
    assert page.text("#plain pre").split("\n") == report
    assert "could not be shown" in page.text("#fault"), page.text("#fault")


def links_what_follows(page, program, log):
    """What follows links to an earlier violation that follows from none, and looks unlike one."""
    every = [re.fullmatch(r"no (\d+) (\w+) (\d+) event (\d+)( follows)?", it) for it in lines_of(program, "check", "--every", log)]
    every = [it for it in every if it]
    alone = [int(it[4]) for it in every if not it[5]]
    for found in every:
        if not found[5]:
            continue
        page.open(link=f"#event-{found[4]}")
        link = page.run("return document.querySelector('.selected .why a').getAttribute('href')")
        cause = int(link.rpartition("-")[2])
        assert cause in alone and cause < int(found[4]), (link, alone)
        back = "return getComputedStyle(document.querySelector(arguments[0])).backgroundColor"
        assert page.text(".selected .tag-follows") == f"follows: {found[1]}"
        follower = page.run(back, ".selected .line")
        page.open(link=f"#event-{cause}")
        assert page.run(back, ".selected .line") != follower


def opens_many_events(page, events):
    """A log of very many events opens, at both ends."""
    page.open(link=f"#event-{events}")
    page.wait("return document.querySelector('.selected .number')?.innerText === arguments[0]", str(events))
    assert not (found := page.log()), found
    assert f"{events:,} events" in page.text(".verdict")


def keeps_evil_logs_as_text(page):
    """No element, no request and no error that a log brings, and no character that hides others."""
    page.open(height=2500)
    bad = """return [...document.querySelectorAll('*')].filter((it) => /^(img|iframe|object|embed|link|base)$/i.test(it.tagName)
        || [...it.attributes].some((one) => one.name.startsWith("on"))).map((it) => it.outerHTML)"""
    assert not page.run(bad), page.run(bad)
    page.run("document.querySelectorAll('.say').forEach((it) => it.click())")
    page.run("document.querySelectorAll('details').forEach((it) => { it.open = true; })")
    page.wait_for_frame()
    assert not page.run(bad), page.run(bad)
    shown = page.run("return document.body.innerText + document.title + [...document.querySelectorAll('[aria-label]')]"
                     ".map((it) => it.getAttribute('aria-label')).join()")
    outside = logs.BLOCK.sub("", page.path.read_text())
    for mark in "\u202e\u2066\x1b\0":
        assert mark not in shown and mark not in outside.partition("<script>")[0], repr(mark)
    assert not (found := page.log()), found


def gives_away_little(page, program, log):
    """--small: the violation and what led to it; no whole text, and no other event."""
    whole, text = output(program, "event", "4", log).decode(), page.path.read_text()
    index, contents = logs.data_of(text)
    named = {int(it) for it in re.findall(r"event (\d+)", output(program, "explain", log).decode())}
    assert {row["event"] for row in index["rows"]} == named | {1, 2}, (named, len(index["rows"]))
    data = b" ".join(logs.blocks_of(text).values()).decode()
    assert "value_1;" not in data and "value_39;" not in data and "value_19;" in data, "texts"
    assert not any(it and b"value_1;" in it for it in contents) and "value_1;" in whole
    page.open()
    texts = [output(program, "explain", it, log).decode() for it in ("--by-messages", "--in-editor")]
    shown = page.run("return [...document.querySelectorAll('.first .pair.differs .line-number')].map((it) => it.innerText)")
    lines = [it.split("\n") for it in texts]
    wanted = [str(at + 1) for at, (a, b) in enumerate(zip(*lines)) if a != b for _ in range(2)]
    assert shown == wanted, (shown, wanted)
    assert "left out of this page" in page.text(".first") and "No · rule" in page.text(".rule")


def tests_of(window, program, place):
    example = EXAMPLES[-1]
    page = window(example)
    for test in (prints_each_row, prints_from_the_command_line, shows_methods_when_narrow, stays_readable_after_a_fault):
        yield test.__name__, lambda test=test: test(page, example, program)
    for test in (selects_with_a_click, keeps_the_focus, says_what_is_selected, keeps_rows_in_order,
                 returns_from_a_search, has_contrast):
        yield test.__name__, lambda test=test: test(page)
    differs = written(place, "a differs.log", logs.differs())
    page_of_differs = window(differs)
    yield "has_contrast differs", lambda: has_contrast(page_of_differs)
    yield "copies_what_is_there", lambda: copies_what_is_there(page_of_differs)
    yield "saves_the_smallest_log", lambda: saves_the_smallest_log(window(differs, "--shrink", "300"))
    yield "searches_in_messages", lambda: searches_in_messages(page_of_differs, differs, program)
    yield "copies_markdown", lambda: copies_markdown(page_of_differs)
    small = window(differs, "--small")
    yield "gives_away_little", lambda: gives_away_little(small, program, differs)
    yield "has_the_smallest_session small", lambda: has_the_smallest_session(small, differs, program)
    long = written(place, "a long.log", logs.long(4000, difference=3001, lines=40))
    page_of_long = window(long)
    yield "says_what_is_not_printed", lambda: says_what_is_not_printed(page_of_long, 4000)
    cut = window(long, "--most-events", "241")
    yield "shows_what_was_left_out", lambda: shows_what_was_left_out(cut, long, program)
    yield "shows_the_head cut", lambda: truth.shows_the_head(cut, program, long)
    damaged = written(place, "a damaged.log", logs.damaged())
    page_of_damaged = window(damaged)
    yield "says_when_a_log_is_damaged_too", lambda: says_when_a_log_is_damaged_too(page_of_damaged, program, damaged)
    for name, content in logs.evil().items():
        evil = window(written(place, f"{name}\u202e.log", content))
        yield f"keeps_evil_logs_as_text {name}", lambda evil=evil: keeps_evil_logs_as_text(evil)
    yield "links_what_follows", lambda: links_what_follows(page, program, example)
    events = 4000 if programs.is_checked(program) else 200002
    yield "opens_many_events", lambda: opens_many_events(
        window(written(place, "many.log", logs.many(events)), "--most-events", "300000", "--most-bytes", "100000000"), events)
