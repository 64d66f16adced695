"""A page for whoever has only keys, a screen reader, large letters, a narrow window, or paper."""

import re

from selenium.webdriver.common.action_chains import ActionChains
from selenium.webdriver.common.keys import Keys

import logs
from causes import SHINE
from data import EXAMPLES, written
from hands import FOCUS
from logs import frame, handshake, notification, opened, request
from window import THEMES, WIDTHS

IS_OPEN = "return document.getElementById('keys').open"


def closes_its_dialog(page):
    """Escape closes the dialog of keys, which has a name; until then no key moves the page under it, and
    then the focus is where it was."""
    page.open(link="#event-6")
    before = page.run(FOCUS)
    page.keys("?")
    assert page.run(IS_OPEN)
    name = page.run("return document.getElementById(document.getElementById('keys').getAttribute('aria-labelledby')).innerText")
    assert name == "Keys", name
    page.keys("j")
    page.keys("n")
    assert page.selected() == "6" and page.run(IS_OPEN)
    page.keys(Keys.ESCAPE)
    page.wait("return !document.getElementById('keys').open")
    assert page.run(FOCUS) == before, (page.run(FOCUS), before)
    page.keys("j")
    assert page.selected() == "7"


def can_switch_keys_off(page):
    """Single keys can be switched off; what has more of a name still works."""
    page.open(link="#event-6")
    page.keys("?")
    page.all("#keys input[type=checkbox]")[0].click()
    page.keys(Keys.ESCAPE)
    for key in "jn/?":
        page.keys(key)
        assert page.selected() == "6" and not page.run(IS_OPEN), key
    page.keys(Keys.ENTER)
    assert not page.all(".selected .details")
    page.all(".steps .plain")[-1].click()
    page.all("#keys input[type=checkbox]")[0].click()
    page.keys(Keys.ESCAPE)
    page.run("document.querySelector('.selected .say').focus()")
    page.keys("j")
    assert page.selected() == "7"


def skips_to_the_events(page):
    """The first stop of the tab key leads past the head."""
    page.open()
    page.keys(Keys.TAB)
    assert page.run("return document.activeElement.className") == "skip", page.run(FOCUS)
    page.keys(Keys.ENTER)
    page.keys(Keys.TAB)
    assert page.run("return document.activeElement.closest('#bar') !== null"), page.run(FOCUS)


def names_what_can_be_used(page):
    """Links, buttons, selects and inputs have names that say what they are."""
    page.open()
    nameless = page.run("""return [...document.querySelectorAll('a, button, select, input, summary')].filter((it) =>
        !/[a-z]{2}/i.test(it.getAttribute('aria-label') || it.closest('label')?.innerText || it.innerText)).map((it) => it.outerHTML)""")
    assert not nameless, nameless
    chips = page.run("return [...document.querySelectorAll('.chip')].map((it) => [it.getAttribute('href'), it.getAttribute('aria-label')])")
    assert chips
    for link, name in chips:
        assert re.search(rf"\b(snapshot|did\w+)\b.*\bevent {link.rpartition('-')[2]}\b", name), (link, name)
    bad = page.run("return [...document.querySelectorAll('.chip-bad')].map((it) => it.getAttribute('aria-label'))")
    assert bad and all(re.search(r"breaks rule \d{3}$", it) for it in bad), bad
    names = page.run("return [...document.querySelectorAll('.search select')].map((it) => it.getAttribute('aria-label'))")
    assert names == ["which document", "which events"], names


def keeps_the_focus_when_parts_go(page):
    """A button that is gone after it was used leaves the focus at what it showed."""
    page.open()
    page.all("input.search")[0].send_keys("didChange")
    page.wait("return !document.querySelector('.search .plain').hidden")
    page.all(".search .plain")[0].click()
    assert page.run("return document.activeElement.matches('input.search')"), page.run(FOCUS)
    skipped = page.all(".first button.skipped")
    page.run("arguments[0].focus(); arguments[0].click()", skipped[0])
    assert page.run("return document.activeElement.matches('.first .pair.equal')"), page.run(FOCUS)


def has_headings_in_order(page):
    """One h1; no heading is more than one level below the one before it."""
    page.open(link="#event-5")
    page.run("document.querySelectorAll('details').forEach((it) => { it.open = true; })")
    page.wait_for_frame()
    levels = page.run("""return [...document.querySelectorAll('h1, h2, h3, h4, h5, h6')]
        .filter((it) => it.getClientRects().length).map((it) => [Number(it.tagName[1]), it.innerText])""")
    assert [it[0] for it in levels].count(1) == 1 and levels[0][0] == 1, levels
    for (above, _), (below, text) in zip(levels, levels[1:]):
        assert below <= above + 1, (text, levels)


def has_edges(page):
    """What can be used has an edge of contrast 3 to what is around it."""
    for theme in THEMES:
        page.open(theme=theme)
        found = page.run(SHINE + """return [...document.querySelectorAll('button.plain, input:not([type=checkbox]), select, .chip')]
            .filter((it) => it.getClientRects().length).map((it) => {
              let back = it.parentElement;
              while (/, 0\\)$/.test(style(back).backgroundColor)) back = back.parentElement;
              return [it.className || it.tagName, ratio(style(it).borderTopColor, style(back).backgroundColor)];
            })""")
        assert len(found) > 8 and min(it[1] for it in found) >= 3, (theme, sorted(found, key=lambda it: it[1])[:5])


def stays_usable_when_zoomed(page):
    """At 400 %, in a window of 1280 by 1024: rows are seen, and nothing is wider than the window."""
    page.open(320, height=256)
    page.run("document.getElementById('lanes').scrollIntoView()")
    page.wait_for_frame()
    page.run("scrollBy(0, 200)")
    page.wait_for_frame()
    at = page.run("return [0.1, 0.3, 0.5, 0.7, 0.9].map((it) => document.elementFromPoint(200, innerHeight * it)?.closest('#lanes') !== null)")
    assert all(at), at
    assert page.run("return document.documentElement.scrollWidth") <= 320


def wraps(page):
    """Nothing is wider than the window, however long a name or what is said about the end is."""
    for width in WIDTHS:
        page.open(width, height=3000)
        wide = page.run("return document.documentElement.scrollWidth")
        assert wide <= width, (width, wide)
        cut = page.run("""return [...document.querySelectorAll('.document h3, .who, .wide, .verdict h1, .rule')].filter((it) =>
            it.scrollWidth > it.clientWidth + 1).map((it) => it.className || it.tagName)""")
        assert not cut, (width, cut)


def boxes_marks_that_hide_others(page):
    """No character has more than three combining marks, but in boxes, which clip what is in them."""
    page.open()
    page.run("document.querySelectorAll('.say').forEach((it) => it.click())")
    page.wait_for_frame()
    crowded = page.run(r"""const found = [], walker = document.createTreeWalker(document.body, NodeFilter.SHOW_TEXT);
        while (walker.nextNode()) {
          const node = walker.currentNode;
          if (/\p{M}{4}/u.test(node.data) && node.parentElement.getClientRects().length) found.push(node.parentElement.outerHTML.slice(0, 200));
        }
        return found.concat(document.title.match(/\p{M}{4}/u) ?? [])""")
    assert not crowded, crowded
    assert page.all(".odd") and set(page.run("return [...document.querySelectorAll('.odd')].map((it) => getComputedStyle(it).overflowX)")) == {"clip"}
    named = page.run(r"return [...document.querySelectorAll('[aria-label], [title]')].some((it) => /\p{M}{4}/u.test((it.title ?? '') + it.getAttribute('aria-label')))")
    assert not named
    assert "◌×" in page.text(".who"), page.text(".who")


def prints_in_one_size(page):
    """On paper nothing of the head but the heading is larger than the text."""
    page.open()
    page.driver.execute_cdp_cmd("Emulation.setEmulatedMedia", {"media": "print"})
    try:
        sizes = page.run("""const size = (it) => parseFloat(getComputedStyle(it).fontSize);
            return [size(document.body), ...[...document.querySelectorAll('.where, .quiet, .who, dd, .about')].map(size)]""")
    finally:
        page.driver.execute_cdp_cmd("Emulation.setEmulatedMedia", {"media": ""})
    assert len(sizes) > 5 and max(sizes) <= sizes[0], sizes


def has_a_heading_without_scripts(page):
    page.driver.execute_cdp_cmd("Emulation.setScriptExecutionDisabled", {"value": True})
    try:
        page.driver.get(page.path.as_uri())
        headings = [it.text for it in page.all("h1") if it.is_displayed()]
    finally:
        page.driver.execute_cdp_cmd("Emulation.setScriptExecutionDisabled", {"value": False})
    assert headings == ["What lspcheck says about this log"], headings


def has_rows_for_the_browser(page, long):
    """Of a short log all rows are in the page, for the browser's own search; of a long one it is said
    which search finds all."""
    page.open(height=500)
    rows = page.run("return document.querySelectorAll('#lanes .row').length")
    events = int(re.search(r"([\d,]+) events", page.text(".verdict"))[1].replace(",", ""))
    assert rows == events + 1, (rows, events)
    page.run("dispatchEvent(new KeyboardEvent('keydown', { key: 'f', ctrlKey: true, bubbles: true }))")
    assert page.text(".hint") is None
    long.open(height=500)
    long.run("document.body.dispatchEvent(new KeyboardEvent('keydown', { key: 'f', ctrlKey: true, bubbles: true }))")
    assert "searches all" in long.text(".hint"), long.text(".hint")


def opens_no_row_that_is_dragged_over(page):
    """To select what a row says does not open it; to click it does."""
    page.open()
    line = page.all("#lanes .row .line")[4]
    page.run("arguments[0].scrollIntoView({ block: 'center' })", line)
    say = page.all("#lanes .row .say")[4]
    ActionChains(page.driver).move_to_element_with_offset(say, -60, 0).click_and_hold().move_by_offset(60, 0).release().perform()
    page.wait_for_frame()
    assert not page.all("#lanes .details")
    say.click()
    page.wait_for_frame()
    assert len(page.all("#lanes .details")) == 1


def long_names():
    """A URI of eight kilobytes, and a log that ends in the middle of one."""
    uri = "file:///" + "a" * 8000 + ".c"
    return handshake() + frame(b"E", opened(uri, 1, "a")) + frame(b"E", request(3, "textDocument/hover", {"textDocument": {"uri": uri}}))


def crowded():
    """Marks that would be drawn over the verdict, in names, a document's and a message."""
    name = "W" + "\u0305\u033f" * 40
    params = {"capabilities": {}, "clientInfo": {"name": name, "version": name}}
    start = b"lsp-session 2\n" + frame(b"E", request(1, "initialize", params))
    start += frame(b"S", logs.result(1, {"capabilities": {"textDocumentSync": 2}, "serverInfo": {"name": name}}))
    start += frame(b"E", notification("initialized", {})) + frame(b"E", opened(f"file:///{name}.c", 1, name))
    return start + frame(b"S", notification("window/logMessage", {"type": 3, "message": name}))


def tests_of(window, program, place):
    page = window(EXAMPLES[-1])
    for test in (closes_its_dialog, can_switch_keys_off, skips_to_the_events, names_what_can_be_used, has_headings_in_order,
                 has_edges, stays_usable_when_zoomed, prints_in_one_size, has_a_heading_without_scripts,
                 opens_no_row_that_is_dragged_over, wraps):
        yield test.__name__, lambda test=test: test(page)
    for name, content in {"long names.log": long_names(), "both.log": logs.damaged(), "c differs.log": logs.differs()}.items():
        wide = window(written(place, name, content))
        yield f"wraps {name}", lambda wide=wide: wraps(wide)
        yield f"has_headings_in_order {name}", lambda wide=wide: has_headings_in_order(wide)
        if name == "c differs.log":
            yield "keeps_the_focus_when_parts_go", lambda wide=wide: keeps_the_focus_when_parts_go(wide)
    marks = window(written(place, "marks.log", crowded()))
    for test in (boxes_marks_that_hide_others, wraps):
        yield f"{test.__name__} marks", lambda test=test: test(marks)
    long = window(written(place, "b long.log", logs.long(1000, lines=40)))
    yield "has_rows_for_the_browser", lambda: has_rows_for_the_browser(page, long)
