"""Pages with the checker in Chromium: they judge their log again, and say whether that gives the same."""

import base64
import re
import subprocess
import sys
import zlib

from dropped import Dropped, due
from given import EXAMPLES, TOP
from of_dropped import block_of, page_of_program
from processes import until

AGAIN = "return document.documentElement.dataset.again ?? null"
SAME = "Judged again here: the same."
WRONG = next(it for it in EXAMPLES if it.name == "wrong-column.log")


def with_checker(tests, log, change=None, more=()):
    """A page with the checker, perhaps with a change, or written with more words."""
    target = tests.folder / "with-checker.html"
    words = [sys.executable, TOP / "page/lspcheck-page", "--with-checker", "--program", tests.program, "-o", target, *more, log]
    subprocess.run(words, check=True, stdout=subprocess.DEVNULL, env={"LSPCHECK_WEB": str(tests.built), "PATH": "/usr/bin:/bin"})
    if change:
        target.write_bytes(change(target.read_bytes()))
    return target


def changed_block(name, old, new):
    """What changes a block of a page: one byte of it, packed again."""

    def change(page):
        found = re.search(rb'id="%b">([^<]*)</script>' % name.encode(), page)
        data = zlib.decompress(base64.b64decode(found[1]))
        assert old in data
        return page[: found.start(1)] + base64.b64encode(zlib.compress(data.replace(old, new, 1))) + page[found.end(1) :]

    return change


# A change of one byte each, what kind of answer is due to it, and a part of its words.
CHANGES = {
    "as it was written": (None, "same", SAME),
    "with another verdict": (
        changed_block("session", b'"said":[{"is":"no","rule":605', b'"said":[{"is":"no","rule":604'), "different", "the verdict is another"),
    "with another report": (changed_block("session", b'"report":["no 605', b'"report":["no 604'), "different", "the report is another"),
    "with another explanation": (changed_block("session", b'"lines":["no 605', b'"lines":["no 604'), "different", "in other words"),
    "with another method": (changed_block("session", b'"methods":["initialize"', b'"methods":["initializf"'), "different", '"methods"'),
    "with another kind": (changed_block("session", b'"kind":[0,', b'"kind":[1,'), "different", "an event has another kind"),
    "with another content": (changed_block("contents-0", b"didChange", b"didChangf"), "different", "is another"),
    "with another log": (changed_block("log", b'"character":4', b'"character":5'), "different", "is another"),
}


def judged_again(driver, page):
    """What a page says about its log: the kind of it, and the words."""
    driver.get("about:blank")
    driver.get(page.as_uri())
    assert until(lambda: driver.execute_script(AGAIN))
    return driver.execute_script(AGAIN), driver.execute_script("return document.querySelector('.again').textContent")


def pages_with_the_checker(tests, driver):
    """They are judged again when they are opened."""
    for what, (change, kind, said) in CHANGES.items():
        got = judged_again(driver, with_checker(tests, WRONG, change))
        tests.note(f"a page {what}", got[0] == kind and said in got[1], got)
    for log in (WRONG, EXAMPLES[0]):
        got = judged_again(driver, with_checker(tests, log, more=["--most-events", "20"]))
        tests.note(f"{log.name}, cut, with the checker", got == ("same", SAME), got)
    for log in tests.logs:
        if due(tests.report(log.read_bytes()))[0] == "page":
            got = judged_again(driver, with_checker(tests, log))
            tests.note(f"{log.name} with the checker", got == ("same", SAME), got)


def pages_are_dropped(tests, driver):
    """A page has its log if it has the checker, unless it was damaged."""
    page, whole = Dropped(tests.built, driver), with_checker(tests, WRONG).read_bytes()
    log = block_of(whole, "log")
    damaged = {"no base64": b"!", "nothing packed": base64.b64encode(log), "cut": base64.b64encode(zlib.compress(log)[:-9])}
    page.drop({"with.html": whole, "without.html": page_of_program(tests, WRONG)})
    page.drop({name: re.sub(rb'(?<=id="log">)[^<]*', data, whole) for name, data in damaged.items()})
    got, wanted = page.judged("with.html"), due(tests.report(WRONG.read_bytes()))
    tests.note("a page with its log is dropped", got == wanted, f"{got} for {wanted}")
    got = page.judged("without.html")
    tests.note("a page without it is dropped", got[0] == "fault" and "has no log" in got[1], got)
    for name in damaged:
        got = page.judged(name)
        tests.note(f"a page whose log is {name}", got == ("fault", "the log in this page is damaged"), got)


TESTS = [pages_with_the_checker, pages_are_dropped]
