#!/usr/bin/env python3
"""Uses lspcheck.html and pages with the checker in Chromium, and runs lspcheck.wasm in Chromium and Firefox.

usage: browsers.py < GIVEN

GIVEN is what web/tests/of_pages.py writes. It prints a line for each fault and for what is skipped, and last
the numbers of checks that passed and failed.
"""

import json
import shutil
import sys
import traceback
from functools import partial
from pathlib import Path

TOP = Path(__file__).resolve().parent.parent.parent
FOLDERS = ["page/tests", "tests", "tests/fuzz", "tests/golden", "tests/cli", "scripts"]
sys.path += [str(TOP / folder) for folder in FOLDERS]

import of_checkers
import of_dropped
import window
from dropped import DROP, READY, STATE, due, packed
from engine import InBrowser, page_of_runs
from firefox import Firefox
from given import EXAMPLES, Given, answer, damaged, recorded
from processes import until
from same import Comparison

# Where a browser is not given everything, it is given one of this many.
PART = 10


class Tests:
    """What is tested, and how many checks passed and failed."""

    def __init__(self, given):
        self.built, self.folder = Path(given["built"]), Path(given["folder"])
        # Help names the program as it was called.
        self.program = self.folder / "bin/lspcheck"
        self.program.parent.mkdir()
        shutil.copy(given["program"], self.program)
        self.module = self.built / "lspcheck.wasm"
        self.logs, self.few = [*map(Path, given["logs"])], given["few"]
        self.seeds = range(given["first"], given["first"] + given["count"])
        self.passed = self.failed = 0

    def note(self, what, good, got=""):
        self.passed, self.failed = self.passed + bool(good), self.failed + (not good)
        if not good:
            print(f"FAILED {what}: {str(got)[:1500]}", flush=True)

    def answer(self, data, *words):
        """The status of the program and both outputs, for a log."""
        return answer(self.program, Given("", words, data))

    def report(self, data):
        """The lines of its report on a log."""
        return self.answer(data, "explain")[1].decode().rstrip("\n").split("\n")

    def compare(self, browser, engine, few):
        """Compares the answers in a browser with those of the program."""
        self.note(f"{browser} compiles the module", engine.is_ready)
        comparison = Comparison(engine, 1, lambda what, *found: self.note(f"{browser}: {what}", *found))
        step = PART if few else 1
        comparison.golden(few, step)
        comparison.refused(self.program, [["check"]])
        comparison.compare(self.program, recorded, self.logs[::step])
        comparison.compare(self.program, partial(damaged, logs=self.logs), self.seeds[::step])


def the_same_answers_in_chromium(tests, driver):
    driver.get(page_of_runs(tests.folder).as_uri())

    def wait_for(script, *values):
        ended = "then(arguments[arguments.length - 1], () => arguments[arguments.length - 1](false))"
        return driver.execute_async_script(f"({script}).{ended}", *values)

    tests.compare("Chromium", InBrowser(tests.module, driver.execute_script, wait_for), tests.few)


def the_same_answers_in_firefox(tests, _):
    if shutil.which("firefox-esr") is None:
        print("the tests in Firefox are skipped: there is no firefox-esr")
        return
    with Firefox(tests.folder) as firefox:
        firefox.open(page_of_runs(tests.folder))
        tests.compare("Firefox", InBrowser(tests.module, firefox.run, firefox.wait_for), True)
        firefox.open(tests.built / "lspcheck.html")
        is_ready = until(lambda: firefox.run(READY)) and firefox.run(READY) == "yes"
        tests.note("the page opens in Firefox", is_ready)
        name, log = "session.log", EXAMPLES[-1].read_bytes()
        firefox.run(DROP, packed({name: log}))
        until(lambda: firefox.run(STATE, name) not in (None, "running"))
        got = firefox.run(STATE, name), firefox.run("return document.querySelector('.log .verdict-line')?.textContent")
        tests.note("a log in Firefox", got == due(tests.report(log)), got)


TESTS = [*of_dropped.TESTS, *of_checkers.TESTS, the_same_answers_in_chromium, the_same_answers_in_firefox]


def main(given):
    tests, driver, names = Tests(given), window.start(), given["names"]
    try:
        for test in TESTS:
            if names and not any(it in test.__name__ for it in names):
                continue
            try:
                test(tests, driver)
            except Exception:
                tests.note(test.__name__, False, traceback.format_exc()[-1500:])
    finally:
        driver.quit()
    print(f"{tests.passed} {tests.failed}")


if __name__ == "__main__":
    main(json.load(sys.stdin))
