"""lspcheck.html, opened from a file in Chromium: logs are dropped on it, and what is none."""

import base64
import json
import re
import subprocess
import sys
import time
import zlib

import sessions
from dropped import Dropped, due, visible
from given import EXAMPLES, TOP
from processes import until

# Commands that are given to the page.
LINES = [
    "check", "explain --all --notes", "show --long", "normal", "frames --as kinds", "--help", "check --bogus",
    "text 1 'file:///a b'",
]
# How many bytes a large log has, and one of a few tests.
LARGE, FEW = 100_000_000, 20_000_000


def a_page_opens_from_a_file(tests, driver):
    page = Dropped(tests.built, driver)
    tests.note("the page opens", page.is_ready, page.faults())
    script = "fetch('https://example.org/').then(() => arguments[0]('open'), (it) => arguments[0](String(it)))"
    tests.note("it can open no connection", "Failed to fetch" in driver.execute_async_script(script))
    refused = []

    def is_refused():
        refused.extend(it["message"] for it in driver.get_log("browser"))
        return any("Content Security Policy" in it for it in refused)

    tests.note("its policy refuses it", until(is_refused, 60), refused)
    policy = driver.execute_script("return document.querySelector('meta[http-equiv]').content")
    tests.note("its policy", policy.startswith("default-src 'none';") and "connect-src" not in policy, policy)


def logs_are_judged(tests, driver):
    """All logs, dropped at once: the verdict, and what explain says."""
    page = Dropped(tests.built, driver)
    page.drop({it.name: it.read_bytes() for it in tests.logs})
    for log in tests.logs:
        report = tests.report(log.read_bytes())
        got = page.judged(visible(log.name))
        tests.note(f"{log.name}: verdict", got == due(report), f"{got} for {due(report)}")
        if got[0] == "page":
            shown = page.text(visible(log.name), "details pre")
            tests.note(f"{log.name}: report", shown == visible("\n".join(report)), shown)
    tests.note("no faults", not (found := page.faults()), found)


def ten_logs_are_judged(tests, driver):
    """More than are judged at once."""
    page, logs = Dropped(tests.built, driver), {}
    for number in range(10):
        log = EXAMPLES[number % len(EXAMPLES)]
        logs[f"{number} {log.name}"] = log.read_bytes()
    page.drop(logs)
    got = {name: page.judged(name) for name in logs}
    tests.note("ten logs", got == {name: due(tests.report(data)) for name, data in logs.items()}, got)
    shown = driver.execute_script("return [...document.querySelectorAll('.log h2')].map((it) => it.textContent)")
    tests.note("in the order in which they were dropped", shown == [*logs], shown)


def block_of(page, name):
    found = re.search(rb'id="%b">([^<]*)</script>' % name.encode(), page)
    return zlib.decompress(base64.b64decode(found[1]))


def index_of(page):
    index = json.loads(block_of(page, "session"))
    return {**index, "contents": [block_of(page, f"contents-{it}") for it in range(index["blocks"])]}


def without_names(index):
    """The Markdown of a page, without the names of the log and of the program."""
    return index["markdown"].replace(index["version"], "VERSION").replace(index["name"], "NAME")


def is_whole(path):
    """Whether a page was saved, to its end."""
    return path.is_file() and path.read_bytes().endswith(b"</html>\n")


def page_of_program(tests, log):
    target = tests.folder / "of-program.html"
    words = [sys.executable, TOP / "page/lspcheck-page", "--program", tests.program, "--shrink", "0", "-o", target, log]
    subprocess.run(words, check=True, stdout=subprocess.DEVNULL)
    return target.read_bytes()


def pages_are_those_of_lspcheck_page(tests, driver):
    """A page that is made here has the data of the one that lspcheck-page makes."""
    place = tests.folder / "saved"
    place.mkdir(exist_ok=True)
    driver.execute_cdp_cmd("Browser.setDownloadBehavior", {"behavior": "allow", "downloadPath": str(place)})
    page = Dropped(tests.built, driver)
    for number, log in enumerate(tests.logs):
        name = f"{number}.log"
        page.drop({name: log.read_bytes()})
        if page.done(name) != "page":
            continue
        page.click(name, "save the page")
        saved = place / f"{number}.html"
        assert until(lambda: is_whole(saved)), saved
        got, wanted = index_of(saved.read_bytes()), index_of(page_of_program(tests, log))
        got["markdown"], wanted["markdown"] = without_names(got), without_names(wanted)
        for key in sorted({*got, *wanted} - {"version", "name"}):
            tests.note(f"{log.name}: {key}", got.get(key) == wanted.get(key), f"{got.get(key)} for {wanted.get(key)}")
        page.click(name, "Remove")
        saved.unlink()
    tests.note("no faults", not (found := page.faults()), found)


def a_page_is_shown(tests, driver):
    """Below its log, and in a tab of its own."""
    page, name = Dropped(tests.built, driver), EXAMPLES[-1].name
    page.drop({name: EXAMPLES[-1].read_bytes()})
    page.done(name)
    page.click(name, "Show the session")
    driver.switch_to.frame(driver.find_element("css selector", "iframe"))
    tests.note("the session is shown", page.becomes_ready())
    driver.switch_to.default_content()
    page.click(name, "in a tab of its own")
    own = driver.current_window_handle
    assert until(lambda: len(driver.window_handles) == 2)
    driver.switch_to.window(next(it for it in driver.window_handles if it != own))
    tests.note("the session in a tab of its own", page.becomes_ready(), driver.current_url)
    driver.close()
    driver.switch_to.window(own)
    tests.note("no faults", not (found := page.faults()), found)


def commands_are_run(tests, driver):
    page, log = Dropped(tests.built, driver), EXAMPLES[-1]
    page.drop({log.name: log.read_bytes()})
    page.done(log.name)
    for line in LINES:
        page.run(line)
        page.done(log.name)
        words = [it.strip("'") for it in re.findall(r"'[^']*'|\S+", line)]
        status, out, err = tests.answer(log.read_bytes(), *words)
        got = (page.text(log.name, ".quiet"), page.text(log.name, "pre.out"), page.text(log.name, "pre.err") or "")
        shown = [visible(it.decode()) for it in (out, err)]
        wanted = (f"lspcheck {' '.join(words)}: status {status}", *shown)
        tests.note(f"lspcheck {line}", got == wanted, f"{got} for {wanted}")


def other_files_are_told(tests, driver):
    """What is not a log, damaged logs, and names that hide something."""
    page, log = Dropped(tests.built, driver), EXAMPLES[0].read_bytes()
    cases = {"notes.txt": b"hello\n", "empty.log": b"", "cut.log": log[: len(log) // 2], "zip.log": b"PK\x03\x04" * 100,
             "a\u202egol.exe": log}
    page.drop(cases)
    for name, data in cases.items():
        got, wanted = page.judged(visible(name)), due(tests.report(data))
        tests.note(visible(name), got == wanted, f"{got} for {wanted}")


def typing(size):
    """A session in which somebody types, of about this many bytes."""
    start = sessions.WHOLE[: sessions.WHOLE.index(b"textDocument/didOpen")]
    parts = [start[: start.rindex(b"E ")]]

    def add(content):
        framed = sessions.frame(content)
        parts.append(b"E %d\n%s\n" % (len(framed), framed))
        return len(parts[-1])

    add('{"jsonrpc":"2.0","method":"textDocument/didOpen","params":{"textDocument":{"uri":"file:///a","languageId":"x","version":1,"text":""}}}')
    total, version = 0, 1
    while total < size:
        version += 1
        column = (version - 2) % 80
        place = f'{{"line":{(version - 2) // 80},"character":{column}}}'
        text = "\\n" if column == 79 else "x"
        total += add('{"jsonrpc":"2.0","method":"textDocument/didChange","params":{"textDocument":{"uri":"file:///a",'
                     f'"version":{version}}},"contentChanges":[{{"range":{{"start":{place},"end":{place}}},"text":"{text}"}}]}}}}')
    return b"".join(parts)


def a_large_log(tests, driver):
    """Progress, stop, and then its page, which is cut."""
    path, size = tests.folder / "large.log", FEW if tests.few else LARGE
    path.write_bytes(typing(size))
    page = Dropped(tests.built, driver)
    page.choose(path)
    line = "return document.querySelector('.log .quiet')?.textContent ?? ''"
    seen = until(lambda: re.search(r"read [1-9]\d* of \d+ MB", driver.execute_script(line)))
    tests.note("progress", seen)
    page.click(path.name, "Stop")
    tests.note("stopped", page.state(path.name) == "stopped", page.state(path.name))
    begun = time.monotonic()
    page.click(path.name, "Judge again")
    got = page.judged(path.name)
    report = subprocess.run([tests.program, "explain", path], capture_output=True, text=True).stdout.splitlines()
    tests.note("a large log", got == due(report), got)
    print(f"a page of {size // 1_000_000} MB took {time.monotonic() - begun:.0f} s in Chromium", flush=True)
    path.unlink()


TESTS = [
    a_page_opens_from_a_file, logs_are_judged, ten_logs_are_judged, pages_are_those_of_lspcheck_page, a_page_is_shown,
    commands_are_run, other_files_are_told, a_large_log,
]
