"""The documents of a page: their versions, what differs between two of them, and commands for them."""

import re
import subprocess

import logs
from data import EXAMPLES, output, written
from expected import READ, TEXTS, Expected, version_label
from truth import check_comparison


def shows_documents(page, program, log):
    """The chips of each document: its versions and snapshots in order, and how many are left out."""
    wanted = Expected(program, log)
    page.open()
    parts = page.run(READ + """return [...document.querySelectorAll('.document')].map((it) => [
        plain(it.querySelector('.uri .shown-text')), [...it.querySelectorAll('.chips > *')].map((chip) =>
        [plain(chip), chip.getAttribute('href')])])""")
    assert parts
    for uri, chips in parts:
        events = [it for it in wanted.events.values() if it.get("uri") == uri]
        named = [it for it in events if it["kind"] == "snapshot" or
                 re.search("/did(Open|Change|Close|Save)$", it.get("method", ""))]
        at = 0
        for label, link in chips:
            if link is None:
                at += int(re.fullmatch(r"… ([\d,]+) …", label)[1].replace(",", ""))
                continue
            event = named[at]
            assert link == f"#event-{event['event']}", (link, event)
            if "version" in event:
                snapshot = f"▣ {event['version']}"
                short = {"didOpen": "open ", "didClose": "close", "didSave": "save"}
                name = event.get("method", "").rpartition("/")[2]
                assert label == (snapshot if event["kind"] == "snapshot" else f"{short.get(name, '')}{event['version']}"), (label, event)
            at += 1
        assert at == len(named), (at, len(named), uri)


def compares_versions(page, program, log):
    """Two versions of a document: the texts that `text` writes, or that of a snapshot."""
    wanted = Expected(program, log)
    found = next(iter(it["uri"] for it in wanted.events.values() if it.get("method") == TEXTS[0]))
    versions = [it for it in wanted.versions(found) if "rule" not in it and it.get("method") != TEXTS[2]]
    page.open()
    page.run("[...document.querySelectorAll('.document .folded')].forEach((it) => { it.open = true; })")
    page.wait("return document.querySelector('.document .versions') !== null")
    labels = page.run("return [...document.querySelector('.version-choice').options].map((it) => it.text)")
    assert labels == [version_label(it) for it in wanted.versions(found)], labels
    chosen = page.run("return [...document.querySelectorAll('.document .version-choice')].slice(0, 2).map((it) => it.value)")
    assert chosen == labels[-2:], (chosen, labels[-2:])
    for one, other in ((versions[0], versions[-1]), (versions[-1], versions[-2])):
        for at, event in enumerate((one, other)):
            choice = page.all(".document .version-choice")[at]
            page.run("arguments[0].selectedIndex = arguments[1]; arguments[0].dispatchEvent(new Event('change'))",
                     choice, labels.index(version_label(event)))
        texts = []
        for event in (one, other):
            words = ("event", event["event"]) if event["kind"] == "snapshot" else ("text", "--all", event["number"], found)
            texts.append(output(program, *words, log).decode())
        if texts[0] != texts[1]:
            check_comparison(page, ".document .version-result", *texts)
        else:
            assert "Both texts are equal" in page.text(".version-result"), (one, other, page.text(".version-result"))


def shows_commands_that_work(page, program, log, folder):
    """What is shown to be copied into a shell writes what the page says, and does nothing else."""
    wanted = Expected(program, log)
    (folder / "bin").mkdir(exist_ok=True)
    link = folder / "bin/lspcheck"
    if not link.exists():
        link.symlink_to(program)
    before = sorted(it.name for it in log.parent.iterdir())
    tried = 0
    for event in wanted.events.values():
        if "uri" not in event or event["kind"] == "snapshot" and tried > 8 or tried > 20:
            continue
        page.open(link=f"#event-{event['event']}")
        if not page.run("const it = [...document.querySelectorAll('.selected .folded')].find((it) => "
                        "it.innerText.startsWith('The text after')); if (it) it.open = true; return !!it"):
            continue
        page.wait("return document.querySelector('.selected .folded .quiet') !== null")
        command = page.text(".selected .command")
        shown = page.run(READ + "return plain(document.querySelector('.selected .folded .document-text'))")
        if command is None or shown is None:
            continue
        search = {"PATH": f"{folder}/bin:/usr/bin:/bin"}
        done = subprocess.run(
            ["bash", "-c", command], cwd=log.parent, env=search, stdin=subprocess.DEVNULL, capture_output=True
        )
        assert done.returncode == 0 and done.stdout.decode() == shown, (command, done, shown)
        tried += 1
    assert tried, "no command was tried"
    assert sorted(it.name for it in log.parent.iterdir()) == before


def tests_of(window, program, place):
    telling = [EXAMPLES[1], EXAMPLES[-1], written(place, "e differs.log", logs.differs())]
    for log in telling:
        for test in (shows_documents, compares_versions):
            yield f"{test.__name__} {log.name}", lambda test=test, page=window(log), log=log: test(page, program, log)
    folder = place / "shell"
    folder.mkdir()
    odd = folder / "-it's; touch x\x1b.log"
    odd.write_bytes(logs.unquoted())
    page = window(odd)
    yield "shows_commands_that_work", lambda: shows_commands_that_work(page, program, odd, place)
