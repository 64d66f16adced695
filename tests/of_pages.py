"""That the scripts over the pages notice what is broken on purpose: tests/words, tests/links and
tests/guarantees."""

import subprocess
import tempfile
from pathlib import Path

TOP = Path(__file__).resolve().parent.parent


def on_words(words):
    """A page without faults, one with each phrase to avoid, and lines that are too long."""
    clean = "A row | in a line.\n"
    long = "word " * 24 + "\n"
    with tempfile.TemporaryDirectory() as folder:
        page, recorder = Path(folder) / "page.md", Path(folder) / "recorder"

        def is_seen(path, text):
            path.write_text(text)
            return any(True for _ in words.faults_of(path))

        yield "tests/words: nothing is wrong", not is_seen(page, clean)
        for (_, phrase, _), (pattern, _) in zip(words.PHRASES, words.AVOIDED):
            is_found = pattern.search(phrase) is not None
            yield f"tests/words: {phrase}", is_found and is_seen(page, f"{clean}It is {phrase}.\n")
        yield "tests/words: a phrase in a block of code", not is_seen(page, "```\nbehind\n```\n")
        yield "tests/words: a phrase in a script", is_seen(recorder, "    # behind\n")
        yield "tests/words: a long line", is_seen(page, long)
        yield "tests/words: a long row of a table", not is_seen(page, "| " + long)
        for comment in ("// ", "    /// ", "-- "):
            page.write_text(comment + long)
            yield f"tests/words: a long comment {comment.strip()}", any(True for _ in words.long_comments(page))
        page.write_text(f"x = {long}")
        yield "tests/words: a long line of code", not any(True for _ in words.long_comments(page))


def on_words_said_twice(words):
    """Words that two pages share, in a row and otherwise."""
    many, half = [f"word{number}" for number in range(words.SHARED)], words.SHARED // 2
    row, parted = " ".join(many), [" ".join(many[:half]), " ".join(many[half:])]
    with tempfile.TemporaryDirectory() as folder:
        for what, text, name, is_seen in [
            ("in a row", row, "b.md", True),
            ("one less", " ".join(many[1:]), "b.md", False),
            ("over two lines, with a link", f"[{parted[0]}](a.md)\n{parted[1]}", "b.md", True),
            ("in a row of a table", f"| `a` | {row} | `b` |", "b.md", True),
            ("in two paragraphs", "\n\n".join(parted), "b.md", False),
            ("with a command in between", " `a b` ".join(parted), "b.md", False),
            ("in a block of code", f"```\n{row}\n```", "b.md", False),
            ("in a manual page", "\n.B ".join(parted), "b.1", True),
        ]:
            pages = [Path(folder) / "a.md", Path(folder) / name]
            pages[0].write_text(f"{row}\n")
            pages[1].write_text(f"{text}\n")
            found = [bool(places) for places in words.said_twice(pages).values()]
            yield f"tests/words: said twice, {what}", found == [False, is_seen]
        manuals = [Path(folder) / "a.1", Path(folder) / "b.1"]
        for manual in manuals:
            manual.write_text(f"{row}\n")
        yield "tests/words: two manual pages", not any(words.said_twice(manuals).values())


# A page and a manual page without a dead link, and edits that make one.
LINKING = {
    "README.md": "# A\n## One `b`: C\n## One b c\n[a](docs/x.md#b) [b](#one-b-c) [c](#one-b-c-1) [d](http://no/where)\n`[e](no.md)`\n",
    "docs/x.md": "## B\n[a](../README.md)\n",
    "docs/x.1": ".BR x (1),\nand the page docs/x.md\n",
}
DEAD_LINKS = {
    "a file": ("README.md", "docs/x.md", "docs/y.md"),
    "a heading of another page": ("README.md", "x.md#b", "x.md#c"),
    "a heading of its own": ("README.md", "(#one-b-c)", "(#one-b)"),
    "a second heading": ("README.md", "c-1", "c-2"),
    "a page in a manual page": ("docs/x.1", "docs/x.md", "docs/y.md"),
    "a manual page": ("docs/x.1", ".BR x", ".BR y"),
}


def on_links():
    """Pages in which no link is dead, and with one that is."""
    for name, edit in {"nothing is wrong": None, **DEAD_LINKS}.items():
        with tempfile.TemporaryDirectory() as folder:
            (Path(folder) / "docs").mkdir()
            for page, text in LINKING.items():
                (Path(folder) / page).write_text(text.replace(*edit[1:]) if edit and edit[0] == page else text)
            done = subprocess.run([TOP / "tests/links", folder], stdout=subprocess.DEVNULL)
        yield f"tests/links: {name}", (done.returncode != 0) == (edit is not None)


# Edits of what GUARANTEES asks to believe, each a text and its replacement.
DISBELIEVED = {
    "a file is not named": ("`LookBack`, ", ""),
    "a file need not be believed": ("`LookBack`", "`LookBack`, `Shown`"),
    "there are more definitions": ("about 480 definitions", "about 580 definitions"),
    "no call": ("| `run_check` |", "| `run_chek` |"),
    "no clause": ("| `judged`, `verdict` |", "| `judged`, `verdikt` |"),
    "a clause of another call": ("`no`, `none`, `repeats`", "`yes`, `none`, `repeats`"),
    "calls without clauses": ("; `verdict`, `no`, `fault`, `ungiven`", ""),
}


def on_guarantees():
    """The page of guarantees with one thing changed."""
    text = (TOP / "docs/GUARANTEES.md").read_text()
    for name, edit in {"as it is": None, **DISBELIEVED}.items():
        with tempfile.NamedTemporaryFile("w", suffix=".md") as page:
            page.write(text.replace(*edit, 1) if edit else text)
            page.flush()
            done = subprocess.run([TOP / "tests/guarantees", page.name], stdout=subprocess.DEVNULL)
        is_changed = edit is None or edit[0] in text
        yield f"tests/guarantees: {name}", is_changed and (done.returncode != 0) == (edit is not None)


def checks(words):
    """Each check as its name and whether the script noticed; `words` is tests/words as a module."""
    for part in [on_words(words), on_words_said_twice(words), on_links(), on_guarantees()]:
        yield from part
