"""A folder with a page for each of several logs, and an index of them, which needs no script."""

import os
import re
from collections import Counter
from pathlib import Path

from lsptools.base.files import MARK, new_file
from lsptools.base.program import Failed
from lsptools.base.script import quoted
from lsptools.page.document import hash_of
from lsptools.page.wording import counted, cut, plain, sentence_of, short_name, visible

HERE = Path(__file__).resolve().parent
INDEX = "index.html"
# How much of a name is in that of a page; how much of a text is in the index, and of who took part.
LONGEST_STEM, LONGEST, LONGEST_NAME = 100, 300, 100
# What the index may do: use its own style.
POLICY = "default-src 'none'; style-src {}; base-uri 'none'; form-action 'none'"
# What is left out of the names of pages, which a shell and a browser then take for names of files.
OTHERS = re.compile(r"[^A-Za-z0-9._-]+")

HEADS = ["Log", "Verdict", "What", "Editor", "Server", "Events", "Bytes"]
VERDICTS = {"yes": "Yes", "no": "No", "bad log": "Bad log", "failed": "Not read"}
KINDS = {"yes": "yes", "no": "no", "bad log": "bad", "failed": "failed"}


def stem_of(given):
    """What the name of a page begins with: the log's own, as far as that is harmless."""
    name = "standard-input" if given == "-" else os.path.basename(given).removesuffix(".log")
    return OTHERS.sub("-", name).strip(".-")[:LONGEST_STEM].rstrip(".-") or "log"


def names_of(logs):
    """A name for the page of each log. No two are the same, also where case makes no difference."""
    used, numbers, names = {"index"}, Counter(), []
    for log in logs:
        stem = name = stem_of(log)
        while name.lower() in used:
            numbers[stem.lower()] += 1
            name = f"{stem}-{numbers[stem.lower()] + 1}"
        used.add(name.lower())
        names.append(f"{name}.html")
    return names


def shown_name(given):
    return "standard input" if given == "-" else visible(given)


def what_of(index):
    """The sentence of a log. If it keeps every rule, how many notes there are."""
    said, notes = index["said"], index["notes"]
    if said[0]["is"] != "yes":
        return sentence_of(said) or said[0]["text"]
    if any(it["note"] == "nothing-compared" for it in notes):
        return "no snapshot was compared"
    return counted(len(notes), "note") if notes else ""


def summary_of(index):
    """What the index says about a log, of which there is a page."""
    verdict = index["said"][0]
    return {
        "verdict": verdict["is"],
        "rule": verdict.get("rule") or verdict.get("code"),
        "what": cut(what_of(index), LONGEST),
        "notes": len(index["notes"]),
        "editor": short_name(index["client"]),
        "server": short_name(index["server"]),
        "events": index["events"],
        "bytes": index["bytes"],
    }


def verdict_of(told):
    """The verdict in words."""
    kind = told.get("verdict", "failed")
    return f"{VERDICTS[kind]} {told.get('rule') or ''}".rstrip()


def totals(verdicts):
    """How many logs there are, and how many of each verdict."""
    words = {"no": "no", "bad log": "bad log", "failed": "not read", "yes": "yes"}
    found = [f"{verdicts[kind]:,} {word}" for kind, word in words.items() if verdicts[kind]]
    return f"{counted(sum(verdicts.values()), 'log')}: {', '.join(found)}"


def link(name, text, rel=""):
    rel = f' rel="{rel}"' if rel else ""
    return f'<a{rel} href="{name}"><bdi>{plain(text)}</bdi></a>'


def neighbours(logs, names, number):
    """Links to the index and to the pages before and after that of a log."""
    links = [link(INDEX, "All logs")]
    for other, rel, sign in ((number - 1, "prev", "‹ {}"), (number + 1, "next", "{} ›")):
        if 0 <= other < len(logs):
            text = sign.format(cut(shown_name(logs[other]), LONGEST))
            links.append(link(names[other], text, rel))
    lines = ['<nav class="neighbours" aria-label="Other logs">', *links, "</nav>", ""]
    return "\n".join(lines)


def cell(text, classes=""):
    classes = f' class="{classes}"' if classes else ""
    shown = f"<bdi>{plain(visible(cut(text, LONGEST)))}</bdi>" if text else ""
    return f"<td{classes}>{shown}</td>"


def row_of(given, name, told):
    """The row of a log in the index."""
    kind = told.get("verdict", "failed")
    numbers = [f"{told[it]:,}" if it in told else "" for it in ("events", "bytes")]
    return "".join([
        f'<tr class="{KINDS[kind]}">',
        f'<th scope="row">{link(name, cut(shown_name(given), LONGEST))}</th>',
        cell(verdict_of(told), "verdict"),
        cell(told.get("what", told.get("failed", ""))),
        *(cell(cut(told.get(it) or "", LONGEST_NAME)) for it in ("editor", "server")),
        *(cell(it, "number") for it in numbers),
        "</tr>\n",
    ])


class Folder:
    """The folder, whose files are replaced only if they are pages."""

    def __init__(self, path, logs):
        self.path, self.logs, self.names = path, logs, names_of(logs)
        try:
            os.makedirs(path, mode=0o700, exist_ok=True)
            for name in [INDEX, *self.names]:
                self.check(name)
        except OSError as error:
            raise Failed(f"{quoted(path)}: {error.strerror}", 3) from error

    def check(self, name):
        """Fails if there is a file of this name that is not to be replaced."""
        path = os.path.join(self.path, name)
        if not os.path.lexists(path):
            return
        is_page = os.path.isfile(path) and not os.path.islink(path)
        if is_page:
            with open(path, "rb") as file:
                is_page = file.read(len(MARK)) == MARK
        if not is_page:
            raise Failed(f"{quoted(path)} exists and is not a page of this command", 3)

    def new(self, number):
        """The file of the page of a log."""
        path = os.path.join(self.path, self.names[number])
        return new_file(path, path)

    def neighbours(self, number):
        return neighbours(self.logs, self.names, number)

    def write(self, path, title, body, links=""):
        """Writes a page without a script, whose body comes in pieces."""
        style = (HERE / "index.css").read_text(encoding="utf-8")
        parts = {"POLICY": POLICY.format(hash_of(style)), "TITLE": plain(title), "STYLE": style}
        parts["NEIGHBOURS"] = links
        pieces = (HERE / "index.html").read_text(encoding="utf-8").split("@")
        with new_file(path, path) as file:
            file.write(MARK)
            for at, it in enumerate(pieces):
                if it == "BODY" and at % 2:
                    for piece in body:
                        file.write(piece.encode())
                else:
                    file.write((parts[it] if at % 2 else it).encode())

    def write_failed(self, number, told):
        """Writes a page that says why there is none, so that no link leads nowhere."""
        title = f"No page of {cut(shown_name(self.logs[number]), LONGEST)}"
        body = f"<p><bdi>{plain(visible(told['failed']))}</bdi></p>\n"
        path = os.path.join(self.path, self.names[number])
        self.write(path, title, [body], self.neighbours(number))

    def write_index(self, verdicts, get, version):
        """Writes the index; `get` gives what was told about a log. Returns its path."""
        def body():
            heads = "".join(f'<th scope="col">{it}</th>' for it in HEADS)
            yield f"<table>\n<thead><tr>{heads}</tr></thead>\n<tbody>\n"
            for number, (given, name) in enumerate(zip(self.logs, self.names)):
                yield row_of(given, name, get(number))
            yield f'</tbody>\n</table>\n<p class="quiet">Written by {plain(version)}.</p>\n'

        path = os.path.join(self.path, INDEX)
        self.write(path, totals(verdicts), body())
        return path
