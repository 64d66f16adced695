"""Puts what lspcheck wrote and the events of a log into a page."""

import base64
import hashlib
from pathlib import Path

from lsptools.base.files import MARK
from lsptools.page import blocks, checker, modules
from lsptools.page.reading import Reading
from lsptools.page.smallest import number_of_events
from lsptools.page.wording import plain

HERE = Path(__file__).resolve().parent
# What shows a session, and what judges it again in a page that has the checker. What says that one
# of them failed is there before them.
SCRIPT, OF_CHECKER, FAULT = "main.mjs", "again.mjs", "fault.mjs"


def hash_of(text):
    """A source of the content security policy: only this text may be run, or used as a style."""
    digest = base64.b64encode(hashlib.sha256(text.encode()).digest()).decode()
    return f"'sha256-{digest}'"


def policy_of(script, style, has_checker):
    return "; ".join([
        "default-src 'none'",
        f"script-src {hash_of(script)}{f' {checker.OF_SCRIPTS}' if has_checker else ''}",
        f"style-src {hash_of(style)}",
        "base-uri 'none'",
        "form-action 'none'",
        "require-trusted-types-for 'script'",
        *(checker.POLICY if has_checker else []),
    ])


class Document:
    """The template, written piece by piece: what belongs into it is known one after the other."""

    def __init__(self, file, has_checker=False):
        self.file = file
        style = (HERE / "page.css").read_text(encoding="utf-8")
        code = modules.joined(OF_CHECKER if has_checker else SCRIPT, FAULT)
        fault = modules.joined(FAULT)
        script = f'"use strict";\n{fault}(async () => {{\n{code}}})().catch(sayFault);\n'
        policy = policy_of(script, style, has_checker)
        self.parts = {"POLICY": policy, "STYLE": style, "SCRIPT": script}
        self.pieces = (HERE / "page.html").read_text(encoding="utf-8").split("@")
        self.file.write(MARK)

    def write_until(self, name, **parts):
        """Writes the template up to a part."""
        parts = {**self.parts, **parts}
        while self.pieces:
            text, *self.pieces = self.pieces
            self.file.write(text.encode())
            if not self.pieces:
                return
            part, *self.pieces = self.pieces
            if part == name:
                return
            self.file.write(parts[part].encode())


def write_page(file, runs, given, neighbours=""):
    """Writes the page of a log into a file, with links to other pages. Returns what is known about
    the log."""
    with_checker = checker.Checker() if given.with_checker else None
    reading, log = Reading(runs, given), runs.log
    page = Document(file, given.with_checker)
    name, report = log.name or "standard input", "\n".join(reading.lines)
    parts = {"NAME": name, "REPORT": report, "VERSION": reading.version}
    parts = {key: plain(text) for key, text in parts.items()}
    page.write_until("DATA", NEIGHBOURS=neighbours, **parts)
    level = blocks.level_for(log.size)
    contents = blocks.Contents(file, level)
    reading.read(contents.put)
    index = {**reading.index(), "blocks": contents.end(), "case": None}
    if case := reading.case and reading.case.log():
        blocks.write_block(file, "case", blocks.compressed([case], level))
        index["case"] = {"events": number_of_events(case), "bytes": len(case)}
    pieces = blocks.index_pieces(index, reading.session.rows, reading.listing.violations)
    blocks.write_block(file, "session", blocks.compressed(pieces, level))
    if with_checker:
        with_checker.write(file, log, level)
    page.write_until(None)
    return index
