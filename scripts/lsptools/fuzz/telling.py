"""The lines that lspcheck-fuzz writes, and the logs of the drifts."""

import json
import os
import sys
import time

from lsptools.base import outputs
from lsptools.base.messages import member, value_of
from lsptools.base.program import Failed
from lsptools.base.script import quoted, write
from lsptools.fuzz.hunt import Hunt
from lsptools.fuzz.schedule import Schedule
from lsptools.servers.children import PROCESSES
from lsptools.servers.report import Report, cut

# How often a terminal is told how far the hunt is, in seconds; and how much of a text a line shows.
EVERY, MOST_SHOWN = 0.5, 60


def shown_text(text):
    """The beginning of a text as JSON, with an escape for what a terminal would obey or hide."""
    found = json.dumps(text[: MOST_SHOWN + 1], ensure_ascii=False)
    found = "".join(it if it.isprintable() else json.dumps(it)[1:-1] for it in found)
    return cut(found, 0, MOST_SHOWN)


def shown_change(change):
    """A change, as `0:2-0:3 "x"`, counted from 0 like in its message."""
    places = [member(change, "range", it) for it in ("start", "end")]
    if None in places:
        return f"whole {shown_text(change['text'])}"
    range = "-".join(f"{it['line']}:{it['character']}" for it in places)
    return f"{range} {shown_text(change['text'])}"


def numbered(path, number):
    """The name of the log of a drift: the first one has the name that was given."""
    stem, ending = os.path.splitext(path)
    return path if number == 1 else f"{stem}-{number}{ending}"


class Telling:
    """Hunts, and tells what it finds."""

    def __init__(self, given):
        self.given, self.report = given, Report(given.json)
        # The hunt, and when it began; the files that were written; when a terminal was told last.
        self.hunting, self.begun, self.files, self.told = None, time.monotonic(), [], 0
        self.is_terminal = sys.stderr is not None and sys.stderr.isatty()

    def hunt(self, target, language, seed, start):
        """Hunts for drifts: the status, which is told, too."""
        try:
            status = self.status_of(target, language, seed, start)
        except Failed as failed:
            self.report.end(failed.status, str(failed))
            raise
        self.report.end(status)
        return status

    def status_of(self, target, language, seed, start):
        schedule = Schedule(seed, self.given.only, self.given.without)
        self.hunting = Hunt(target, language, schedule, start)
        try:
            self.hunting.run(self.given.seconds, self.tell, self.tell_progress)
        except Failed as failed:
            if failed.status == 3 or not self.hunting.found:
                raise
            # What was found stands.
            self.report.line("hunt ended:", json.dumps(str(failed)), why=str(failed))
        self.tell_progress(is_last=True)
        self.tell_sum(seed)
        if not self.hunting.found and not self.hunting.questions:
            raise Failed("nothing was asked: give the hunt more --seconds", 2)
        return 1 if self.hunting.found else 0

    def tell(self, found):
        """Tells a drift, and writes its log."""
        self.tell_progress(is_last=True)
        last = [it for it in found.shown.sent if it.text is not None]
        value = value_of(last[-1].content)
        changes = member(value, "params", "contentChanges") or []
        before = [it.text for it in last[:-1] if it.uri == last[-1].uri][-1:]
        words = [part for text in before for part in ("text", shown_text(text))]
        words += [part for it in changes[:3] for part in ("change", shown_change(it))]
        words += [".."] if len(changes) > 3 else []
        seed = self.hunting.schedule.seed
        counts = {"seed": seed, "session": found.session, "edits": found.edits}
        words += ["right", shown_text(last[-1].text)]
        words += [word for it in counts.items() for word in it]
        self.report.line("drift", f"{found.feature}:", f"{found.cause};", *words, **{
            "feature": found.feature, "causes": list(found.cause.names),
            "text": before[0] if before else None, "method": value["method"], "changes": changes,
            "right": last[-1].text, "messages": found.shown.messages, **counts,
        })
        if self.given.small:
            self.write(found.shown.log, found.shown.messages)

    def write(self, log, messages):
        path = numbered(self.given.small, len(self.files) + 1)
        PROCESSES.unless_over(lambda: write(path, log))
        self.files.append(path)
        self.report.line("small", quoted(path), messages, "messages", file=path, messages=messages)

    def tell_progress(self, is_last=False):
        """Tells a terminal how far the hunt is, and takes that back before a line is written."""
        now = time.monotonic()
        if not self.is_terminal or (not is_last and now < self.told + EVERY):
            return
        hunt, self.told = self.hunting, now
        line = "" if is_last else (
            f"{now - self.begun:.0f} of {self.given.seconds:g} seconds, {hunt.sessions} sessions, "
            f"{hunt.edits} edits, {len(hunt.found)} drifts"
        )
        sys.stderr.write(f"\r\x1b[K{line}")
        sys.stderr.flush()

    def tell_sum(self, seed):
        hunt = self.hunting
        for why in hunt.failures:
            self.report.line("server failed:", json.dumps(why), why=why)
        if hunt.verdict:
            said = json.dumps(hunt.verdict)
            self.report.line("lspcheck says", said, "of the server", verdict=hunt.verdict)
        counts = {"sessions": hunt.sessions, "edits": hunt.edits, "answers": hunt.questions,
                  "unconfirmed": sum(hunt.unconfirmed.values()), "failures": hunt.failed}
        words = [word for it in counts.items() for word in it]
        self.report.line("drifts", len(hunt.found), *words, "seed", seed,
                         drifts=len(hunt.found), **counts, seed=seed)

    def last(self):
        """Writes the log of what was being looked into when a signal ended the hunt."""
        best = self.hunting and self.hunting.best
        if not best or not self.given.small or not PROCESSES.is_over:
            return
        confirming, case = best
        path = numbered(self.given.small, len(self.files) + 1)
        try:
            write(path, confirming.unfinished(case))
            outputs.say(f"lspcheck-fuzz: {quoted(path)} is the smallest session so far, not yet "
                        "shown to a fresh server")
        except Failed as failed:
            outputs.say(f"lspcheck-fuzz: {failed}")
