"""Reads a log for a page: what lspcheck says about it, and its events."""

from lsptools.base.listing import KINDS, Listing, explained
from lsptools.base.program import Failed, can_name, version_of
from lsptools.base.report_lines import Report
from lsptools.page import cuts, rules
from lsptools.page.in_markdown import markdown_of
from lsptools.page.session import MOST_EXPLAINED, Session, read_session
from lsptools.page.smallest import case_of, smallest_of, start_smallest

MOST_OF_EXIT = 2_000
# How many violations are listed in any page; in one with more events, each that it shows is.
LISTED_ALWAYS = 10_000
# The rules of a position in a change, which the line before that change explains.
OF_POSITIONS = (605, 606)


def texts_of(runs, verdict):
    """Both texts of the verdict, if it is that two texts differ."""
    if verdict.get("rule") not in (608, 702):
        return None
    options = {"messages": "--by-messages", "editor": "--in-editor"}
    started = {name: runs.start("explain", option) for name, option in options.items()}
    return {name: run.text() for name, run in started.items()}


def text_before(runs, said):
    """The text of a document before the message of which a position is wrong, or None."""
    verdict = said[0]
    uri = next((it["uri"] for it in said if it["is"] == "uri"), None)
    if verdict.get("rule") not in OF_POSITIONS or uri is None or not can_name(uri):
        return None
    run = runs.start("text", "--all", str(verdict["number"] - 1), uri)
    return run.text() if run.wait() == 0 else None


def exit_of(log):
    """The lines of the file next to the log that says how the server ended, if there is one."""
    try:
        with open(f"{log.without_end()}.exit", encoding="utf-8", errors="replace") as file:
            return file.read(MOST_OF_EXIT).splitlines()
    except OSError:
        return []


def only_first(listing, said):
    """Leaves out all violations but the first, and the notes on what is elsewhere in the log."""
    listing.notes.clear()
    listing.unlisted += len(listing.violations[1:])
    del listing.violations[1:]
    said[:] = [it for it in said if it["is"] not in ("note", "notes")]


def words_of_reports():
    """What makes the lines of a report from its objects."""
    try:
        return Report()
    except OSError as error:
        raise Failed(f"there is no {error.filename}: this command is not installed completely"
                     ) from error


def report_of(runs):
    """The objects of `explain`."""
    said = list(runs.start("explain", "--json").objects())
    if not said:
        raise Failed("lspcheck explain: it wrote nothing")
    if said[0]["is"] == "bad log" and said[0].get("code") == "L1":
        raise Failed(f"{runs.log.shown}: not a log: its first line is not that of a log", 2)
    return said


class Reading:
    """What a page says about a log."""

    def __init__(self, runs, given):
        self.runs, self.log, self.given = runs, runs.log, given
        self.version, self.report = version_of(runs.program.path), words_of_reports()
        # All at once: a program compiled with checks takes a second for each megabyte.
        listed = runs.start("show", "--all", "--long", "--json")
        self.all_explained = runs.start("explain", "--all", "--notes", "--json")
        self.said = report_of(runs)
        self.texts = texts_of(runs, self.said[0])
        self.smallest = start_smallest(runs) if given.small else None
        self.listing = Listing(listed.objects(), 2 * given.most_events + LISTED_ALWAYS)
        self.shown, self.choice = self.listing, cuts.Everything()
        self.case = None
        if cuts.is_short(runs, listed, given):
            self.case = case_of(runs, self.said[0], given.shrink)
        else:
            self.complete(self.listing.read())
            self.shown = Listing(listed.objects())
            self.choice = cuts.choice_of(runs, listed, self.listing, given)
        if given.small:
            only_first(self.listing, self.said)
            self.texts = self.texts and cuts.around_difference(self.texts)
        self.lines = self.report.lines(self.said)

    def complete(self, listing):
        """Adds what `explain --all --notes` says to the violations that it explains, after all were
        listed, and its notes."""
        if not listing.ending:
            raise Failed("lspcheck show: what it wrote has no end")
        found, listing.notes = explained(self.all_explained.objects(), MOST_EXPLAINED)
        for violation in listing.violations:
            objects = found.get((violation.rule, violation.event, violation.who), [])
            violation.facts, violation.lines = objects[1:], self.report.lines(objects)

    def read(self, put):
        """Reads the events. Each content of one that is shown is put where it is kept."""
        wanted = {it["event"] for it in self.said if it["is"] in ("no", "suspect")}
        self.session = Session(put, wanted)
        self.format = read_session(
            self.log, self.shown, self.choice, self.session, self.runs.progress)
        if self.shown is self.listing:
            self.complete(self.listing)
        self.log.check_unchanged()

    def index(self):
        """All that the page knows about the log, but for its rows and violations."""
        index = {
            **self.of_log(),
            **self.of_session(),
            "left": cuts.left_out(self.runs, self.listing, self.choice, self.session, self.given),
            "small": self.given.small,
            "smallest": self.smallest and smallest_of(self.smallest),
            "texts": self.texts,
        }
        before = text_before(self.runs, self.said)
        index["markdown"] = markdown_of(index, self.report.lines, self.session.kept, before)
        return index

    def of_log(self):
        listing, log = self.listing, self.log
        named = {str(it.rule) for it in listing.violations} | {self.said[0].get("code")}
        return {
            "name": log.name,
            "bytes": log.size,
            "exit": exit_of(log),
            "said": self.said,
            "ending": listing.ending,
            "notes": listing.notes,
            "kinds": KINDS,
            "events": listing.events,
            "sides": listing.sides,
            "unlisted": listing.unlisted,
            "rules": {key: rule for key, rule in rules.rules().items() if key in named},
            "format": self.format,
            "version": self.version,
            "report": self.lines,
        }

    def of_session(self):
        session = self.session
        return {
            "named": len(session.named),
            "agreed": session.agreed,
            "encoding": session.encoding,
            "sync": session.sync,
            "client": session.client,
            "server": session.server,
            "methods": list(session.methods.numbers),
            "documents": list(session.documents.numbers),
        }
