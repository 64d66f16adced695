"""Which events of a log the page shows: all, those around the violations of a long log, or only the
first violation with what led to it."""

import bisect

from lsptools.base.contents import key_of
from lsptools.base.lines import LINE
from lsptools.base.listing import EDITOR, SNAPSHOT, Listing
from lsptools.base.program import can_name

MOST_EVENTS, MOST_BYTES = 20_000, 50_000_000
# The first events of a session, which agree on the encoding and open documents, are always shown.
HEAD = 40
# How many texts lspcheck is asked for, so that the page can make those after a gap.
MOST_CHECKPOINTS = 12
# In a small page, a longer content is left out, whatever it is.
MOST_OF_SMALL = 20_000
SAID_SMALL = ("the first violation, the events that explain it, and the handshake. It has no whole "
              "text of a document")
# In a small page, how many lines around what differs remain of both texts.
LINES_AROUND = 3

TEXTS = ("textDocument/didOpen", "textDocument/didSave")
CHANGE = "textDocument/didChange"


class Everything:
    """The choice for a log that is not too long."""

    def is_shown(self, event):
        return True

    def is_whole(self, event, content):
        return True


def union(spans):
    """The spans of events, in order, with those that touch as one."""
    joined = []
    for first, last in sorted(spans):
        if joined and first <= joined[-1][1] + 1:
            joined[-1][1] = max(joined[-1][1], last)
        else:
            joined.append([first, last])
    return joined


def spans_around(centres, radius, single, events):
    """The spans of the events that are at most this far from a centre, of the head, and of some."""
    spans = [(max(it - radius, 1), min(it + radius, events)) for it in centres]
    spans += [(it, it) for it in single] + [(1, min(HEAD, events))]
    return union(spans)


def size_of(spans):
    return sum(last - first + 1 for first, last in spans)


def events_of(violations):
    """The events that the explanations of violations name."""
    facts = [it for one in violations for it in one.facts]
    return {it["event"] for it in facts if "event" in it and it["is"] != "end"}


class Spans:
    """A choice of some spans of events."""

    def __init__(self, spans, events):
        self.spans, self.events = spans, events
        self.starts = [first for first, _ in spans]
        # The number of the editor's last message before each span.
        self.editor, self.before = 0, {}
        self.unwhole = 0

    def is_shown(self, event):
        place = bisect.bisect_right(self.starts, event.event) - 1
        if place >= 0 and self.starts[place] == event.event:
            self.before[event.event] = self.editor
        if event.side == EDITOR:
            self.editor = event.number
        return place >= 0 and event.event <= self.spans[place][1]

    def gaps(self):
        """What is left out, each gap with the number of the editor's last message up to its end."""
        ends = [0, *(last for _, last in self.spans)]
        starts = [*self.starts, self.events + 1]
        return [
            {"from": end + 1, "to": start - 1, "editor": self.before.get(start, self.editor)}
            for end, start in zip(ends, starts)
            if end + 1 < start
        ]


class Around(Spans):
    """The choice for a long log: the events around its violations, as many as the page may hold."""

    def __init__(self, listing, size, most_events, most_bytes):
        events = listing.events
        most = max(min(most_events, most_bytes * events // max(size, 1)), 4)
        explained = listing.violations[: most // 4]
        centres = [min(it.event, events) for it in explained] or [1, events]
        self.single = set(sorted(events_of(explained))[: most // 4]) | set(centres)
        low, high = 0, events
        while low < high:
            middle = (low + high + 1) // 2
            if size_of(spans_around(centres, middle, self.single, events)) <= most:
                low = middle
            else:
                high = middle - 1
        super().__init__(spans_around(centres, low, self.single, events), events)
        self.most_bytes, self.bytes = most_bytes, 0
        self.where = "around the violations" if explained else "at the beginning and the end"

    def is_whole(self, event, content):
        """Whether the content of an event that is shown is in the page too."""
        size = len(content)
        most = self.most_bytes if event.event in self.single else self.most_bytes // 50
        if size > most or self.bytes + size > 2 * self.most_bytes:
            self.unwhole += 1
            return False
        self.bytes += size
        return True


class Small(Spans):
    """The choice for a page that gives away little: the first violation, the events that its
    explanation names, and the two of the handshake. Of these it has no whole text of a document."""

    def __init__(self, listing, handshake):
        first = listing.violations[:1]
        self.named = events_of(first) | {it.event for it in first}
        chosen = [it for it in self.named | handshake if 1 <= it <= listing.events]
        super().__init__(union((it, it) for it in chosen), listing.events)

    def is_whole(self, event, content):
        has_text = event.side == SNAPSHOT or event.method in TEXTS
        has_text = has_text or event.method == CHANGE and b'"range"' not in content
        is_named = event.event in self.named and event.method != "initialize"
        is_whole = is_named and not has_text and len(content) <= MOST_OF_SMALL
        self.unwhole += not is_whole
        return is_whole


def handshake_of(listing):
    """The events of the first `initialize` and of its answer."""
    asked = None
    for event in listing:
        if event.rule:
            continue
        if asked is None and event.method == "initialize" and event.kind == "request":
            asked = event
        elif asked and event.side != asked.side and event.kind in ("result", "error"):
            if key_of(event.id) == key_of(asked.id):
                return {asked.event, event.event}
    return {asked.event} if asked else set()


def checkpoints_of(runs, choice, session, first_violation):
    """The texts of the documents that are changed after a gap, for the spans that matter most."""
    columns = [session.rows.numbers[name] for name in ("event", "side", "document")]
    changed = [(event, document) for event, side, document in zip(*columns) if side == EDITOR]
    needed = set()
    for event, document in changed:
        first, last = choice.spans[bisect.bisect_right(choice.starts, event) - 1]
        if first > 1 and document >= 0:
            needed.add((not first <= first_violation <= last, first, document))
    uris = list(session.documents.numbers)
    found = [it for it in sorted(needed) if can_name(uris[it[2]])][:MOST_CHECKPOINTS]
    started = [
        (first, document, choice.before[first] and runs.start(
            "text", "--all", str(choice.before[first]), uris[document]))
        for _, first, document in found
    ]
    return [
        {
            "to": first - 1,
            "document": document,
            # The text, or null if the document is not open.
            "text": run.text() if run and run.wait() == 0 else None,
        }
        for first, document, run in started
    ]


def said_about(choice, events, shown):
    """What the page says about what it leaves out."""
    which = "those " + choice.where if isinstance(choice, Around) else SAID_SMALL
    said = [f"The log has {events:,} events. This page shows {shown:,}: {which}."]
    if choice.unwhole:
        said.append(f"It leaves out {choice.unwhole:,} contents.")
    return said


def is_short(runs, listed, given):
    """Whether the page surely shows a whole log: lspcheck writes a line for each event."""
    is_small = runs.log.size <= given.most_bytes and listed.count() <= given.most_events
    return is_small and not given.small


def choice_of(runs, listed, listing, given):
    """Which events are shown, as the command line says."""
    if given.small:
        return Small(listing, handshake_of(Listing(listed.objects())))
    if listing.events <= given.most_events and runs.log.size <= given.most_bytes:
        return Everything()
    return Around(listing, runs.log.size, given.most_events, given.most_bytes)


def left_out(runs, listing, choice, session, given):
    """What is left out, if anything."""
    if isinstance(choice, Everything):
        return None
    first = listing.violations[0].event if listing.violations else 0
    return {
        "gaps": choice.gaps(),
        "checkpoints": [] if given.small else checkpoints_of(runs, choice, session, first),
        "said": said_about(choice, listing.events, len(session.rows)),
    }


def around_difference(texts):
    """Both texts, of which only the lines around what differs remain: how many lines were before
    them and after them, too."""
    lines = {name: LINE.findall(text) for name, text in texts.items()}
    one, other = lines.values()
    most = min(len(one), len(other))
    before = next((at for at in range(most) if one[at] != other[at]), most)
    most -= before
    after = next((at for at in range(most) if one[-1 - at] != other[-1 - at]), most)
    before, after = max(before - LINES_AROUND, 0), max(after - LINES_AROUND, 0)
    found = {name: "".join(it[before : len(it) - after]) for name, it in lines.items()}
    return {**found, "before": before, "after": after}
