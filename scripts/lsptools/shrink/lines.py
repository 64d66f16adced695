"""Leaves out lines of a document's texts: of all of them at once, so that they still fit together.

Each line has a number of its own, which it keeps from text to text. The first lines that differ
stay, and so do those that a change begins or ends in. If the texts never were equal, a change may
go, too, but only together with all lines that it touches, and only if none of them differs: what is
left is then the same session without these lines.
"""

import difflib
import itertools
from dataclasses import dataclass, replace

from lsptools.base.contents import at
from lsptools.base.lines import LINE
from lsptools.base.listing import EDITOR
from lsptools.base.program import can_name
from lsptools.shrink.case import CHANGE, OPEN, SAVE
from lsptools.shrink.events import TEXTS, word_of

# If two texts have more lines from the first that differs to the last, these stay, unless they are
# as many in both.
MOST_COMPARED = 2000
# What the lines of all texts may be together.
MOST_LINES = 20_000_000


def lines_of(text):
    """The lines of a text with their ends; the last one has none, and may be empty."""
    lines = LINE.findall(text)
    if not lines or lines[-1].endswith(("\r", "\n")):
        lines.append("")
    return lines


def same_at_start(one, other):
    pairs = itertools.takewhile(lambda it: it[0] == it[1], zip(one, other))
    return sum(1 for _ in pairs)


def common(one, other):
    """How many lines two texts share at their start, and after them at their end."""
    above = same_at_start(one, other)
    below = same_at_start(reversed(one), reversed(other))
    return above, min(below, min(len(one), len(other)) - above)


class Unclear(Exception):
    """The lines can't be told apart: none is left out."""


@dataclass
class Whole:
    """A text: its lines, and their numbers."""

    numbers: list
    lines: list
    # The lines that it changes, if it is that of a change.
    touched: frozenset = frozenset()

    def is_in(self, gone):
        """Whether all lines are gone that it changes."""
        return bool(self.touched) and self.touched <= gone

    def shown(self, gone):
        return "".join(line for number, line in zip(self.numbers, self.lines) if number not in gone)


@dataclass
class Edit:
    """A change with a range: the numbers of the lines before it, those of its own lines, and which
    lines it begins and ends in."""

    before: list
    range: dict
    inserted: Whole
    touched: frozenset

    def is_in(self, gone):
        """Whether all lines are gone that it begins and ends in."""
        return self.touched <= gone

    def shown(self, gone):
        """The change, once these lines are gone."""
        ends = {}
        for name in ("start", "end"):
            place = self.range[name]
            above = sum(map(gone.__contains__, self.before[: place["line"]]))
            ends[name] = {**place, "line": place["line"] - above}
        return {"range": {**self.range, **ends}, "text": self.inserted.shown(gone)}


class Document:
    """The texts of one document in a case, in order."""

    def __init__(self, uri):
        self.uri = uri
        # For each place in the case, the texts and edits that the event there has.
        self.parts = {}
        # For each version, the place of the message that set it, and the numbers of the lines.
        self.versions = {}
        # For each change, the lines that it begins and ends in, and all that it has to do with.
        self.touched = []
        # The lines that stay because they differ, and all that differ.
        self.stay, self.differ = set(), set()
        # For each place of a text that is compared, the lines from the first that differs to the
        # last.
        self.unequal = {}
        # How many lines there are, and how many are kept here for all edits.
        self.count, self.size = 0, 0

    def fresh(self, lines):
        """Numbers for lines that are new."""
        first, self.count = self.count, self.count + len(lines)
        return list(range(first, self.count))

    def aligned(self, place, held, lines):
        """Another text, whose lines get the numbers of those that are held, as far as they are the
        same or are in the same place."""
        one, other = ([it.rstrip("\r\n") for it in of] for of in (held.lines, lines))
        above, below = common(one, other)
        ends = len(one) - below, len(other) - below
        numbers = held.numbers[above : ends[0]]
        inner = self.between(one[above : ends[0]], other[above : ends[1]], numbers)
        self.unequal[place] = {*numbers, *inner}
        return Whole([*held.numbers[:above], *inner, *held.numbers[ends[0] :]], lines)

    def between(self, one, other, numbers):
        """The numbers for lines between the first that differ and the last."""
        if len(one) == len(other):
            return numbers
        found = self.fresh(other)
        if max(len(one), len(other)) > MOST_COMPARED:
            self.stay.update(numbers, found)
            return found
        for block in difflib.SequenceMatcher(None, one, other, False).get_matching_blocks():
            found[block.b : block.b + block.size] = numbers[block.a : block.a + block.size]
        return found

    def changed(self, place, held, text):
        """The whole text that a change sets, after the one that is held, if its lines are known.
        Something of what differs stays."""
        lines = lines_of(text)
        above, below = common(held.lines, lines) if held.lines else (0, 0)
        ends = len(held.numbers) - below, len(lines) - below
        inner = self.fresh(lines[above : ends[1]])
        old = held.numbers[above : ends[0]]
        touched = frozenset((*inner[:1], *old[:1]))
        self.touched.append((place, touched, {*inner, *old}))
        return Whole([*held.numbers[:above], *inner, *held.numbers[ends[0] :]], lines, touched)

    def edit(self, place, numbers, change):
        """A change with a range, and the numbers of the lines after it."""
        self.size += len(numbers)
        if self.size > MOST_LINES:
            raise Unclear()
        start, end = (change["range"][it] for it in ("start", "end"))
        last = len(numbers) - 1
        first, final = (min(it["line"], last) for it in (start, end))
        lines = lines_of(change["text"])
        inner = self.fresh(lines)
        # The line that the change begins in stays the same line, unless all of it comes after.
        is_inside = first < final or start["character"] > 0 or start["line"] > last
        if is_inside or len(lines) == 1:
            inner[0] = numbers[first]
        if len(lines) > 1 and (first < final or not is_inside):
            inner[-1] = numbers[final]
        touched = frozenset((numbers[first], numbers[final], inner[0], inner[-1]))
        self.touched.append((place, touched, {*touched, *inner, *numbers[first : final + 1]}))
        edit = Edit(numbers, change["range"], Whole(inner, lines), touched)
        if final < first:
            return edit, numbers
        return edit, [*numbers[:first], *inner, *numbers[final + 1 :]]

    def loose_parts(self, is_sliced, last):
        """What may go, each part a set of lines. If `is_sliced`, the changes that touch these go,
        too, but not those of the message at the place `last`."""
        groups = joined(lines for _, _, lines in self.touched)
        if is_sliced:
            fixed = self.differ.union(*(lines for place, _, lines in self.touched if place == last))
            loose = [it for it in groups if not it & fixed]
        else:
            loose = []
        grouped = set().union(*loose)
        stay = self.stay.union(*(touched for _, touched, _ in self.touched)) | grouped
        return [*loose, *({it} for it in range(self.count) if it not in stay)]


def joined(sets):
    """The sets, with those as one that share something."""
    group_of = {}
    for one in sets:
        shared = {id(group_of[it]): group_of[it] for it in one if it in group_of}
        group = set(one).union(*shared.values())
        group_of.update(dict.fromkeys(group, group))
    return list({id(it): it for it in group_of.values()}.values())


class Reader:
    """Numbers the lines of a document's texts. What they are after a message, lspcheck says."""

    def __init__(self, judge, case, uri):
        self.judge, self.case, self.document = judge, case, Document(uri)
        self.log = case.log()
        # The numbers of the lines that are held, and the place of the message that set them.
        self.numbers, self.place = [0], None

    def held(self):
        """The text that is held, whose lines must be as many as were counted."""
        lines = lines_of(self.text_after(self.place))
        if len(lines) != len(self.numbers):
            raise Unclear()
        return Whole(self.numbers, lines)

    def text_after(self, place):
        if place is None or not can_name(self.document.uri):
            raise Unclear()
        items = self.case.items
        words = ["explain", "--by-messages"]
        if not items[place].event.rule:
            number = sum(it.event.side == EDITOR for it in items[: place + 1])
            words = ["text", str(number), self.document.uri]
        text = self.judge.text(words, self.log)
        if text is None:
            raise Unclear()
        return text

    def read(self):
        uri = self.document.uri
        # What breaks 209 can't be read, and changes no text.
        items = [it for it in enumerate(self.case.items) if it[1].event.rule != 209]
        for place, item in items:
            if item.is_about(uri, OPEN):
                self.open(place, at(item.value, "params", "textDocument", "text"))
            elif item.is_about(uri, CHANGE):
                self.change(place, at(item.value, "params", "contentChanges"))
            elif item.is_about(uri, SAVE) and "text" in item.value["params"]:
                saved = lines_of(item.value["params"]["text"])
                self.document.parts[place] = [self.document.aligned(place, self.held(), saved)]
        for place, item in items:
            if item.is_snapshot and item.uri == uri:
                self.snapshot(place, item)
        return self.document

    def set(self, place, numbers):
        """Holds these lines after a message, unless that breaks a rule about what is in it."""
        item = self.case.items[place]
        if item.event.rule in (None, *TEXTS):
            self.numbers, self.place = numbers, place
            self.document.versions[item.version] = (place, numbers)

    def open(self, place, text):
        lines = lines_of(text)
        whole = Whole(self.document.fresh(lines), lines)
        self.document.parts[place] = [whole]
        self.set(place, whole.numbers)

    def change(self, place, changes):
        numbers, parts = self.numbers, []
        for which, change in enumerate(changes):
            if change.get("range") is not None:
                part, numbers = self.document.edit(place, numbers, change)
            else:
                # After another change of this message, the lines before it are not known.
                is_known = which == 0 and self.place is not None
                held = self.held() if is_known else Whole(numbers, None)
                part = self.document.changed(place, held, change["text"])
                numbers = part.numbers
            parts.append(part)
        self.document.parts[place] = parts
        self.set(place, numbers)

    def snapshot(self, place, item):
        lines = lines_of(item.content.decode())
        if item.version not in self.document.versions:
            self.document.parts[place] = [Whole(self.document.fresh(lines), lines)]
            return
        self.place, self.numbers = self.document.versions[item.version]
        self.document.parts[place] = [self.document.aligned(place, self.held(), lines)]


def mark_difference(document, case, lines):
    """Marks the first lines that differ, and all that do. Returns whether this document has any."""
    line, event = word_of(lines, r"at (\d+) "), word_of(lines, r"snapshot event (\d+) ")
    place = int(event) - 1 if event else len(case.items) - 1
    if line is None or place not in document.parts:
        return False
    item, line = case.items[place], int(line)
    held = document.versions.get(item.version) if item.is_snapshot else None
    held = (held or max(document.versions.values()))[1]
    other = document.parts[place][-1].numbers
    document.stay.update(held[line : line + 1], other[line : line + 1])
    document.differ.update(document.stay, document.unequal.get(place, ()))
    return True


def changes_without(changes, parts, gone):
    """The changes without these lines. A change goes if all lines do that it begins and ends in."""
    for change, part in zip(changes, parts):
        if not part.is_in(gone):
            shown = part.shown(gone)
            yield {**change, **(shown if isinstance(shown, dict) else {"text": shown})}


def item_without(item, parts, gone):
    """An event without these lines; None if nothing is left of it."""
    if item.is_snapshot:
        return replace(item, content=parts[0].shown(gone).encode())
    params = item.value["params"]
    if item.method == CHANGE:
        changes = list(changes_without(params["contentChanges"], parts, gone))
        if parts and not changes:
            return None
        params = {**params, "contentChanges": changes}
    elif item.method == OPEN:
        document = {**params["textDocument"], "text": parts[0].shown(gone)}
        params = {**params, "textDocument": document}
    else:
        params = {**params, "text": parts[0].shown(gone)}
    return item.with_value({**item.value, "params": params})


def leave_out_lines(judge, case, uri):
    """The case with as few lines of a document as possible."""
    try:
        document = Reader(judge, case, uri).read()
    except (Unclear, LookupError, TypeError, AttributeError):
        # A text that can't be followed stays as it is.
        return case
    differs = mark_difference(document, case, judge.lines)
    is_sliced = differs and not judge.wanted.has_equal
    last = max((it for it in document.parts if case.items[it].method == CHANGE), default=None)
    loose = document.loose_parts(is_sliced, last)

    def of(kept):
        gone = set().union(*loose).difference(*kept)
        return case.edited({
            place: item_without(case.items[place], parts, gone)
            for place, parts in document.parts.items()
        })

    return judge.smallest(loose, of)
