"""Cuts a case down: fewer steps, then less of the text before them, then less of the change
itself."""

import math
import time
from dataclasses import replace

from lsptools.fuzz.cases import LINE_END, Case, one_by_one, text_before
from lsptools.fuzz.features import SEPARATORS, feature_with
from lsptools.servers.halving import first_of

# How many cases are tried in all.
MOST_TRIED = 250
ENDS = ("\n", "\r\n", "\r")


class Shrinking:
    """The smallest case found so far that still shows what it shows. After the moment `end` no
    other is tried."""

    def __init__(self, case, is_shown, note, end=math.inf, most=MOST_TRIED):
        self.case, self.is_shown, self.note = case, is_shown, note
        self.end, self.left, self.tried = end, most, {case}

    def keep(self, case):
        """Whether a case shows the same; it is then the smallest one."""
        if self.is_over() or case in self.tried or idle_edits(case) > idle_edits(self.case):
            return False
        self.tried.add(case)
        self.left -= 1
        if not self.is_shown(case):
            return False
        self.case = case
        self.note(case)
        return True

    def is_over(self):
        return self.left <= 0 or time.monotonic() > self.end

    def smallest(self):
        while True:
            before = self.case
            self.shorten()
            self.separate_edits()
            self.drop_steps()
            self.drop_document()
            self.simplify_steps()
            for number in range(len(self.case.texts)):
                self.drop_text(number)
            if self.case == before or self.is_over():
                break
        self.plain_characters()
        self.end_lines()
        self.unify_ends()
        return self.case

    def plain_characters(self):
        """Has an x for each character that few texts have, or a form feed for one that may end a
        line, unless it takes the character."""
        typed = [edit.text for step in self.case.steps for edit in step.edits]
        found = dict.fromkeys("".join([*self.case.texts, *typed]))
        self.left = max(self.left, 2 * len(found))
        for it in filter(feature_with, found):
            for plain in ("x", "\f") if it in SEPARATORS else ("x",):
                self.keep(self.case.mapped(lambda text: text.replace(it, plain)))

    def end_lines(self):
        """Ends the last line of each text, as most texts do: unless that is what it takes."""
        self.left = max(self.left, len(self.case.texts))
        for number, text in enumerate(self.case.texts):
            if not text.endswith(("\r", "\n")):
                end = (LINE_END.findall(text) or ["\n"])[-1]
                ended = replace(self.case, texts=put(self.case.texts, number, f"{text}{end}"))
                self.tried.discard(ended)
                self.keep(ended)

    def unify_ends(self):
        """Has lines of one kind, unless it takes several."""
        self.left = max(self.left, len(ENDS))
        if len({end for text in self.case.texts for end in LINE_END.findall(text)}) > 1:
            any(self.keep(self.case.mapped(lambda it: LINE_END.sub(end, it))) for end in ENDS)

    def shorten(self):
        """The fewest last steps, after the right text before them."""
        case, count = self.case, len(self.case.steps)
        if len(case.texts) > 1 or not count or self.keep(tail(case, 1)):
            return
        first_of(0, count, lambda it: it == count or self.keep(tail(case, it)))

    def separate_edits(self):
        """The fewest last edits, each in a message of its own."""
        if self.keep(one_by_one(self.case)):
            self.shorten()

    def drop_steps(self):
        """Runs of steps, the long ones first, from the last on."""
        size = len(self.case.steps)
        while size > 0:
            at = len(self.case.steps) - size
            while at >= 0:
                steps = self.case.steps
                self.keep(replace(self.case, steps=steps[:at] + steps[at + size :]))
                at -= size
            size //= 2

    def drop_document(self):
        """The second document."""
        if len(self.case.texts) > 1:
            steps = tuple(it for it in self.case.steps if it.document == 0)
            self.keep(Case(self.case.texts[:1], steps, self.case.by_change))

    def simplify_steps(self):
        for number in range(len(self.case.steps)):
            for other in simpler_steps(self.case.steps[number]):
                self.keep_step(number, other)
            for place in range(len(self.case.steps[number].edits)):
                self.simplify_edit(number, place)

    def keep_step(self, number, step):
        steps = self.case.steps
        return self.keep(replace(self.case, steps=(*steps[:number], step, *steps[number + 1 :])))

    def simplify_edit(self, number, place):
        """A simpler edit, again and again."""
        is_better = True
        while is_better and place < len(self.case.steps[number].edits):
            step = self.case.steps[number]
            others = simpler_edits(step.edits[place])
            others = (replace(step, edits=put(step.edits, place, it)) for it in others)
            is_better = any(self.keep_step(number, it) for it in others)

    def drop_text(self, number):
        """Lines of a text, then characters, by halves, quarters and so on."""
        for parts_of in (lines_of, list):
            size = len(parts_of(self.case.texts[number])) // 2
            size = max(size, 1)
            while size > 0:
                self.drop_parts(number, parts_of, size)
                size //= 2

    def drop_parts(self, number, parts_of, size):
        at = 0
        while at < len(parts := parts_of(self.case.texts[number])) and not self.is_over():
            start = sum(map(len, parts[:at]))
            end = start + sum(map(len, parts[at : at + size]))
            if not self.keep(without(self.case, number, start, end)):
                at += size


def idle_edits(case):
    """How many edits change nothing: none need be left."""
    edits = (edit for step in case.steps for edit in step.edits)
    return sum(it.start is not None and it.start >= it.end and not it.text for it in edits)


def lines_of(text):
    """The lines of a text, with their line ends."""
    found, start = [], 0
    for end in LINE_END.finditer(text):
        found.append(text[start : end.end()])
        start = end.end()
    return [*found, text[start:]] if text[start:] else found


def tail(case, count):
    """The last steps of a case, after the text before them."""
    at = len(case.steps) - count
    return replace(case, texts=(text_before(case, at),), steps=case.steps[at:])


def put(items, place, item):
    return (*items[:place], item, *items[place + 1 :])


def without(case, number, start, end):
    """A case without a part of the text that a document is opened with."""
    text = case.texts[number]
    texts = put(case.texts, number, text[:start] + text[end:])
    steps = tuple(
        replace(it, edits=tuple(moved(edit, start, end) for edit in it.edits))
        if it.document == number else it for it in case.steps
    )
    return replace(case, texts=texts, steps=steps)


def moved(edit, start, end):
    """An edit of a text of which a part is gone."""
    if edit.start is None:
        return edit
    def place(at):
        return at if at <= start else max(start, at - (end - start))

    return replace(edit, start=place(edit.start), end=place(edit.end))


def simpler_steps(step):
    """The steps that may show the same, and say less."""
    for name, value in (("skipped", 0), ("is_asked", False)):
        if getattr(step, name):
            yield replace(step, **{name: value})
    for place in range(len(step.edits)) if len(step.edits) > 1 else ():
        yield replace(step, edits=step.edits[:place] + step.edits[place + 1 :])
    if step.reopened:
        half = len(step.reopened) // 2
        texts = ("", step.reopened[:half], step.reopened[half:])
        yield from (replace(step, reopened=it) for it in texts)


def simpler_edits(edit):
    """The edits that may show the same, and say less: the shortest first."""
    for name, value in (("has_length", False), ("past", 0), ("lines", 0)):
        if getattr(edit, name):
            yield replace(edit, **{name: value})
    if edit.past > 1:
        yield replace(edit, past=1)
    if edit.lines > 1:
        yield replace(edit, lines=1)
    if edit.start is not None and edit.end > edit.start:
        yield replace(edit, end=edit.start)
        middle = (edit.start + edit.end) // 2
        yield from (replace(edit, **it) for it in ({"end": middle}, {"start": middle})
                    if middle not in (edit.start, edit.end))
        yield replace(edit, start=edit.end)
    half = len(edit.text) // 2
    texts = ("", "x", edit.text[:half], edit.text[half:])
    shorter = [it for it in texts if len(it) < len(edit.text)]
    others = ["x"] if len(edit.text) == 1 and edit.text != "x" else []
    yield from (replace(edit, text=it) for it in (*shorter, *others))
