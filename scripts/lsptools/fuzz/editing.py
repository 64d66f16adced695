"""An editor that makes random edits, of the features that it is given."""

import random

from lsptools.fuzz.cases import LINE_END, Case, Edit, Step, outside_of_line_end
from lsptools.fuzz.features import ASTRAL, COMBINING, SEPARATORS, feature_with

WORDS = ["x", "ab", "a1", "name", "z_9", "f(x)", "(", ")", "{ }", '"s"', "// c", "# c", "1 + 2"]
WORDS += [" ", "  ", "\t", ";"]
# How long a long line is, how many lines a text begins with, and how many steps a session has.
LONG_LINES = (*[300] * 6, *[1100] * 6, *[5000] * 3, 70_000)
LINES, STEPS, BURST = (3, 9), (4, 20), (40, 120)
# The size from which on a text only shrinks.
LARGE = 1500


class Texts:
    """Random texts of some features."""

    def __init__(self, chance, features, form):
        self.chance, self.features, self.form = chance, features, form
        others = [(ASTRAL, "astral"), (COMBINING, "combining"), (list(SEPARATORS), "separators")]
        self.others = [words for words, name in others if name in features]
        self.ends = ends_of(chance, features)

    def end(self):
        return self.chance.choice(self.ends)

    def word(self):
        """What is typed at once, without a line end."""
        if self.others and self.chance.random() < 0.5:
            return self.chance.choice(self.chance.choice(self.others))
        return self.chance.choice(WORDS)

    def words(self):
        """What an edit puts into a text."""
        found = [self.end() if self.chance.random() < 0.2 else self.word()
                 for _ in range(self.chance.choice((1, 1, 1, 2, 3)))]
        return "".join(found)

    def line(self, number):
        """A declaration, or something else."""
        inner = "".join(self.word() for _ in range(self.chance.randrange(4)))
        if self.chance.random() < 0.5:
            return f"{self.form.before}v{number}{self.form.after} {inner}"
        return inner

    def text(self):
        """A whole text."""
        lines = [self.line(it) for it in range(self.chance.randint(*LINES))]
        if "long" in self.features:
            at = self.chance.randrange(len(lines))
            lines[at] = (self.word() + " y").ljust(3) * (self.chance.choice(LONG_LINES) // 3)
        return self.ended(lines)

    def given(self, text):
        """A text of the user, with the line ends of these features, and an x for each character
        that only other features have."""
        lines = LINE_END.split(text)
        return self.ended(map(self.allowed, lines if lines[-1] else lines[:-1]))

    def allowed(self, line):
        kinds = {None, *self.features}
        return "".join(it if feature_with(it) in kinds else "x" for it in line)

    def ended(self, lines):
        """Lines with their ends; perhaps the last one has none."""
        text = "".join(line + self.end() for line in lines)
        is_open = "no-last-end" in self.features and self.chance.random() < 0.7
        return text.rstrip("\r\n") if is_open else text


def ends_of(chance, features):
    """The line ends of a session."""
    kinds = [end for end, name in (("\r\n", "crlf"), ("\r", "cr")) if name in features]
    if "mixed" in features:
        return ["\n", "\r\n", *kinds]
    return [chance.choice(kinds)] if kinds else ["\n"]


class CaseGenerator:
    """Makes a random session. The same seed and features give the same."""

    def __init__(self, seed, features, form, start=None, has_ranges=True):
        self.chance, self.features = random.Random(seed), features
        self.made = Texts(self.chance, features, form)
        self.start, self.has_ranges = start, has_ranges
        # The edits that can be undone, and those that were, of the first document.
        self.done, self.undone = [], []

    def has(self, feature, probability=1.0):
        return feature in self.features and self.chance.random() < probability

    def text(self):
        """The text that a document begins with."""
        return self.made.text() if self.start is None else self.made.given(self.start)

    def case(self):
        texts = [self.text() for _ in range(2 if "two" in self.features else 1)]
        now, steps = list(texts), []
        for _ in range(self.chance.randint(*(BURST if "bursts" in self.features else STEPS))):
            document = self.chance.randrange(len(now))
            step = self.step(document, now[document])
            if step is None:
                continue
            now[document] = after(step, now[document])
            steps.append(step)
        return Case(tuple(texts), tuple(steps))

    def step(self, document, text):
        """A step in a document with this text."""
        if self.has("reopening", 0.2):
            return Step(document, reopened=self.chance.choice((text, self.made.text())))
        edits = self.edits(document, text)
        skipped = self.chance.randrange(1, 9) if self.has("versions", 0.4) else 0
        is_asked = self.has("requests", 0.5)
        return Step(document, tuple(edits), None, skipped, is_asked) if edits else None

    def edits(self, document, text):
        if document == 0 and self.has("undo", 0.4):
            return self.undo_or_redo()
        count = self.chance.choice((2, 2, 3, 5)) if self.has("several", 0.6) else 1
        found = []
        for _ in range(count):
            edit = self.edit(text)
            if edit is None:
                continue
            found.append(edit)
            if document == 0:
                self.done, self.undone = [*self.done, inverse(edit, text)], []
            text = edit.applied(text)
        return found

    def undo_or_redo(self):
        """Takes back an edit, or what took one back."""
        source, other = self.done, self.undone
        if not source or (other and self.chance.random() < 0.4):
            source, other = other, source
        if not source:
            return []
        edit, its_inverse = source.pop()
        other.append((its_inverse, edit))
        return [edit]

    def edit(self, text):
        """A random edit, or None if no feature allows one here."""
        if self.has("emptied", 0.15):
            has_range = self.has_ranges and self.chance.random() < 0.5
            return Edit(0, len(text), "") if has_range else Edit(None, None, "")
        if self.has("whole", 0.3):
            return Edit(None, None, self.made.text())
        start = self.place(text)
        end = self.place(text, start) if self.deletes(text) else start
        new = self.made.words() if self.types(text, start, end) else ""
        if (start, new) == (end, ""):
            return None
        edit = Edit(start, end, new)
        return self.said(edit, text) if self.has_ranges else Edit(None, None, edit.applied(text))

    def deletes(self, text):
        return self.has("deleting", 0.9 if len(text) > LARGE else 0.4)

    def types(self, text, start, end):
        """Whether something is typed: always if nothing is deleted."""
        return self.has("typing", 1.0 if start == end and len(text) <= LARGE else 0.4)

    def place(self, text, start=None):
        """A place in a text: anywhere or, after `start`, close to it. No place is in a CR LF, nor
        after the last line end where that must stay."""
        last = len(text)
        if "no-last-end" not in self.features and text.endswith(("\r", "\n")):
            last -= len(LINE_END.findall(text)[-1])
        if start is not None:
            at = min(start + self.chance.choice((1, 1, 2, 3, 8, 40)), last)
        elif self.has("past-end", 0.6):
            at = self.line_end(text, last)
        else:
            at = self.chance.randint(0, last)
        return max(outside_of_line_end(text, at), start or 0)

    def line_end(self, text, last):
        ends = [it.start() for it in LINE_END.finditer(text, 0, last)]
        return self.chance.choice([*ends, last])

    def said(self, edit, text):
        """An edit, as its message says it."""
        past = self.chance.choice((1, 1, 2, 10, 1000)) if self.has("past-end", 0.5) else 0
        lines = self.chance.choice((1, 2, 100)) if self.has("past-last") else 0
        end = len(text) if lines and self.chance.random() < 0.3 else edit.end
        return Edit(edit.start, end, edit.text, past, lines, self.has("range-length", 0.8))


def inverse(edit, text):
    """What takes an edit of this text back, and the edit."""
    if edit.start is None:
        return Edit(None, None, text), edit
    taken_back = Edit(edit.start, edit.start + len(edit.text), text[edit.start : edit.end])
    return taken_back, edit


def after(step, text):
    """The text of a document after a step."""
    text = step.reopened if step.reopened is not None else text
    for edit in step.edits:
        text = edit.fitted(text).applied(text)
    return text
