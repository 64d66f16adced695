"""Questions that see every character: each line of a document is made into a declaration whose name
has the letters and digits of the line.

The edits are those for the right text. In a text with a character too many, too few or elsewhere,
they cut the line in other places, so that the server shows another name, or none. They change the
document: a server that got them is asked, and ended.
"""

import itertools
import re
from dataclasses import dataclass

from lsptools.servers.languages import PLAIN, Form

LINE = re.compile("([^\r\n]*)(\r\n|\r|\n|$)")
# What a name keeps of a line, and what is made into one `_`.
OTHERS = re.compile(r"\W+", re.ASCII)
NAME = re.compile(r"q\d+_\w*z", re.ASCII)
# How many lines are overwritten, and how many characters of each one by one.
MOST_LINES, MOST_CHARACTERS = 500, 400


def units(text, encoding):
    """The length of a text in the units of columns."""
    if encoding == "utf-8":
        return len(text.encode("utf-8", "surrogatepass"))
    return len(text) if encoding == "utf-32" else len(text) + sum(it > "\uffff" for it in text)


def lines_of(text):
    """The lines of a text, each with its line end."""
    found = LINE.findall(text)
    # After a text that ends with a line without a line end, the pattern fits once more.
    return found if len(found) < 2 or found[-2][1] else found[:-1]


@dataclass(frozen=True)
class Overwriting:
    """The changes, the text after them, and the names in it, each by the number of its line."""

    changes: list
    text: str
    names: dict

    def is_shown(self, strings):
        """Whether these strings of an answer have the names, and no other."""
        return sorted(it for it in strings if NAME.fullmatch(it)) == sorted(self.names.values())

    def first_wrong(self, strings):
        """The first line whose name is not among these strings of an answer, or None."""
        found = set(strings)
        return next((line for line, name in self.names.items() if name not in found), None)


def overwriting(text, form=PLAIN, encoding="utf-16", near=()):
    """What makes the lines of a text into declarations: all of them or, if they are too many, those
    next to the lines `near`, the first of these first. The others are deleted."""
    lines = lines_of(text)
    chosen = chosen_lines(len(lines), near)
    changes, parts, names = [], [], {}
    for number in chosen:
        content, end = lines[number]
        line = Line(number, content, encoding, at_the_edges(form, number, chosen, len(lines)))
        names[number] = line.name
        parts.append(line.text + end)
    for first, last in reversed(runs(chosen, len(lines))):
        if first not in names:
            changes.append(change((first, 0), (last, 0), ""))
            continue
        for number in range(last - 1, first - 1, -1):
            edges = at_the_edges(form, number, chosen, len(lines))
            changes += Line(number, lines[number][0], encoding, edges).changes()
    return Overwriting(changes, "".join(parts), names)


def change(start, end, text):
    places = ({"line": line, "character": column} for line, column in (start, end))
    return {"range": dict(zip(("start", "end"), places)), "text": text}


def chosen_lines(count, near):
    """The lines that are overwritten. The last one always is."""
    if count <= MOST_LINES:
        return list(range(count))
    found = {count - 1}
    for line in itertools.chain(near, range(count)):
        found.update(it for it in range(line - 1, line + 2) if 0 <= it < count)
        if len(found) >= MOST_LINES:
            break
    return sorted(found)


def runs(chosen, count):
    """The lines in runs, of which all or none are chosen: the first of each, and the one after its
    last."""
    is_chosen = [False] * count
    for line in chosen:
        is_chosen[line] = True
    found, first = [], 0
    for _, lines in itertools.groupby(is_chosen):
        size = sum(1 for _ in lines)
        found.append((first, first + size))
        first += size
    return found


def at_the_edges(form, number, chosen, count):
    """The form for a line, with what only the first and the last one have."""
    before = form.first + form.before if number == chosen[0] else form.before
    after = form.after + form.last if number == count - 1 else form.after
    return Form(before, after)


class Line:
    """A line that becomes a declaration."""

    def __init__(self, number, content, encoding, form):
        self.number, self.content, self.encoding, self.form = number, content, encoding, form
        kept, rest = content[:MOST_CHARACTERS], content[MOST_CHARACTERS:]
        self.others = [it.span() for it in OTHERS.finditer(kept)]
        if rest:
            self.others.append((len(kept), len(content)))
        self.head = f"{form.before}q{number}_"
        self.name = f"q{number}_{self.middle()}z"
        self.text = f"{form.before}{self.name}{form.after}"

    def middle(self):
        """The line, with a `_` for each run of characters that no name has."""
        parts, at = [], 0
        for start, end in self.others:
            parts += [self.content[at:start], "_"]
            at = end
        return "".join([*parts, self.content[at:]])

    def changes(self):
        """First what is not ASCII, from the start on, so that a server that counts columns
        otherwise takes as few other characters with it as can be. Then from the end of the line on,
        so that no column depends on an earlier change. Where the line is too short, what is put at
        its end is cut by what follows."""
        found, left, shift = [], [], 0
        for (start, end), (first, last) in zip(self.others, self.columns()):
            if self.content[start:end].isascii():
                left.append((first - shift, last - shift))
                continue
            found.append(self.change(first - shift, last - shift, "_"))
            shift += last - first - 1
        width = units(self.content, self.encoding) - shift
        found.append(self.change(width, width, f"z{self.form.after}"))
        found += [self.change(*it, "_") for it in reversed(left)]
        return [*found, self.change(0, 0, self.head)]

    def columns(self):
        """Where the runs of other characters begin and end, in units."""
        found, at, column = [], 0, 0
        for start, end in self.others:
            first = column + units(self.content[at:start], self.encoding)
            column = first + units(self.content[start:end], self.encoding)
            found.append((first, column))
            at = end
        return found

    def change(self, start, end, text):
        return change((self.number, start), (self.number, end), text)
