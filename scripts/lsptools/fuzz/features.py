"""What sessions may have, by name. Each can be left out, so that a known fault hides no other."""

from lsptools.fuzz.cases import LINE_END, text_before

# What no line ends with in LSP, but in other definitions of lines; and how they are called.
SEPARATORS = {
    "\v": "vertical tab",
    "\f": "form feed",
    "\x1c": "U+001C",
    "\x1d": "U+001D",
    "\x1e": "U+001E",
    "\x85": "U+0085",
    "\u2028": "U+2028",
    "\u2029": "U+2029",
}
ASTRAL = ["😀", "𝒳", "🇩🇪", "👩\u200d👧"]
COMBINING = ["é", "e\u0301", "नि", "ü", "\u0301"]
# From how many characters on a line is a long one.
LONG = 250


def feature_with(character):
    """The feature whose sessions alone have a character, or None."""
    if character in SEPARATORS:
        return "separators"
    if character > "\uffff":
        return "astral"
    return None if character.isascii() else "combining"


class Traits:
    """What a case has: the texts of its first document, and its steps and edits."""

    def __init__(self, case):
        self.case, self.texts, self.edits = case, [case.texts[0]], []
        for number, step in enumerate(case.steps):
            self.edits += step.edits if step.document == 0 else ()
            self.texts.append(text_before(case, number + 1))
        self.text = "".join(self.texts)
        self.ends = [set(LINE_END.findall(it)) for it in self.texts]

    def has_line_end(self, end):
        return any(end in it for it in self.ends)

    def has_long_line(self):
        lines = (line for text in self.texts for line in LINE_END.split(text))
        return max(map(len, lines)) >= LONG

    def has_open_end(self):
        texts = [it for it in self.texts if it or not self.case.steps]
        return any(not it.endswith(("\r", "\n")) for it in texts)

    def has_whole_text(self):
        return self.case.by_change or any(it.start is None for it in self.edits)

    def some_edit(self, member):
        return any(getattr(it, member) for it in self.edits)

    def some_step(self, is_so):
        return any(map(is_so, self.case.steps))


# For each feature, what it is, and whether a case has it: the first that it has names a drift.
FEATURES = {
    "two": ("two documents are changed", lambda it: len(it.case.texts) > 1),
    "reopening": ("a document is closed and opened again",
                  lambda it: it.some_step(lambda step: step.reopened is not None)),
    "past-last": ("a line past the last one, which lspcheck takes for the end of the text",
                  lambda it: it.some_edit("lines")),
    "past-end": ("a column past the end of its line", lambda it: it.some_edit("past")),
    "astral": ("characters that UTF-16 has two units for",
               lambda it: max(it.text, default="") > "\uffff"),
    "separators": ("form feed, U+2028 and others, with which no line ends in LSP",
                   lambda it: bool(set(it.text) & set(SEPARATORS))),
    "combining": ("characters that are not ASCII, also combining ones",
                  lambda it: not it.text.isascii()),
    "cr": ("lines that end with CR", lambda it: it.has_line_end("\r")),
    "mixed": ("line ends of several kinds", lambda it: any(len(kinds) > 1 for kinds in it.ends)),
    "crlf": ("lines that end with CR LF", lambda it: it.has_line_end("\r\n")),
    "long": ("long lines", Traits.has_long_line),
    "versions": ("versions that leave some out",
                 lambda it: it.some_step(lambda step: step.skipped)),
    "range-length": ("the deprecated rangeLength, with the right value",
                     lambda it: it.some_edit("has_length")),
    "requests": ("changes while a request is open",
                 lambda it: it.some_step(lambda step: step.is_asked)),
    "several": ("several changes in a message",
                lambda it: it.some_step(lambda step: len(step.edits) > 1)),
    "whole": ("changes without a range", Traits.has_whole_text),
    "emptied": ("a document that is emptied", lambda it: "" in it.texts[1:]),
    "no-last-end": ("a last line without a line end", Traits.has_open_end),
    "undo": ("changes that are undone and made again", lambda it: False),
    "bursts": ("many changes without a pause", lambda it: False),
    "encodings": ("columns in the other encodings that the server offers", lambda it: False),
    "deleting": ("text is deleted", lambda it: any(edit.end != edit.start for edit in it.edits)),
    "typing": ("text is typed", lambda it: it.some_edit("text")),
}
# What each session has, if it is not left out; and what none has unless it is asked for.
PLAIN, ASKED_FOR = ("typing", "deleting"), ("past-last",)
OPENING = "opening"


def features_of(case):
    """The features that a case has, the first of which names what it shows."""
    traits = Traits(case)
    return [name for name, (_, has) in FEATURES.items() if has(traits)] or [OPENING]
