"""The line in which a change is wrong (605, 606), a row for each character, with its columns in
each encoding that matters."""

import re
import unicodedata

from lsptools.base.contents import at
from lsptools.page.session import ENCODINGS
from lsptools.page.wording import printed

# How many characters are shown on either side of the place.
AROUND = 5
# A message with more changes before the wrong one, or such a change of a longer text, is left
# alone: each of them costs as much as the text is long.
MOST_CHANGES, MOST_OF_TEXT = 50, 10_000_000
LINE_END = re.compile(r"\r\n|\r|\n")


def units_of(character, encoding):
    code = ord(character)
    if encoding == "utf-8":
        return 1 if code < 0x80 else 2 if code < 0x800 else 3 if code < 0x10000 else 4
    return 2 if encoding == "utf-16" and code > 0xFFFF else 1


def span_of(text, number):
    """Where a line begins and ends, without its line end; None if the text has fewer lines."""
    start, line = 0, 0
    for found in LINE_END.finditer(text):
        if line == number:
            return start, found.start()
        start, line = found.end(), line + 1
    return (start, len(text)) if line == number else None


def offset_of(text, position, encoding):
    """Where a position is. Past the end of its line, it is that end; past the last line, the end of
    the text."""
    span = span_of(text, position["line"])
    if span is None:
        return len(text)
    place, units = span[0], 0
    while place < span[1] and units < position["character"]:
        units += units_of(text[place], encoding)
        place += 1
    return place


def changed(text, change, encoding):
    """The text after one change."""
    if change.get("range") is None:
        return change["text"]
    start, end = (offset_of(text, change["range"][it], encoding) for it in ("start", "end"))
    return text[:start] + change["text"] + text[end:]


def text_before(text, message, which, encoding):
    """The text of which the change of this number is made, given that before its message; or None
    if that takes too long."""
    earlier = (at(message, "params", "contentChanges") or [])[: which - 1] if which > 1 else []
    if len(earlier) < which - 1 or which > MOST_CHANGES or (earlier and len(text) > MOST_OF_TEXT):
        return None
    for change in earlier:
        text = changed(text, change, encoding)
    return text


def cells_of(line):
    """The characters of a line, each with its columns; last its end, as an empty text."""
    columns, cells = dict.fromkeys(ENCODINGS, 0), []
    for character in line:
        cells.append((character, dict(columns)))
        for encoding in ENCODINGS:
            columns[encoding] += units_of(character, encoding)
    return [*cells, ("", columns)]


def is_inside(cells, column, encoding):
    """Whether a column is inside a character."""
    columns = [of[encoding] for _, of in cells]
    return column < columns[-1] and column not in columns


def shown(character):
    """A character as a cell of the table."""
    if character == "":
        return "the end of the line"
    base = "◌" if unicodedata.category(character).startswith("M") else ""
    return f'"{base}{printed(character)}"'


def place_of(text, change, encoding):
    """The line and the column that are wrong, with the cells of the line; or None."""
    ends = [(change["line"], change["column"]), (change["end_line"], change["end_column"])]
    found = [(line, column, cells_of(text[span[0] : span[1]])) for line, column in ends
             if (span := span_of(text, line)) is not None]
    wrong = [it for it in found if is_inside(it[2], it[1], encoding)]
    return (wrong or found or [None])[0]


def table_of(text, change, encoding, fits):
    """The number of the line from 0, and the lines of the table; or None."""
    found = place_of(text, change, encoding)
    if found is None:
        return None
    line, column, cells = found
    here = max(place for place, (_, of) in enumerate(cells) if of[encoding] <= column)
    encodings = [encoding, *(it for it in ENCODINGS if it in fits and it != encoding)]
    rows = ["  ".join(f"{it:>6}" for it in encodings)]
    for place in range(max(here - AROUND, 0), min(here + AROUND + 1, len(cells))):
        character, columns = cells[place]
        mark = f"  <- column {column}" if place == here else ""
        numbers = "  ".join(f"{columns[it]:>6}" for it in encodings)
        rows.append(f"{numbers}  {shown(character)}{mark}")
    return line, rows
