"""Where two texts differ, as `diff` marks it: from the first difference on, up to a number of
lines."""

from lsptools.base.lines import LINE
from lsptools.page.wording import cut, visible

# How many equal lines are shown around those that differ, and how many must follow them.
CONTEXT = 3
# How many lines of both texts together one difference may have.
MOST_DIFFERING = 48
# How many characters of each text are compared from the first difference on; how many of a line are
# shown, and how many of these before what differs.
MOST_COMPARED, LONGEST, BEFORE = 1_000_000, 160, 60
# How many characters of the lines before the first difference are looked at.
MOST_BEFORE = 100_000


def length_of_start(some, other):
    """How many characters two texts have in common at their beginning. What is known to be equal is
    not compared again, so this takes time in proportion to the texts."""
    least, most = 0, min(len(some), len(other))
    while least < most:
        middle = (least + most + 1) // 2
        if some[least:middle] == other[least:middle]:
            least = middle
        else:
            most = middle - 1
    return least


def start_of_context(text, place):
    """Where the lines begin that are shown before the line of a place."""
    start = text.rfind("\n", 0, place) + 1
    for _ in range(CONTEXT):
        start = text.rfind("\n", 0, max(start - 1, 0)) + 1
    return max(start, place - MOST_BEFORE)


def lengths_of_difference(some, other, at, place):
    """How many lines of each differ from these on, until both are equal again: the fewest. If too
    many do, half of those that are looked at."""
    for both in range(1, MOST_DIFFERING + 1):
        for one in range(both + 1):
            first, second = at + one, place + both - one
            is_there = first <= len(some) and second <= len(other)
            if is_there and some[first : first + CONTEXT] == other[second : second + CONTEXT]:
                return one, both - one
    half = MOST_DIFFERING // 2
    return min(half, len(some) - at), min(half, len(other) - place)


def runs(some, other):
    """Both lists of lines in turn: equal runs, which may be empty, with None, and those that
    differ; and whether it is the last one."""
    at = place = 0
    while True:
        most = min(len(some) - at, len(other) - place)
        equal = next((it for it in range(most) if some[at + it] != other[place + it]), most)
        is_last = at + equal == len(some) and place + equal == len(other)
        yield some[at : at + equal], None, is_last
        at, place = at + equal, place + equal
        if is_last:
            return
        one, two = lengths_of_difference(some, other, at, place)
        yield some[at : at + one], other[place : place + two], False
        at, place = at + one, place + two


def equal_lines(lines, is_first, is_last):
    """Equal lines with a blank before them: those near what differs. Between two differences, the
    others are counted."""
    if is_first or is_last:
        return [" " + clipped(it, 0) for it in (lines[-CONTEXT:] if is_first else lines[:CONTEXT])]
    middle = len(lines) - 2 * CONTEXT
    if middle <= 1:
        return [" " + clipped(it, 0) for it in lines]
    head, tail = (equal_lines(lines, *which) for which in ((False, True), (True, False)))
    return [*head, f"@@ {middle:,} equal lines @@", *tail]


def clipped(line, start):
    """A line from a column on, without its LF: an end that is not LF alone can be seen."""
    rest = visible(line.removesuffix("\n")[start : start + LONGEST + 1], "\t")
    return f"{'…' if start else ''}{cut(rest, LONGEST)}"


def marked(sign, line, start):
    is_last = not line.endswith(("\n", "\r"))
    return f"{sign}{clipped(line, start)}{' [the end of the text]' if is_last else ''}"


def differing_lines(some, other):
    """The lines of both that differ: in pairs if each has as many."""
    first = length_of_start(some[0], other[0]) if some and other else 0
    is_long = max(map(len, [*some, *other])) > LONGEST
    start = max(first - BEFORE, 0) if is_long else 0
    if len(some) != len(other):
        return [marked(sign, it, start) for sign, of in (("-", some), ("+", other)) for it in of]
    found = []
    for one, two in zip(some, other):
        same = [" " + clipped(one, start)]
        found += same if one == two else [marked("-", one, start), marked("+", two, start)]
    return found


def difference(some, other, most):
    """The lines of the difference of two texts, and whether these are all."""
    start = start_of_context(some, length_of_start(some, other))
    pieces = [it[start : start + MOST_COMPARED] for it in (some, other)]
    is_whole = start + MOST_COMPARED >= max(len(some), len(other))
    found, is_first = [], True
    for lines, others, is_last in runs(*map(LINE.findall, pieces)):
        if len(found) > most:
            return found[:most], False
        if others is not None:
            found += differing_lines(lines, others)
        elif lines:
            found += equal_lines(lines, is_first, is_last)
        is_first = False
    return found[:most], is_whole and len(found) <= most
