"""Finds the first of many numbers for which something is so."""

from lsptools.servers.drive import at_once


def middle(low, high):
    return (low + high) // 2


def first_of(low, high, is_so, begin_at=None, is_wide=False):
    """The first of these numbers for which something is so, if it is for each that follows, as it
    is for the last: found by halving, or by trying three numbers at once."""
    while low < high:
        point = middle(low, high) if begin_at is None else begin_at
        both = (middle(low, point), middle(point + 1, high)) if is_wide else ()
        points = sorted({it for it in (point, *both) if it < high})
        found = dict(zip(points, at_once(*(lambda it=it: is_so(it) for it in points))))
        while low < high and point in found:
            low, high = (low, point) if found[point] else (point + 1, high)
            point = middle(low, high)
        begin_at = None
    return low
