"""Leaves out members of messages that no rule reads, long texts, and pieces of what is not JSON."""

import copy
from dataclasses import replace

from lsptools.base.contents import at
from lsptools.shrink.case import CHANGE, CLOSE, OPEN, SAVE
from lsptools.shrink.events import handshake_of

# The members that rules read, in messages of each method; `*` stands for any name. The language is
# not read, but servers want it.
ALL = ["jsonrpc", "id", "method", "error/code", "error/message"]
READ = {
    "initialize": [
        "params/capabilities/general/positionEncodings/*",
        "params/workDoneToken",
        "result/capabilities/positionEncoding",
        "result/capabilities/textDocumentSync/change",
    ],
    "initialized": ["params"],
    OPEN: [f"params/textDocument/{it}" for it in ("uri", "languageId", "version", "text")],
    CHANGE: [
        "params/textDocument/uri",
        "params/textDocument/version",
        "params/contentChanges/*/text",
        "params/contentChanges/*/range/*/*",
    ],
    CLOSE: ["params/textDocument/uri"],
    SAVE: ["params/textDocument/uri", "params/text"],
    "$/cancelRequest": ["params/id"],
    "$/progress": ["params/token"],
    "client/registerCapability": ["params/registrations/*/method"],
}
# The rules of messages in which elements may be left out, as long as the one that fails stays.
CHANGES = ("params", "contentChanges")
ELEMENTS = {**dict.fromkeys((603, 604, 605, 606, 607), CHANGES), 504: ("params", "registrations")}
# Texts up to this length stay. Of longer contents that are not JSON, pieces are left out.
SHORT, SHORT_CONTENT, PIECE = 64, 600, 16


def is_part(path, form):
    """Whether a path is the beginning of one of this form."""
    names = form.split("/")
    return len(path) <= len(names) and all(it in (name, "*") for name, it in zip(path, names))


def is_read(item, path, method):
    """Whether a rule reads a member of a message, or something in it."""
    if path[:-1] == ELEMENTS.get(item.event.rule):
        return False
    words = tuple(str(it) for it in path)
    return any(is_part(words, form) for form in (*ALL, *READ.get(method, ())))


def paths_of(value, depth, path=()):
    """The paths of this length in a JSON value."""
    if depth == 0:
        yield path
    else:
        for name, it in entries(value):
            yield from paths_of(it, depth - 1, (*path, name))


def entries(value):
    """The members or elements of a JSON value, each with its name or number."""
    if isinstance(value, dict):
        return value.items()
    return enumerate(value) if isinstance(value, list) else ()


def without(value, paths):
    """A JSON value without the members and elements at these paths."""
    value = copy.deepcopy(value)
    # The last element goes first, so that the others keep their places.
    for *path, name in reversed(paths):
        del at(value, *path)[name]
    return value


def emptied(value, paths):
    """A JSON value in which the texts at these paths are empty."""
    value = copy.deepcopy(value)
    for *path, name in paths:
        at(value, *path)[name] = ""
    return value


def edited(case, found, change):
    """The case with a change at each of these places and paths."""
    places = {}
    for place, path in found:
        places.setdefault(place, []).append(path)
    items = {place: case.items[place] for place in places}
    return case.edited({
        place: item.with_value(change(item.value, places[place])) for place, item in items.items()
    })


def compact(case):
    """The case with each message in the shortest form."""
    return case.of(it.with_value(it.value) if it.value else it for it in case.items)


def leave_out_members(judge, case):
    """The case with as few members and elements as possible, level by level."""
    shorter = compact(case)
    case = shorter if judge.keeps(shorter) else case
    answers = {it.event.event for it in handshake_of(case)[1:2] if it.method is None}

    def is_loose(place, path):
        item = case.items[place]
        return not is_read(item, path, "initialize" if item.event.event in answers else item.method)

    depth, is_deeper = 1, True
    while is_deeper:
        items = enumerate(case.items)
        paths = [(place, path) for place, item in items for path in paths_of(item.value, depth)]
        loose = [it for it in paths if is_loose(*it)]
        case = leave_out_some(judge, case, loose, without)
        depth, is_deeper = depth + 1, bool(paths)
    return case


def leave_out_some(judge, case, loose, change):
    """The case with as many of these places and paths changed as possible."""

    def of(kept):
        stay = set(kept)
        return edited(case, (it for it in loose if it not in stay), change)

    return judge.smallest(loose, of)


def long_texts(value, path=()):
    """The paths of the long texts in a JSON value."""
    if isinstance(value, str) and len(value) > SHORT:
        yield path
    for name, it in entries(value):
        yield from long_texts(it, (*path, name))


def empty_texts(judge, case):
    """The case with as many long texts as possible empty. If texts are compared, those of documents
    stay: otherwise more would differ than before."""
    is_compared = any(it.startswith("at ") for it in judge.lines)
    found = [
        (place, path)
        for place, item in enumerate(case.items)
        if not (is_compared and item.method in (OPEN, CHANGE, SAVE))
        for path in long_texts(item.value)
    ]
    loose = [(place, path) for place, path in found if path[-1] not in ("uri", "method", "id")]
    return leave_out_some(judge, case, loose, emptied)


def shorten_content(judge, case):
    """The case with a shorter content of its last message, if that is not JSON."""
    last, place = (case.items or [None])[-1], len(case.items) - 1
    is_json = last is None or last.is_snapshot or last.value is not None
    if is_json or len(last.content) <= SHORT_CONTENT:
        return case
    pieces = [last.content[it : it + PIECE] for it in range(0, len(last.content), PIECE)]

    def of(kept):
        return case.edited({place: replace(last, content=b"".join(kept))})

    return judge.smallest(pieces, of)
