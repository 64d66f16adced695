"""What servers are asked about a document, and what of an answer is compared."""

import json
import re
from contextlib import suppress
from dataclasses import dataclass

from lsptools.base.messages import member
from lsptools.servers.overwriting import lines_of, units
from lsptools.servers.server import PUBLISHED, TimedOut

# What the text alone answers, with the capability that offers it.
OFFERED_BY = {
    "textDocument/formatting": "documentFormattingProvider",
    "textDocument/foldingRange": "foldingRangeProvider",
    "textDocument/documentLink": "documentLinkProvider",
    "textDocument/documentColor": "colorProvider",
    "textDocument/selectionRange": "selectionRangeProvider",
    "textDocument/documentSymbol": "documentSymbolProvider",
}
# rust-analyzer gives the text itself, and names no capability for it.
VIEW, VIEWER = "rust-analyzer/viewFileText", "rust-analyzer"
SYMBOLS, PULLED = "textDocument/documentSymbol", "textDocument/diagnostic"
SELECTION = "textDocument/selectionRange"
# What is asked once the lines are overwritten; and diagnostics, which come late, only where time
# does not matter.
OF_NAMES = (VIEW, SYMBOLS, "textDocument/foldingRange", "textDocument/formatting")
DIAGNOSTICS = (PULLED, PUBLISHED)
# Members of answers that say nothing of the text.
SAYS_NOTHING = ("resultId", "data")
# The folder that one server has for itself.
OWN_FOLDER = re.compile(r"(lspcheck-(?:fuzz|replay)-\w+/empty)\d+")
# The codes of errors that pass: cancelled by the editor or the server, and content modified.
PASSING = (-32800, -32801, -32802)
# How many positions a selection range is asked for.
POSITIONS = 16
FORMATTING = {"tabSize": 4, "insertSpaces": True}

# When a difference is asked for again, in seconds after the first answer. A search asks again once,
# since what it finds is asked for at length.
PAUSES = (1, 2, 4, 8)
SHORT_PAUSES = (1,)
# How many seconds diagnostics are waited for once the server has heard all, and how many if it has
# sent some about this document before.
PUBLISHING, PUBLISHING_AGAIN = 1, 5

SAME, DIFFERS, NOTHING = "same", "differs", "nothing"


@dataclass(frozen=True)
class Key:
    """A question about a document, as its lines are or once they are overwritten."""

    uri: str
    method: str
    is_overwritten: bool = False


def offered(run, method):
    """Whether a server offers a question."""
    if method == VIEW:
        return run.name == VIEWER
    if method == PUBLISHED:
        return True
    capability = OFFERED_BY.get(method, "diagnosticProvider")
    is_in_answer = run.capabilities.get(capability) not in (None, False)
    return is_in_answer or method in run.server.registered


def keys_of(run, uri, has_diagnostics):
    """The questions about a document that a server offers."""
    plain = [Key(uri, it) for it in (VIEW, *OFFERED_BY)]
    methods = (*OF_NAMES, *(DIAGNOSTICS if has_diagnostics else ()))
    found = plain + [Key(uri, it, True) for it in methods if run.has_ranges]
    return [it for it in found if offered(run, it.method)]


def positions(text, encoding):
    """Positions all over a text: the ends of lines."""
    lines = lines_of(text)
    step = max(len(lines) // POSITIONS, 1)
    return [
        {"line": number, "character": units(lines[number][0], encoding)}
        for number in range(0, len(lines), step)
    ]


def params_of(method, uri, text, encoding):
    """The params of a question about a document with this text."""
    if method == VIEW:
        return {"uri": uri}
    params = {"textDocument": {"uri": uri}}
    if method == "textDocument/formatting":
        params["options"] = FORMATTING
    elif method == SELECTION:
        params["positions"] = positions(text, encoding)
    return params


def bare(value):
    """A value without the members that say nothing of the text."""
    if isinstance(value, list):
        return [bare(item) for item in value]
    if isinstance(value, dict):
        return {name: bare(item) for name, item in value.items() if name not in SAYS_NOTHING}
    return value


def compared(answer):
    """What of an answer is compared. Nobody promises the order of a list, so it counts for nothing;
    and None stands for a question that failed."""
    if "error" in answer or "result" not in answer:
        return None
    result = bare(answer["result"])
    items = result if isinstance(result, list) else [result]
    texts = (json.dumps(item, sort_keys=True) for item in items)
    return sorted(OWN_FOLDER.sub(r"\1", it) for it in texts), isinstance(result, list)


def passes(answer):
    """Whether an answer is an error that says no more than that the server could not answer just
    then."""
    return member(answer, "error", "code") in PASSING


def strings_of(value):
    """Each string in a value."""
    if isinstance(value, str):
        yield value
    elif isinstance(value, (list, dict)):
        for item in value.values() if isinstance(value, dict) else value:
            yield from strings_of(item)


def names_of(value):
    """The names of the symbols in a value."""
    if isinstance(value, list):
        for item in value:
            yield from names_of(item)
    elif isinstance(value, dict):
        if isinstance(value.get("name"), str):
            yield value["name"]
        for item in value.values():
            yield from names_of(item)


def published_of(run, uri, version):
    """The diagnostics of a document, if they can be those of this version. Time is counted from
    when the server has heard all, however busy it is."""
    with suppress(TimedOut):
        run.hear_all()
    named = run.setting.folders.uri_of(uri)
    params = run.server.published_of(named, version, PUBLISHING, PUBLISHING_AGAIN)
    found = member(params, "diagnostics")
    return {"error": None} if found is None else {"result": found}
