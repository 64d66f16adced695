"""What a message says, in one line: what the scripts of a page must work out, in another language."""

import json

LONGEST = 160
TYPES = {1: "error", 2: "warning", 3: "info", 4: "log", 5: "debug"}
SYNCS = {0: "none", 1: "full", 2: "incremental"}


def at(value, *path):
    """The member of a JSON value that is at the end of a path, or None."""
    try:
        for name in path:
            if value.__class__ is str:
                return None
            value = value[name]
    except (LookupError, TypeError):
        return None
    return value


def cut(text, most=LONGEST):
    return text if len(text) <= most else text[: most - 1] + "…"


def quoted(text, most=40):
    """A text as JSON shows it, in at most this many characters."""
    return json.dumps(cut(text, most), ensure_ascii=False) if isinstance(text, str) else plain(text)


def plain(value, most=LONGEST):
    if isinstance(value, str):
        return cut(value, most)
    if value is None or isinstance(value, (bool, int, float)):
        return json.dumps(value)
    words = [it if isinstance(it, str) else json.dumps(it, ensure_ascii=False, separators=(",", ":")) for it in value]
    return cut(", ".join(words[:20]), most)


def count(number, noun):
    return f"{number:,} {noun}" if number == 1 else f"{number:,} {noun}s"


def joined(*parts):
    return ", ".join(part for part in parts if part)


def place(position):
    """A position, counted from 1, as in editors."""
    def from_one(it):
        return str(it + 1) if isinstance(it, int) and not isinstance(it, bool) else plain(it)

    return ":".join(from_one(at(position, name)) for name in ("line", "character"))


def span(range_):
    """A range, with one position if it is empty."""
    start, end = place(at(range_, "start")), place(at(range_, "end"))
    return start if start == end else f"{start} to {end}"


def change(item):
    """One change of a document."""
    text = at(item, "text")
    if at(item, "range") is None:
        return f"whole text, {count(len(text), 'character')}" if isinstance(text, str) else "?"
    if text == "":
        return f"{span(at(item, 'range'))} deleted"
    return f"{span(at(item, 'range'))} {quoted(text)}"


def changes(params):
    items = at(params, "contentChanges")
    if not isinstance(items, list):
        return "?"
    if len(items) < 2:
        return change(items[0]) if items else "no changes"
    return f"{count(len(items), 'change')}: " + "; ".join(change(item) for item in items[:3])


def opened(params):
    text = at(params, "textDocument", "text")
    size = count(len(text), "character") if isinstance(text, str) else ""
    return joined(plain(at(params, "textDocument", "languageId")), size)


def saved(params):
    text = at(params, "text")
    return f"with its text, {count(len(text), 'character')}" if isinstance(text, str) else ""


def initialize(params):
    offered = at(params, "capabilities", "general", "positionEncodings")
    client = [at(params, "clientInfo", name) for name in ("name", "version")]
    return joined(
        " ".join(plain(word, 60) for word in client if word),
        f"offers {plain(offered)}" if isinstance(offered, list) else "offers no encoding",
    )


def sync_of(result):
    """The number of the kind of synchronisation, or what the result has in its place."""
    sync = at(result, "capabilities", "textDocumentSync")
    return at(sync, "change") if isinstance(sync, dict) else sync


def initialized(result):
    sync = sync_of(result)
    server = [at(result, "serverInfo", name) for name in ("name", "version")]
    return joined(
        " ".join(plain(word, 60) for word in server if word),
        plain(at(result, "capabilities", "positionEncoding") or "utf-16"),
        f"sync {SYNCS.get(sync, 'none')}" if isinstance(sync, (int, type(None))) else "",
    )


def diagnostics(params):
    items = at(params, "diagnostics")
    number = len(items) if isinstance(items, list) else 0
    first = at(items, 0, "message")
    return count(number, "diagnostic") + (f": {plain(first)}" if number else "")


def notice(params):
    kind = at(params, "type")
    kind = TYPES.get(kind, "?") if isinstance(kind, int) else "?"
    return f"{kind}: {plain(at(params, 'message'))}"


def progress(params):
    value = at(params, "value")
    words = [at(value, name) for name in ("kind", "title", "message")]
    percent = at(value, "percentage")
    said = joined(*(plain(word) for word in words if word), f"{plain(percent)} %" if percent else "")
    return f"{plain(at(params, 'token'))}: {said}"


def registrations(params):
    items = at(params, "registrations") or at(params, "unregisterations")
    return plain([at(item, "method") for item in items]) if isinstance(items, list) else "?"


def sections(params):
    items = at(params, "items")
    return plain([at(item, "section") for item in items]) if isinstance(items, list) else ""


def renamed(params):
    return f"{place(at(params, 'position'))} {quoted(at(params, 'newName'))}"


METHODS = {
    "initialize": initialize,
    "textDocument/didOpen": opened,
    "textDocument/didChange": changes,
    "textDocument/didSave": saved,
    "textDocument/publishDiagnostics": diagnostics,
    "window/showMessage": notice,
    "window/logMessage": notice,
    "window/showMessageRequest": notice,
    "$/progress": progress,
    "$/cancelRequest": lambda params: f"request {plain(at(params, 'id'))}",
    "client/registerCapability": registrations,
    "client/unregisterCapability": registrations,
    "workspace/configuration": sections,
    "workspace/executeCommand": lambda params: plain(at(params, "command")),
    "textDocument/rename": renamed,
}


def params_of(method, params):
    """One line for the params of any method."""
    if method in METHODS:
        return METHODS[method](params)
    if at(params, "position") is not None:
        return place(at(params, "position"))
    if at(params, "range") is not None:
        return span(at(params, "range"))
    names = [name for name in params if name != "textDocument"] if isinstance(params, dict) else []
    return plain(names)


def result_of(method, result):
    """One line for the result of a request."""
    if method == "initialize":
        return initialized(result)
    items = at(result, "items")
    if isinstance(result, list):
        return count(len(result), "item")
    if isinstance(items, list):
        return count(len(items), "item") + (", incomplete" if at(result, "isIncomplete") else "")
    if at(result, "contents") is not None:
        contents = at(result, "contents")
        return plain(at(contents, "value") or contents)
    return plain(result)


def error_of(error):
    return f"{plain(at(error, 'code'))} {plain(at(error, 'message'))}"


def summary(message, asked):
    """One line for a message, without line ends; `asked` is the method that a response answers."""
    if not isinstance(message, dict):
        return ""
    method = message.get("method")
    if isinstance(method, str):
        said = params_of(method, message.get("params"))
    elif "error" in message:
        said = error_of(message["error"])
    else:
        said = result_of(asked, message.get("result"))
    return cut(" ".join(said.split()))
