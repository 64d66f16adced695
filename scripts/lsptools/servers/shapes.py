"""What a message of a log may hold that is sent to any server: names of documents, texts, places,
numbers and single characters.

A log is a stranger's. Settings name programs, commands run them, answers consent to them; and only
the server knows what a member means that LSP 3.17 does not have, or has in other letters. So this
names what is sent, and all else is left out.
"""

import re
from urllib.parse import unquote

# What a shell obeys, or takes for another option: servers hand names of files to one.
OBEYED = re.compile(r"[\x00-\x1f\x7f`;&|<>]|\$\(|\s-\S")
WORD = re.compile(r"[\w.:-]{0,64}", re.ASCII)


class Unfit(ValueError):
    """A value of another shape."""


def text(value):
    return isinstance(value, str)


def name(value):
    """The name of a document or a language."""
    return text(value) and not any(map(OBEYED.search, (value, unquote(value))))


def number(value):
    """A number, or true or false."""
    return isinstance(value, (int, float))


def character(value):
    return text(value) and len(value) <= 1


def identifier(value):
    return isinstance(value, (int, str))


def word(value):
    """A token or a kind."""
    return number(value) or text(value) and WORD.fullmatch(value) is not None


def kept(value, shape):
    """A value without the members that its shape does not have. Null stands for any value."""
    if value is None:
        return None
    if isinstance(shape, dict) and isinstance(value, dict):
        return {name: kept(item, shape[name]) for name, item in value.items() if name in shape}
    if isinstance(shape, list) and isinstance(value, list):
        return [kept(item, shape[0]) for item in value]
    if isinstance(shape, (dict, list)) or not shape(value):
        raise Unfit
    return value


PLACE = {"line": number, "character": number}
RANGE = {"start": PLACE, "end": PLACE}
DOCUMENT = {"uri": name, "version": number}
FOLDERS = [{"uri": name, "name": text}]

# Notifications, by their params.
NOTIFICATIONS = {
    "initialized": {},
    "exit": {},
    "$/cancelRequest": {"id": word},
    "textDocument/didOpen": {"textDocument": {**DOCUMENT, "languageId": name, "text": text}},
    "textDocument/didChange": {
        "textDocument": DOCUMENT,
        "contentChanges": [{"range": RANGE, "rangeLength": number, "text": text}],
    },
    "textDocument/willSave": {"textDocument": DOCUMENT, "reason": number},
    "textDocument/didSave": {"textDocument": DOCUMENT, "text": text},
    "textDocument/didClose": {"textDocument": DOCUMENT},
}

# Requests about a document, and the params of each. A new name, or what a server said before, is
# none of it.
QUESTION = {
    "textDocument": DOCUMENT,
    "position": PLACE,
    "positions": [PLACE],
    "range": RANGE,
    "ranges": [RANGE],
    "ch": character,
    "color": dict.fromkeys(("red", "green", "blue", "alpha"), number),
    "reason": number,
    "options": dict.fromkeys(
        "tabSize insertSpaces trimTrailingWhitespace insertFinalNewline trimFinalNewlines".split(),
        number,
    ),
    "context": {
        "triggerKind": number,
        "triggerCharacter": character,
        "isRetrigger": number,
        "includeDeclaration": number,
        "diagnostics": [{}],
        "only": [word],
    },
    **dict.fromkeys("workDoneToken partialResultToken previousResultId identifier".split(), word),
}
QUESTIONS = """
codeAction codeLens colorPresentation completion declaration definition diagnostic documentColor
documentHighlight documentLink documentSymbol foldingRange formatting hover implementation inlayHint
inlineValue linkedEditingRange moniker onTypeFormatting prepareCallHierarchy prepareRename
prepareTypeHierarchy rangeFormatting references selectionRange semanticTokens/full
semanticTokens/full/delta semanticTokens/range signatureHelp typeDefinition willSaveWaitUntil
"""
REQUESTS = {"shutdown": {}, **{f"textDocument/{it}": QUESTION for it in QUESTIONS.split()}}

# The params of `initialize`, but for its capabilities.
INITIALIZE = {
    "processId": number,
    "clientInfo": {"name": text, "version": text},
    "locale": word,
    "rootPath": name,
    "rootUri": name,
    "trace": word,
    "workDoneToken": word,
    "workspaceFolders": FOLDERS,
}

# The editor's answers: no more than that a thing was done. The first ones have null for a result.
DONE = """
client/registerCapability client/unregisterCapability window/workDoneProgress/create
workspace/codeLens/refresh workspace/diagnostic/refresh workspace/inlayHint/refresh
workspace/inlineValue/refresh workspace/semanticTokens/refresh
"""
ANSWERS = {
    **dict.fromkeys(DONE.split(), {}),
    "window/showDocument": {"success": number},
    "workspace/applyEdit": {"applied": number, "failureReason": text, "failedChange": number},
    "workspace/workspaceFolders": FOLDERS,
}
ERROR = {"code": number, "message": text}
