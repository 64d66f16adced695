"""Answers what a server asks: as the editor did in the log, or as one that can do nothing more."""

from collections import deque

from lsptools.base.messages import items_of, key_of
from lsptools.servers.shapes import DONE

METHOD_NOT_FOUND = {"code": -32601, "message": "Method not found"}
# What an editor may answer with null.
NULLS = {*DONE.split(), "window/showMessageRequest", "workspace/workspaceFolders"}


def without_log(method):
    """The answer to a request that the log does not have."""
    if method == "workspace/applyEdit":
        return "result", {"applied": False}
    if method == "window/showDocument":
        return "result", {"success": False}
    return ("result", None) if method in NULLS else ("error", METHOD_NOT_FOUND)


class Settings:
    """The editor's settings in the log, by scope and section. Where a server asks more often, the
    last answer stays; and where it asks for another scope, that of any scope is as good."""

    def __init__(self, recorded):
        self.left, self.of_section = {}, {}
        for (scope, section), value in recorded:
            self.left.setdefault((key_of(scope), key_of(section)), deque()).append(value)
            self.of_section.setdefault(key_of(section), value)

    def value(self, scope, section):
        left = self.left.get((key_of(scope), key_of(section)))
        if left is None:
            return self.of_section.get(key_of(section))
        return left.popleft() if len(left) > 1 else left[0]


class Replies:
    """The editor's answers for one server: those of the log to each method, in order."""

    def __init__(self, recorded, configuration):
        self.left = {method: deque(answers) for method, answers in recorded.items()}
        self.settings = Settings(configuration)

    def answer(self, method, params):
        """The name and the value of the member that an answer has."""
        if method == "workspace/configuration":
            return "result", [self.settings.value(*it) for it in items_of(params)]
        left = self.left.get(method)
        return left.popleft() if left else without_log(method)
