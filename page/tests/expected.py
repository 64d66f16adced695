"""What the page of a log must show, from what `show`, `check`, `explain` and `event` write about it."""

import json
import re

from data import NO, lines_of, output

SHOWN = re.compile(r"(\d+) (?:(editor|server) (request|notification|result|error)|(snapshot)) (.*)")
TEXTS = ("textDocument/didOpen", "textDocument/didChange", "textDocument/didClose")
SHORT = {"didOpen": "open", "didClose": "close", "didChange": "change", "didSave": "save"}
# What is wrong with a whole log, or with the end of it, has no event.
AT_THE_END = (107, 303, 407)


def values_of(text):
    """The JSON values of a line of `show`, which are separated by a space."""
    values, at = [], 0
    while at < len(text):
        value, at = json.JSONDecoder().raw_decode(text, at)
        values.append(value)
        at += 1
    return values


class Expected:
    """What a page of a log must show."""

    def __init__(self, program, log):
        self.program, self.log = program, log
        self.lines = lines_of(program, "show", "--all", "--long", log)
        self.check = lines_of(program, "check", log)
        self.every = lines_of(program, "check", "--every", log)
        self.explain = lines_of(program, "explain", log)
        self.events = {}
        for at, line in enumerate(self.lines):
            if found := SHOWN.fullmatch(line):
                self.add(found)
            elif found := NO.fullmatch(line):
                self.add_violation(found, self.lines[at + 1])
        self.join()

    def content(self, event):
        return output(self.program, "event", event, self.log)

    def add(self, found):
        event, side, kind, snapshot, words = found.groups()
        values = values_of(words)
        made = {"event": int(event), "side": side or "snapshot", "kind": kind or "snapshot"}
        if snapshot:
            made.update(version=values[0], bytes=values[1], uri=values[2], number=values[3])
        else:
            if kind != "notification":
                made["id"] = values.pop(0)
            if kind == "error":
                values.pop(0)
            if kind in ("request", "notification"):
                made["method"] = values.pop(0)
            made["number"] = values.pop(0)
            made.update(zip(("uri", "version"), values))
        self.events[int(event)] = made

    def add_violation(self, found, text):
        rule, who, number, event, follows = found.groups()
        made = {"event": int(event), "side": who, "number": int(number), "rule": int(rule),
                "text": text, "follows": bool(follows), "kind": "unreadable"}
        if int(rule) in AT_THE_END:
            return
        self.events[int(event)] = made
        if who == "snapshot":
            record = list(re.finditer(rb"^T (-?\d+) (\d+) \d+\n(.*)\n", self.log.read_bytes(), re.M))[int(number) - 1]
            made.update(kind="snapshot", version=int(record[1]), uri=record[3].decode())
            return
        try:
            message = json.loads(self.content(event))
        except ValueError:
            return
        if "method" in message:
            made["method"] = message["method"]
            made["kind"] = "request" if "id" in message else "notification"
        elif "id" in message:
            made["kind"] = "error" if "error" in message else "result"
        if "id" in message:
            made["id"] = message["id"]
        params = message.get("params", {})
        document = params.get("textDocument", params)
        made.update({name: document[name] for name in ("uri", "version") if name in document})

    def join(self):
        """Who answers whom: an accepted answer, or one that breaks a rule."""
        opened = {}
        for it in self.events.values():
            key = (it["side"], json.dumps(it.get("id")))
            other = ("server" if it["side"] == "editor" else "editor", key[1])
            if it["kind"] == "request" and "rule" not in it:
                opened[key] = it
            elif it["kind"] in ("result", "error") and other in opened:
                request = opened[other]
                it["request"] = request
                if "rule" in it:
                    request["broken"] = it
                else:
                    request["answer"] = opened.pop(other)["answer"] = it
            elif it.get("method") == "$/cancelRequest" and "rule" not in it:
                id = json.loads(self.content(it["event"]))["params"]["id"]
                if request := opened.get((it["side"], json.dumps(id))):
                    request["cancel"] = it
                    it["request"] = request

    def versions(self, uri):
        """The events that give a document a version, in order."""
        return [it for it in self.events.values() if it.get("uri") == uri and "version" in it
                and (it["kind"] == "snapshot" or it.get("method") in TEXTS)]


READ = """
const plain = (node) => {
  if (!node) return null;
  let text = "";
  const walk = (it) => {
    if (it.nodeType === 3) text += it.data;
    else if (it.classList?.contains("odd")) text += it.copied;
    else it.childNodes.forEach(walk);
  };
  walk(node);
  return text;
};
"""

def version_label(event):
    what = "snapshot" if event["kind"] == "snapshot" else SHORT[event["method"].rpartition("/")[2]]
    return f"version {event['version']}, {what}, event {event['event']}"


def later(first, last):
    number = last["event"] - first["event"]
    return f"{number:,} event{'' if number == 1 else 's'} later"
