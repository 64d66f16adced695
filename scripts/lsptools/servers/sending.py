"""Chooses what of a log is sent, to whichever server: all of it with --with-settings, and otherwise
no more than its texts need."""

import json
import os
import re
from contextlib import suppress

from lsptools.base.messages import encoded, key_of, member, notification, value_of
from lsptools.servers import shapes
from lsptools.servers.folders import path_in
from lsptools.servers.shapes import Unfit, kept

# The members of every message.
HEAD = {"jsonrpc": shapes.text, "id": shapes.identifier, "method": shapes.text}
# What is replaced, and no setting: the process of the editor, and the empty folder of an earlier
# replay, which wrote this log.
PROCESS = ("params", "processId")
EMPTY = re.compile(r'"(file://)?/.*/lspcheck-(fuzz|replay)-\w+/empty\d*"')


def choose(recording, folders, is_whole):
    """Chooses what is sent of each message. The messages that are not sent as they are, each with
    the members that are left out."""
    choice = Choice(folders)
    for message in recording.messages:
        content = folders.content_of(message.content)
        choose_of = with_own_process if is_whole else choice.of
        message.sent = choose_of(message, content)
    left_out = [] if is_whole else list(choice.left_out(recording.messages))
    for message in recording.messages:
        if message.is_response and message.sent is not None:
            add_reply(recording, message)
    return left_out


def add_reply(recording, message):
    """Keeps an answer of the editor for when a server asks the same."""
    name = "error" if message.is_error else "result"
    value = value_of(message.sent).get(name)
    recording.replies[message.asked].append((name, value))
    if message.asked == "workspace/configuration" and isinstance(value, list):
        recording.configuration += zip(message.asked_items, value)


def with_own_process(message, content):
    """A message in which this process stands for the editor's: some servers end when that has."""
    named = member(value_of(content), "params", "processId")
    if message.method != "initialize" or not isinstance(named, int):
        return content
    return re.sub(rb'("processId"\s*:\s*)%d\b' % named, rb"\g<1>%d" % os.getpid(), content)


class Choice:
    """What is sent of the messages of a log without its settings."""

    def __init__(self, folders):
        self.folders = folders
        # The ids of the requests that are sent, and the documents that no server gets.
        self.ids, self.lost = set(), set()

    def of(self, message, content):
        """What is sent of a message: its bytes, or those that are kept of it, or None."""
        value, is_repeated = read(content)
        try:
            found = self.kept(message, value)
        except Unfit:
            found = None
        if found is None:
            if message.uri and message.method in shapes.NOTIFICATIONS:
                self.lost.add(message.uri)
            return notification("initialized", {}) if message.method == "initialized" else None
        if message.is_request:
            self.ids.add(message.id)
        return content if found == value and not is_repeated else encoded(found)

    def kept(self, message, value):
        """What is kept of the value of a message, or None."""
        if message.method == "initialize":
            return {**kept(value, HEAD), "params": self.initialize(value.get("params") or {})}
        if message.is_response:
            return self.answer(message, value)
        known = shapes.REQUESTS if message.is_request else shapes.NOTIFICATIONS
        if message.method not in known:
            return None
        found = kept(value, {**HEAD, "params": known[message.method]})
        if message.method == "$/cancelRequest":
            return found if key_of(member(found, "params", "id")) in self.ids else None
        # A question of which members are missing may be another one.
        return None if message.is_request and found != value else found

    def initialize(self, given):
        """The params of `initialize`, without settings, and without folders but the user's."""
        params = {}
        for name, shape in shapes.INITIALIZE.items():
            with suppress(Unfit):
                params.update({name: kept(given[name], shape)} if name in given else {})
        offers = member(given, "capabilities") or {}
        offered = {it: offers[it] for it in offers if it.casefold() != "experimental"}
        params["capabilities"] = offered
        if params.get("processId") is not None:
            params["processId"] = os.getpid()
        return self.folders.with_root(params)

    def answer(self, message, value):
        """An answer of the editor, if it can be given to any server."""
        if message.asked not in shapes.ANSWERS:
            return None
        shape = {**HEAD, "result": shapes.ANSWERS[message.asked], "error": shapes.ERROR}
        named = value.get("result") if message.asked == "workspace/workspaceFolders" else []
        found = kept(value, shape)
        is_near = all(self.folders.holds(path_in(member(it, "uri"))) for it in named or [])
        return found if found == value and is_near else None

    def left_out(self, messages):
        """Each message that is not sent as it is, with the members that are left out."""
        for message in messages:
            if message.uri in self.lost:
                message.sent = None
            if message.sent == message.content:
                continue
            given = value_of(self.folders.content_of(message.content))
            members = members_without(given, value_of(message.sent or b"{}"))
            if members or message.sent is None and not message.is_response:
                yield message, members


def read(content):
    """The value of a content, and whether an object in it has a name twice."""
    repeated = []

    def made(pairs):
        value = dict(pairs)
        repeated.extend(pairs[len(value) :])
        return value

    try:
        value = json.loads(content, object_pairs_hook=made)
    except (ValueError, RecursionError):
        value = {}
    return value if isinstance(value, dict) else {}, bool(repeated)


def members_without(value, kept):
    """The members of a message that are not kept: the path to each, and its value as JSON text."""
    there = set(leaves(kept))
    found = [it for it in leaves(value) if it not in there and it[0] != PROCESS]
    return [
        (path[1:] if path[0] == "params" else path, text)
        for path, text in found
        if path[0] not in HEAD and not EMPTY.fullmatch(text)
    ]


def leaves(value, path=()):
    """The values inside a JSON value that have none inside."""
    if isinstance(value, (dict, list)):
        items = value.items() if isinstance(value, dict) else enumerate(value)
        for name, item in items:
            yield from leaves(item, (*path, name))
    elif value is not None:
        yield path, json.dumps(value)
