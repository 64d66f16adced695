"""What lspcheck-replay must find: where the text of a faulty server leaves the right one, computed
with the server's own store and the texts that the editor knows."""

import importlib.util
import json
import sys
import threading
from pathlib import Path

SERVER = Path(__file__).resolve().parent / "server.py"
LOADING = threading.Lock()


def server_with(faults):
    """The module of the server, with these faults. It reads them once, when it is loaded."""
    with LOADING:
        words, sys.argv = sys.argv, ["server", *faults]
        try:
            spec = importlib.util.spec_from_file_location("server", SERVER)
            module = importlib.util.module_from_spec(spec)
            spec.loader.exec_module(module)
        finally:
            sys.argv = words
    module.Server.send = lambda self, **message: None
    return module


def messages_of(log):
    """The editor's messages of a log in which each record is a message."""
    at = log.index(b"\n") + 1
    while at < len(log):
        end = log.index(b"\n", at) + 1
        kind, *sizes = log[at:end].split()
        size = int(sizes[0]) if kind != b"T" else int(sizes[1]) + 1 + int(sizes[2])
        if kind == b"E":
            yield json.loads(log[end : end + size].partition(b"\r\n\r\n")[2])
        at = end + size + 1


def drifts(faults, session):
    """For each document, the messages that set its text, each with whether the server's is wrong."""
    server = server_with(faults).Server()
    right = {number: (uri, text) for number, uri, text in session.texts}
    found = {}
    for number, message in enumerate(messages_of(session.log), 1):
        server.count += 1
        if "id" not in message and message["method"] != "exit":
            server.hear(message["method"], message["params"])
        if number in right:
            uri, text = right[number]
            held = server.texts.get(uri)
            is_wrong = held is None or held.is_lost or held.text != text
            found.setdefault(uri, []).append((number, is_wrong))
    return found


def first_drift(faults, session):
    """The message that must be named, for each document that has one; None if the texts were wrong
    and right again, so that there is more than one."""
    named = {}
    for uri, states in drifts(faults, session).items():
        wrong = [is_wrong for _, is_wrong in states]
        if True in wrong:
            first = wrong.index(True)
            named[uri] = states[first][0] if all(wrong[first:]) else None
    return named
