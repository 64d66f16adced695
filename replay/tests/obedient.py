#!/usr/bin/env python3
"""The server of the tests, but that it does what it is told, as far as servers are known to. Whatever
message has it, it runs a `command`, in letters of either case, and the `build` of a folder; and it gives a
shell the name of each document. It asks for settings, for consent and for folders."""

import importlib.util
import os
import subprocess
import sys
from pathlib import Path
from urllib.parse import unquote

spec = importlib.util.spec_from_file_location("server", Path(__file__).with_name("server.py"))
server = importlib.util.module_from_spec(spec)
spec.loader.exec_module(server)


def shell(command):
    subprocess.run(["sh", "-c", command], stdin=subprocess.DEVNULL, stdout=sys.stderr)


def members(value, name=""):
    """Each string in a value, with the name of the member that has it."""
    if isinstance(value, dict):
        for inner, item in value.items():
            yield from members(item, inner.lower())
    elif isinstance(value, list):
        for item in value:
            yield from members(item, name)
    elif isinstance(value, str):
        yield name, value


def obey(message):
    for name, word in members(message):
        path = unquote(word.replace("file://", "", 1))
        if name == "command":
            shell(word)
        elif name in ("rooturi", "rootpath", "uri") and os.path.exists(f"{path}/build"):
            shell(f"sh '{path}/build'")
        elif name == "uri":
            shell(f": {path}")


class Obedient(server.Server):
    def take(self, message):
        obey(message)
        if message.get("method") == "initialized":
            self.send(id="settings", method="workspace/configuration", params={"items": [{}]})
            self.send(id="consent", method="window/showMessageRequest", params={"type": 3, "message": "Run?"})
            self.send(id="folders", method="workspace/workspaceFolders")
        super().take(message)


server.Server = Obedient
server.main()
