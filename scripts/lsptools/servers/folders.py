"""Replaces folders of the log in the paths and URIs of its messages."""

import itertools
import json
import os
import shutil
from pathlib import Path
from urllib.parse import quote, unquote

from lsptools.base.messages import encoded, member
from lsptools.servers.children import PROCESSES

# Members that hold a document's text, which stays as it is.
TEXTS = ("text", "newText")


def path_in(uri):
    """The path in the URI of a file, or None."""
    scheme, _, rest = (uri or "").partition("://")
    return unquote(rest) if scheme.lower() == "file" else None


class Folder:
    """The empty folder of one server, instead of the one that `initialize` names."""

    def __init__(self, named, number):
        self.path = f"{named}{number}"
        self.named = f"{os.path.basename(os.path.dirname(named))}/{os.path.basename(named)}"
        self.number = number

    def put_into(self, content):
        """The content of a message that names this folder, which exists from then on."""
        changed = content.replace(f'{self.named}"'.encode(), f'{self.named}{self.number}"'.encode())
        if changed != content:
            PROCESSES.unless_over(lambda: os.makedirs(self.path, 0o700, exist_ok=True))
        return changed

    def remove(self):
        shutil.rmtree(self.path, ignore_errors=True)


class Folders:
    """The folders to be replaced, each with the one in its place, and an empty one, which each
    server has for itself. They are in the folder `place`, with all that is removed at the end."""

    def __init__(self, pairs, place):
        self.pairs, self.place, self.empty = pairs, place, os.path.join(place, "empty")
        self.has_found = False
        self.numbers = itertools.count(1)

    def of_server(self):
        return Folder(self.empty, next(self.numbers))

    def holds(self, path):
        """Whether a path is in a folder that replaces another: the user has named it."""
        parts = (path or "").rstrip("/").split("/")
        news = [new.rstrip("/").split("/") for _, new in self.pairs]
        return bool(path) and ".." not in parts and any(parts[: len(it)] == it for it in news)

    def with_root(self, params):
        """The params of `initialize` with the folders that the user has named, or an empty one."""
        given = params.get("workspaceFolders") or []
        near = [it for it in given if self.holds(path_in(member(it, "uri")))]
        uri, path = path_in(params.get("rootUri")), params.get("rootPath")
        named = (uri, path, *(path_in(it["uri"]) for it in near))
        root = next(filter(self.holds, named), self.empty)
        if not self.holds(uri):
            params["rootUri"] = Path(root).as_uri()
        if path is not None and not self.holds(path):
            params["rootPath"] = root
        if given:
            params["workspaceFolders"] = near or [{"uri": params["rootUri"], "name": "root"}]
        return params

    def path_of(self, path):
        """A path, as it is below the new folder."""
        for old, new in self.pairs:
            if path == old or path.startswith(old + "/"):
                self.has_found = True
                return new + path[len(old) :]
        return path

    def uri_of(self, uri):
        """A URI of a file, as it is below the new folder. The part below it keeps its spelling."""
        scheme, slashes, rest = uri.partition("://")
        host, slash, path = rest.partition("/")
        if scheme.lower() != "file" or not slash:
            return uri
        parts = f"/{path}".split("/")
        plain = [unquote(part) for part in parts]
        for old, new in self.pairs:
            size = old.count("/") + 1
            if "/".join(plain[:size]) == old:
                self.has_found = True
                return f"{scheme}{slashes}{host}" + "/".join([quote(new), *parts[size:]])
        return uri

    def string_of(self, text):
        """A string of a message, which may be a path or a URI."""
        return self.uri_of(text) if "://" in text[:8] else self.path_of(text)

    def value_of(self, value):
        if isinstance(value, str):
            return self.string_of(value)
        if isinstance(value, list):
            return [self.value_of(item) for item in value]
        if isinstance(value, dict):
            return {
                self.string_of(name): item if name in TEXTS else self.value_of(item)
                for name, item in value.items()
            }
        return value

    def content_of(self, content):
        """The content of a message; the same bytes if no folder is in it."""
        if not self.pairs:
            return content
        try:
            value = json.loads(content)
            changed = self.value_of(value)
        except (ValueError, RecursionError):
            return content
        return content if changed == value else encoded(changed)

    def snapshot_of(self, record):
        """The record of a snapshot."""
        uri = self.uri_of(record.uri.decode()) if self.pairs else None
        return record._replace(uri=uri.encode()) if uri else record
