"""Tests of the snapshots that a plug-in of the editor writes."""

import os
import time

from lsptools.proxy.snapshots import Plugin
from processes import SECONDS
from session import Editor, snapshot



def by_plugin(make, write, late=0):
    """A test of snapshots that a plug-in writes. The recorder begins some seconds late."""

    def trial(place):
        path = place / "snapshots"
        make(path)
        setting = {"LSPCHECK_SNAPSHOTS": str(path), "RECORDER_IS_LATE": str(late)}
        editor = Editor(place, setting=setting).start()
        uri = b"file:///a"
        editor.open(uri.decode(), "one\n")
        given = [(1, uri, b"one\n"), (-7, uri, b""), (2, uri, "ä\n".encode() * 50_000)]
        whole = b"".join(snapshot(uri, version, text) for version, uri, text in given)
        write(path, [whole[:5], whole[5:60_000], whole[60_000:]])
        editor.taken(len(given))
        yield "while the session runs", editor.snapshots() == given, editor.snapshots()
        last = (3, uri, b"last")
        write(path, [snapshot(uri, 3, b"last")])
        yield "the status", editor.quit() == 0, None
        yield "the last one, too", editor.snapshots() == [*given, last], editor.snapshots()
        yield "nothing is said", editor.words() == "", editor.words()

    return trial


def append(path, parts):
    for part in parts:
        with open(path, "ab") as file:
            file.write(part)
        time.sleep(0.1)


def put(path, parts):
    """Writes to a named pipe as programs do that open it once and write at once."""
    with open(path, "wb", buffering=0) as file:
        for part in parts:
            while part:
                part = part[file.write(part) :]


def write_nothing(path):
    pass


def write_old(path):
    path.write_bytes(snapshot(b"file:///a", 1, b"of an earlier session"))


BAD_SNAPSHOTS = {
    "another record": b"E 1\nx\n",
    "a long line": b"T 1 " + b"1" * 70,
    "a minus zero": b"T -0 1 1\na\nb\n",
    "a version out of range": b"T 2147483648 1 1\na\nb\n",
    "a long URI": b"T 1 8193 1\n" + b"a" * 8193 + b"\nb\n",
    "a long text": b"T 1 1 16777217\na\n",
    "a wrong size": b"T 1 1 1\nabc\n",
    "a wrong last byte": b"T 1 1 1\na\nbc",
    "not UTF-8": b"T 1 1 1\na\n\xff\n",
}


def bad_plugin(name):
    def trial(place):
        path = place / "snapshots"
        path.write_bytes(b"")
        editor = Editor(place, setting={"LSPCHECK_SNAPSHOTS": str(path)}).start()
        first, last = snapshot(b"file:///a", 1, b"one"), snapshot(b"file:///a", 2, b"two")
        append(path, [first + BAD_SNAPSHOTS[name], last])
        yield "the session continues", editor.quit() == 0, editor.words()
        yield "nothing after it", editor.texts() == [(1, b"one")], editor.snapshots()
        said = editor.words()
        is_said = said.startswith(f"proxy: {path}: no more snapshots: ") and said.count("\n") == 1
        yield "it is said once", is_said, said

    return trial


def written_last(place):
    """What was written since the file was last looked at is taken at the end."""
    path, taken = place / "snapshots", []
    path.write_bytes(b"")
    plugin = Plugin(path, 0, taken.append)
    plugin.PAUSE = SECONDS
    plugin.start()
    append(path, [snapshot(b"file:///a", 1, b"last")])
    plugin.finish()
    plugin.join(SECONDS)
    yield "is taken", taken == [snapshot(b"file:///a", 1, b"last")], taken


def emptied(place):
    """Some plug-ins empty the file of an earlier session."""
    path, taken = place / "snapshots", []
    first, second = snapshot(b"file:///a", 1, b"first"), snapshot(b"file:///a", 2, b"second")
    path.write_bytes(first + second)
    plugin = Plugin(path, path.stat().st_size, taken.append)
    for records in ([first], [first, second[:5]], [second]):
        path.write_bytes(b"".join(records))
        plugin.take_all()
        path.write_bytes(b"")
        plugin.take_all()
    yield "is taken from its start", taken == [first, first, second], taken


def no_plugin(place):
    editor = Editor(place, setting={"LSPCHECK_SNAPSHOTS": "/proc/self/mem/x"}).start()
    time.sleep(0.2)
    yield "the session continues", editor.quit() == 0, editor.words()
    said = editor.words()
    is_said = said.startswith("proxy: /proc/self/mem/x: ") and said.count("\n") == 1
    yield "it is said once", is_said, said


TESTS = {
    "plug-in: a file": by_plugin(write_old, append),
    "plug-in: a file that comes later": by_plugin(write_nothing, append),
    "plug-in: a file, with a late recorder": by_plugin(write_old, append, 0.5),
    "plug-in: a file that comes before the recorder": by_plugin(write_nothing, append, 0.5),
    "plug-in: a named pipe": by_plugin(os.mkfifo, put),
    **{f"plug-in: {name}": bad_plugin(name) for name in BAD_SNAPSHOTS},
    "plug-in: written last": written_last,
    "plug-in: a file that was emptied": emptied,
    "plug-in: not there": no_plugin,
}
