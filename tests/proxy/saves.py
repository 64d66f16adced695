"""Tests of the snapshots that the proxy takes of saved files."""

import os
import time
from pathlib import Path

from session import PROMPT, QUIET, TOGETHER, Editor, in_time, saved, sent

# How many seconds at most the snapshot is taken after the save, on a busy machine.
MOST = 30


def waits_a_second(place):
    editor, _, uri = saved(place)
    begun = time.monotonic()
    editor.save(uri)
    editor.taken(1)
    seconds = time.monotonic() - begun
    editor.ask("wait")
    yield "one second after the save", QUIET <= seconds < MOST, seconds
    yield "the snapshot", editor.snapshots() == [(1, uri.encode(), b"one\n")], editor.snapshots()
    yield "the status", editor.quit() == 0, None
    yield "format 2", editor.log().startswith(b"lsp-session 2\n"), editor.log()[:20]


def calls_off(step):
    """A test in which something happens to a document in the second after it was saved."""

    def attempt(place, times):
        editor, _, uri = saved(place, times=times)
        editor.save(uri)
        time.sleep(QUIET / 2)
        step(editor, uri)
        time.sleep(QUIET * times)
        editor.settles()
        editor.quit()
        found = editor.texts()
        *_, save, after = (it.begun for it in editor.heard() if it.uri == uri)
        return [("is called off", found == [], found)] if after < save + QUIET * times else None

    return in_time(attempt)


def begins_anew(place, times):
    editor, _, uri = saved(place, times=times)
    editor.save(uri)
    time.sleep(0.6 * QUIET)
    begun = time.monotonic()
    editor.save(uri)
    editor.settles()
    seconds = time.monotonic() - begun
    editor.quit()
    first, second = (it.begun for it in editor.heard() if it.method == "textDocument/didSave")
    if second >= first + QUIET * times:
        return None
    is_new = seconds >= QUIET * times and len(editor.texts()) == 1
    return [("a second after the second save, once", is_new, (seconds, editor.texts()))]


def others_go_on(place):
    """Neither another document nor another message calls a snapshot off."""
    editor, _, uri = saved(place)
    editor.save(uri)
    time.sleep(0.3)
    editor.open("file:///other", "x")
    editor.change("file:///other", 2, "y")
    editor.ask("textDocument/hover", {"textDocument": {"uri": uri}})
    yield "is taken", editor.taken(1) == [(1, b"one\n")], editor.texts()
    editor.quit()


def last_version(place):
    editor, file, uri = saved(place)
    editor.change(uri, -5, "two\n")
    sent(editor)
    file.write_bytes(b"two\n")
    editor.save(uri)
    editor.taken(1)
    editor.change(uri, 7, "three\n")
    sent(editor)
    file.write_bytes(b"three\n")
    editor.save(uri)
    wanted = [(-5, b"two\n"), (7, b"three\n")]
    yield "the versions", editor.taken(2) == wanted, editor.texts()
    editor.quit()


def lost_change(place):
    """A change between two saves that never comes: both texts are recorded."""
    editor, file, uri = saved(place)
    for count, text in enumerate((b"two\n", b"three\n"), 1):
        sent(editor)
        file.write_bytes(text)
        editor.save(uri)
        editor.taken(count)
    wanted = [(1, b"two\n"), (1, b"three\n")]
    yield "both saves", editor.texts() == wanted, editor.texts()
    editor.quit()


def written_again(write):
    """A test in which the file is written in the second after the save."""

    def attempt(place, times):
        editor, file, uri = saved(place, times=times)
        editor.save(uri)
        sent(editor)
        write(file)
        written = time.monotonic()
        editor.settles()
        status, found = editor.quit(), editor.texts()
        save, = (it.begun for it in editor.heard() if it.method == "textDocument/didSave")
        if written >= save + QUIET * times:
            return None
        return [
            ("no snapshot", found == [], found),
            ("the session continues", status == 0, editor.words()),
        ]

    return in_time(attempt)


def write_same_size(file):
    file.write_bytes(b"two\n")


def write_at_same_time(file):
    """Another text with the time and size of the old one, as another file of the same name."""
    old = file.stat()
    other = file.with_suffix(".new")
    other.write_bytes(b"two\n")
    os.utime(other, ns=(old.st_atime_ns, old.st_mtime_ns))
    other.replace(file)


def write_longer(file):
    """A longer text at the same time."""
    old = file.stat()
    file.write_bytes(b"one, two\n")
    os.utime(file, ns=(old.st_atime_ns, old.st_mtime_ns))


def become_pipe(file):
    file.unlink()
    os.mkfifo(file)


def times_of(editor, file, clock=0):
    """How long after the file was written `didSave` came, and how long after the change, in
    nanoseconds."""
    change, save = (it.now for it in editor.heard() if it.method.endswith(("Change", "Save")))
    return save - file.stat().st_mtime_ns + clock * 10**9, save - change


def write_two(file, clock):
    """Writes the file of a disk whose clock may differ by some seconds."""
    file.write_bytes(b"two\n")
    now = time.time_ns() + clock * 10**9
    if clock:
        os.utime(file, ns=(now, now))


def change_then_write(seconds, clock=0):
    """A test of a change, and of `didSave` after a number of seconds since the file was written."""

    def trial(place):
        editor, file, uri = saved(place)
        editor.change(uri, 2, "two\n")
        sent(editor)
        write_two(file, clock)
        time.sleep(seconds)
        editor.save(uri)
        editor.settles()
        editor.quit()
        found = editor.texts()
        yield "is taken", found == [(2, b"two\n")], found

    return trial


def write_then_change(seconds, pause, is_taken, clock=0):
    """A test of a change after a number of seconds since the file was written, and of `didSave`
    after a pause."""

    def attempt(place, times):
        editor, file, uri = saved(place, times=times)
        sent(editor)
        write_two(file, clock)
        time.sleep(seconds * times)
        editor.change(uri, 2, "two\n")
        time.sleep(pause * times)
        editor.save(uri)
        editor.settles()
        editor.quit()
        found = editor.texts()
        since_written, since_change = times_of(editor, file, clock)
        is_prompt = since_written <= PROMPT * times and since_change <= TOGETHER * times
        wanted = [(2, b"two\n")] if is_taken else []
        return [("the snapshots", found == wanted, found)] if is_prompt == is_taken else None

    return in_time(attempt)


MARK = b"\xef\xbb\xbf"

# What the file has, what the editor sent as a whole text, a change of a part, what a snapshot has.
CONVERTED = {
    "as it is": (b"a\r\nb", "a\r\nb", None, b"a\r\nb"),
    "converted": (b"a\r\nb\r\n", "a\nb\n", None, b"a\nb\n"),
    "a lone CR": (b"a\rb\r\n", "a\n", None, b"a\rb\n"),
    "a line end in a change": (b"a\r\nb", "", "a\r\nb", b"a\r\nb"),
    "a mark left out": (MARK + b"a", "a", None, b"a"),
    "a mark sent": (MARK + b"a", "\ufeffa", None, MARK + b"a"),
    "two marks": (MARK + MARK + b"a", "a", None, MARK + b"a"),
    "both": (MARK + b"a\r\n", "a\n", None, b"a\n"),
    "neither": (b"a\n\xf0\x9f\x98\x80", "a\n", None, b"a\n\xf0\x9f\x98\x80"),
    "the empty text": (b"", "a", None, b""),
}


def converts(place):
    """Line ends and byte order marks are those that the editor sent."""
    editor = Editor(place).start()
    files = {name: place / f"{name}.c" for name in CONVERTED}
    uris = {name: file.as_uri() for name, file in files.items()}
    for name, (_, shown, change, _) in CONVERTED.items():
        # The last whole text counts, not the first.
        editor.open(uris[name], "\ufeff\r")
        editor.change(uris[name], 2, shown)
        if change:
            start = {"line": 0, "character": 0}
            editor.change(uris[name], 3, change, {"start": start, "end": start})
    sent(editor)
    for name, (data, *_) in CONVERTED.items():
        files[name].write_bytes(data)
        editor.save(uris[name])
    editor.settles()
    editor.quit()
    texts = {uri.decode(): text for _, uri, text in editor.snapshots()}
    for name, (*_, wanted) in CONVERTED.items():
        yield name, texts.get(uris[name]) == wanted, texts.get(uris[name])


def spelled(place):
    """The spellings of a file's URI, and those of what has no file here."""
    file, link = place / "ä b#?.c", place / "link.c"
    file.write_bytes(b"text\n")
    link.symlink_to(file)
    raw, quoted = str(file), file.as_uri()[len("file://") :]
    good = [f"file://{raw}", f"file://{quoted}", f"file:{quoted}", f"FILE://{quoted}"]
    good += [f"file://localhost{quoted}", f"file://LocalHost{raw}", link.as_uri()]
    bad = [f"file://other.example{quoted}", f"untitled:{quoted}", f"http://{quoted}"]
    bad += [f"vscode-remote://localhost{quoted}", "file:a.c", "", "a.c", "file:///%00"]
    bad += ["file:///" + "%2e%2f" * 1400 + quoted]
    editor = Editor(place).start()
    for uri in [*good, *bad]:
        editor.open(uri, "text\n")
        editor.save(uri)
    editor.settles()
    yield "the session continues", editor.quit() == 0, editor.words()
    found = [uri.decode() for _, uri, _ in editor.snapshots()]
    yield "the files of this machine alone", found == good, set(found) ^ set(good)
    yield "nothing is said", editor.words() == "", editor.words()


def no_plain_files(place):
    """What isn't a text of a plain file within the limit gives no snapshot."""
    folder, pipe, large, latin = (place / name for name in ("dir", "pipe", "large", "latin"))
    folder.mkdir()
    os.mkfifo(pipe)
    large.write_bytes(b"x" * (1 << 24) + b"x")
    latin.write_bytes(b"\xe4\n")
    whole = place / "whole"
    whole.write_bytes(b"x" * (1 << 24))
    files = [folder, pipe, large, latin, place / "missing", Path("/dev/zero"), whole]
    uris = [it.as_uri() for it in files]
    editor = Editor(place).start()
    for uri in uris:
        editor.open(uri, "x")
        editor.save(uri)
    editor.save((place / "never-opened").as_uri())
    closed = place / "closed"
    closed.write_bytes(b"x")
    editor.open(closed.as_uri(), "x")
    editor.close(closed.as_uri())
    editor.save(closed.as_uri())
    editor.settles()
    yield "the session continues", editor.quit() == 0, editor.words()
    found = [(uri.decode(), len(text)) for _, uri, text in editor.snapshots()]
    yield "the file of 16 MiB alone", found == [(uris[-1], 1 << 24)], found
    yield "nothing is said", editor.words() == "", editor.words()


def no_snapshots(place):
    file = place / "a.c"
    file.write_bytes(b"x")
    editor = Editor(place, "--no-snapshots").start()
    editor.open(file.as_uri(), "x")
    editor.save(file.as_uri())
    time.sleep(1.5)
    editor.quit()
    yield "an option turns them off", editor.texts() == [], editor.texts()


TESTS = {
    "save: one second": waits_a_second,
    "save: a change": calls_off(lambda editor, uri: editor.change(uri, 2, "two\n")),
    "save: closed": calls_off(lambda editor, uri: editor.close(uri)),
    "save: opened": calls_off(lambda editor, uri: editor.open(uri, "two\n", 2)),
    "save: again": in_time(begins_anew),
    "save: others": others_go_on,
    "save: the version": last_version,
    "save: a lost change": lost_change,
    "save: written again": written_again(write_same_size),
    "save: another inode": written_again(write_at_same_time),
    "save: another size": written_again(write_longer),
    "save: removed": written_again(Path.unlink),
    "save: a pipe by now": written_again(become_pipe),
    "save: change, write, at once": change_then_write(0),
    "save: change, write, later": change_then_write(0.4),
    "save: write, change, at once": write_then_change(0, 0, True),
    "save: write, change, later": write_then_change(0.4, 0, False),
    "save: write, change, pause": write_then_change(0, 0.05, False),
    "save: a clock that is slow": change_then_write(0.4, clock=-3600),
    "save: a clock that is fast": change_then_write(0.4, clock=3600),
    "save: a fast clock, write, change": write_then_change(0.4, 0, False, clock=3600),
    "save: a slow clock, write, change": write_then_change(0.4, 0, False, clock=-3600),
    "save: conversions": converts,
    "save: URIs": spelled,
    "save: no plain files": no_plain_files,
    "save: off": no_snapshots,
}
