"""Tests that the proxy takes no snapshot of a saved file that has another text than the editor,
because a formatter rewrote it, because it has another encoding, or because of the order in which
the editor sends its messages. Each is tried in twenty saves. A save doesn't count if the machine
was too slow for what is tried: if a formatter, for example, rewrote the file only after the proxy
had read it.
"""

import os
import random
import shutil
import threading
import time

from lsptools.proxy.files import OVERFLOW, Notices, Watch
from processes import until
from session import PROMPT, QUIET, TIMES, TOGETHER, Editor, put, sent

SAVES = 20

# How many of them must count. If fewer do, there are more saves, with a proxy that waits longer.
LEAST = 15

# What a formatter makes of a text: as long as before, so that only the bytes differ.
TIDY = str.maketrans("=", "~")


class Document:
    """A document that the editor changes and saves, with one line of text."""

    def __init__(self, editor, file, number):
        self.editor, self.file, self.uri, self.version = editor, file, file.as_uri(), 1
        self.text = f"int number = {number};\n"
        file.write_text(self.text)
        editor.open(self.uri, self.text)
        # The text that each version has.
        self.texts = {1: self.text}
        # Another program that rewrites the file, and when the file had been rewritten last.
        self.tidying, self.done = None, 0

    def edit(self, text="x = 1;\n"):
        self.text += text

    def send(self):
        self.version += 1
        self.texts[self.version] = self.text
        self.editor.change(self.uri, self.version, self.text)

    def write(self, encoding="utf-8"):
        self.file.write_bytes(self.text.encode(encoding))

    def write_by_name(self):
        put(self.file, self.text)

    def save(self):
        self.editor.save(self.uri)

    def tidy(self):
        """Rewrites the file, as a formatter does that the editor knows nothing of."""
        self.file.write_text(self.file.read_text().translate(TIDY))
        self.done = time.monotonic()

    def tidy_by_name(self):
        """The same, as `sed -i` does it."""
        put(self.file, self.file.read_text().translate(TIDY))

    def is_noted(self, count=1):
        """Waits until the proxy has noted that the file was written this many times."""
        return self.editor.notes(self.file, count)

    def is_late(self, times):
        """Whether the proxy may have read the file before all was done that is tried."""
        if self.tidying:
            self.tidying.join()
        heard = [it for it in self.editor.heard() if it.uri == self.uri]
        last = max(number for number, it in enumerate(heard) if it.method.endswith("/didSave"))
        return max(self.done, heard[-1].begun) >= heard[last].begun + QUIET * times

    def is_apart(self, times):
        """Whether the last save came too late for a file that was written before the change."""
        *_, change, save = (it.now for it in self.editor.heard() if it.uri == self.uri)
        since_written = save - self.file.stat().st_mtime_ns
        return since_written > PROMPT * times or save - change > TOGETHER * times

    def tidy_soon(self):
        """The same, by another program, within two milliseconds."""
        seconds = random.uniform(0, 0.002)
        self.tidying = threading.Timer(seconds, self.tidy)
        self.tidying.start()


def change_first(document):
    document.edit()
    document.send()
    sent(document.editor)


def formatter(document):
    change_first(document)
    document.write()
    document.tidy()
    document.save()


def formatter_by_name(document):
    change_first(document)
    document.write()
    document.tidy_by_name()
    document.save()


def formatter_takes_time(document):
    change_first(document)
    document.write()
    time.sleep(0.3)
    document.is_noted()
    document.tidy()
    document.save()


def renames_take_time(document):
    change_first(document)
    document.write_by_name()
    document.is_noted()
    document.tidy_by_name()
    document.save()


def formatter_before_change(document):
    """Neovim sends what was typed last when it has written the file and run the commands for it."""
    document.edit()
    document.write()
    time.sleep(0.2)
    document.is_noted()
    document.tidy()
    document.send()
    document.save()


def formatter_after_save(document):
    change_first(document)
    document.write()
    document.save()
    time.sleep(0.1)
    document.tidy()


def watcher(document):
    change_first(document)
    document.write()
    document.tidy_soon()
    document.save()


def watcher_before_save(document):
    change_first(document)
    document.write()
    document.tidy_soon()
    document.tidying.join()
    document.save()


def watcher_before_change(document):
    document.edit()
    document.write()
    document.tidy_soon()
    document.send()
    document.save()


def other_encoding(encoding):
    def save(document):
        document.edit("// 日本語\n" if encoding == "iso2022_jp" else "// x\n")
        document.send()
        sent(document.editor)
        document.write(encoding)
        document.save()

    return save


def change_after_save(document):
    """Kate sends what was typed half a second after `didSave`."""
    document.edit()
    document.write()
    document.save()
    time.sleep(0.5)
    document.send()


def late_save(document):
    """Spyder sends `didSave` up to 340 milliseconds late, after what was typed in that time."""
    change_first(document)
    document.write()
    time.sleep(0.17)
    document.edit()
    document.send()
    time.sleep(0.17)
    document.save()


def plain(document):
    change_first(document)
    document.write()
    document.save()


def plain_before_change(document):
    document.edit()
    document.write()
    document.send()
    document.save()


def same_text_twice(document):
    """An editor that saves twice, or a formatter that finds nothing to do."""
    change_first(document)
    document.write()
    time.sleep(0.05)
    document.is_noted()
    document.write()
    document.save()


def rewritten_and_read_again(document):
    """A formatter rewrote the file after the last save, and the editor has read it again."""
    plain(document)
    time.sleep(0.05)
    document.tidy()
    document.text = document.text.translate(TIDY)
    document.send()
    sent(document.editor)
    plain(document)


def by_name(document):
    """Many editors write another file, and rename it."""
    change_first(document)
    document.write_by_name()
    document.save()


def work(editor, place, save, link):
    """Twenty saves of this kind: each document."""
    documents = []
    for number in range(SAVES):
        file = place / f"{number}.c"
        if link:
            (place / "linked").mkdir(exist_ok=True)
            file.symlink_to(place / "linked" / f"{number}.c")
        documents.append(Document(editor, file, number))
        sent(editor)
        save(documents[-1])
    editor.settles()
    editor.quit()
    return documents


def saves(save, is_taken, link=False, is_prompt=False):
    """A test of twenty saves of this kind: whether each is taken, or none; and whether `didSave`
    has to come promptly for that."""

    def trial(place):
        counted, taken, wrong, words = 0, 0, [], ""
        for times in TIMES:
            part = place / f"times-{times}"
            part.mkdir()
            editor = Editor(part, times=times).start()
            documents = work(editor, part, save, link)
            documents = {it.uri: it for it in documents if not is_void(it, times, is_prompt)}
            found = [it for it in editor.snapshots() if it[1].decode() in documents]
            for version, uri, text in found:
                document = documents[uri.decode()]
                taken += version == document.version or not is_taken
                if text.decode() != document.texts[version]:
                    wrong.append((version, uri, text))
            counted, words = counted + len(documents), words + editor.words()
            if counted >= LEAST:
                break
        yield "no save is wrong", not wrong, (counted, len(wrong), wrong[:3])
        is_good = counted and taken == (counted if is_taken else 0)
        yield f"{'each' if is_taken else 'none'} is taken", is_good, (counted, taken)
        yield "nothing is said", words == "", words

    return trial


def is_void(document, times, is_prompt):
    """Whether the machine was too slow for this save."""
    return document.is_late(times) or is_prompt and document.is_apart(times)


def characters_sent(place):
    """A text with NUL and ESC gives a snapshot if the editor sent them."""
    editor = Editor(place).start()
    file = place / "a.c"
    for text, change in (("a\0b", "\x1b"), ("a", "\0\x1b")):
        file.write_text(text + change)
        editor.open(file.as_uri(), text)
        end = {"line": 0, "character": len(text)}
        editor.change(file.as_uri(), 2, change, {"start": end, "end": end})
        sent(editor)
        file.write_text(text + change)
        editor.save(file.as_uri())
        editor.settles()
        editor.close(file.as_uri())
    editor.quit()
    found = editor.texts()
    yield "are taken", found == [(2, b"a\0b\x1b"), (2, b"a\0\x1b")], found


def without_ctypes(place):
    """A Python that was built without ctypes: snapshots are taken, and a formatter is noticed."""
    (place / "ctypes.py").write_text("raise ImportError")
    editor = Editor(place, setting={"PYTHONPATH": str(place)}).start()
    good, bad = (Document(editor, place / f"{name}.c", 1) for name in ("good", "bad"))
    by_name(good)
    renames_take_time(bad)
    editor.settles()
    editor.quit()
    found = [uri.decode() for _, uri, _ in editor.snapshots()]
    yield "one snapshot", found == [good.uri], found
    yield "nothing is said", editor.words() == "", editor.words()


class Unwatched(Notices):
    """A kernel that watches no folder."""

    def begin(self, folder):
        return None


def looks_often(place):
    """Where the kernel reports nothing, files are looked at."""
    watch = Watch()
    watch.notices = Unwatched()
    watch.start()
    file = place / "a.c"
    put(file, "one")
    written = watch.add(os.fsencode(file))
    written.hear_save()
    put(file, "two")
    until(lambda: written.for_save)
    yield "a text", written.is_one_text() and len(written.for_save) == 1, written.for_save
    put(file, "2wo")
    until(lambda: not written.is_one_text())
    yield "another text", not written.is_one_text(), written.for_save
    written.hear_save()
    written.hear_save()
    found = written.for_save
    yield "the save after the next", written.is_one_text() and not found, found
    watch.remove(written)
    yield "nothing is looked at", not watch.others, watch.others


def folder_replaced(place):
    """A file in a folder that was removed or renamed, and made again, as by a version control
    system."""
    ways = {"removed": shutil.rmtree, "renamed": lambda it: it.rename(place / "other")}
    for way, remove in ways.items():
        watch = Watch()
        watch.start()
        folder = place / way
        folder.mkdir()
        put(folder / "a.c", "one")
        written = watch.add(os.fsencode(folder / "a.c"))
        for count, text in enumerate(("two", "three"), 1):
            remove(folder)
            is_lost = until(lambda: written in watch.others)
            folder.mkdir()
            put(folder / "a.c", text)
            until(lambda: len(written.for_save) >= count)
            yield f"text {text} of a folder that is {way}", is_lost, written.for_save
            shutil.rmtree(place / "other", ignore_errors=True)
        yield f"both texts of a folder that is {way}", len(written.for_save) == 2, written.for_save


def too_much_reported(place):
    """If the kernel has left out reports, anything may have been written."""
    watch = Watch()
    file = place / "a.c"
    file.write_text("one")
    written = watch.add(os.fsencode(file))
    reports = [[(-1, OVERFLOW, b"")], []]
    watch.notices.next = lambda: reports.pop(0)
    watch.settle()
    yield "is not one text", not written.is_one_text(), written.for_save


NONE = {
    "a formatter": formatter,
    "a formatter that renames": formatter_by_name,
    "a formatter that takes time": formatter_takes_time,
    "a formatter before the change": formatter_before_change,
    "a formatter after didSave": formatter_after_save,
    "a watcher": watcher,
    "a watcher before didSave": watcher_before_save,
    "a watcher before the change": watcher_before_change,
    "UTF-16": other_encoding("utf-16-le"),
    "ISO-2022-JP": other_encoding("iso2022_jp"),
    "the order of Kate": change_after_save,
    "the order of Spyder": late_save,
}
ALL = {
    "a plain save": plain,
    "the same text twice": same_text_twice,
    "by another name": by_name,
    "rewritten and read again": rewritten_and_read_again,
}

TESTS = {
    **{f"rewrites: {name}": saves(save, False) for name, save in NONE.items()},
    **{f"rewrites: {name}": saves(save, True) for name, save in ALL.items()},
    "rewrites: a save before the change": saves(plain_before_change, True, is_prompt=True),
    "rewrites: a link, a formatter": saves(formatter, False, link=True),
    "rewrites: a link": saves(plain, True, link=True),
    "rewrites: characters sent": characters_sent,
    "rewrites: no ctypes": without_ctypes,
    "rewrites: looked at": looks_often,
    "rewrites: the folder": folder_replaced,
    "rewrites: too much": too_much_reported,
}
