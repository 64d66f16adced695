"""Editors that recorders/try runs with the proxy, on a screen of their own that no one sees (Xvfb):
Kate, Qt Creator, Spyder and GNOME Builder. Debian: kate, qtcreator, spyder, gnome-builder, clangd,
python3-pylsp, golang-go and gopls, and for the screen xvfb, openbox, xdotool and dbus.

Each types into five files, one after the other, and saves four times: a file with LF, with CR LF,
without a last line end, with a byte order mark, and with an emoji in the line that is typed into.
A log is good if texts were compared, and the verdict is yes or a fault that the editor is known
for. If a change of Kate's is dropped on its way to the proxy, the next save must tell. (Kate sends
whole texts, so a change after the dropped one would bring the two texts together again.)
"""

import functools
import json
import os
import re
import shutil
import signal
import subprocess
import time
from pathlib import Path

RECORDERS = Path(__file__).resolve().parent.parent

# A line of text and how a comment begins, by the kind of the file.
LINES = {
    ".cpp": (["int add(int a, int b) {", "  return a + b;", "}"], "//"),
    ".py": (["def add(a, b):", "    return a + b", ""], "#"),
    ".go": (["package a", "", "func add(a int, b int) int { return a + b }"], "//"),
}

# What is before the text, what is between its lines, and what is after it.
FORMS = {
    "lf": ("", "\n", "\n"),
    "crlf": ("", "\r\n", "\r\n"),
    "no-end": ("", "\n", ""),
    "mark": ("\ufeff", "\n", "\n"),
    "emoji": ("", "\n", "\n"),
}

# Passes on what an editor writes to a server, but for its N-th change.
DROPS = r"""
import subprocess, sys
left, *command = sys.argv[1:]
left, source = int(left), sys.stdin.buffer
server = subprocess.Popen(command, stdin=subprocess.PIPE)
while head := source.readline():
    size = int(head.split()[1])
    frame = head + source.readline() + source.read(size)
    left -= b'"textDocument/didChange"' in frame
    if left == 0:
        left = -1
        continue
    server.stdin.write(frame)
    server.stdin.flush()
server.stdin.close()
sys.exit(server.wait())
"""


def text_of(form, kind):
    """The text of a file. Spyder guesses the encoding of one that doesn't name it."""
    before, between, after = FORMS[form]
    lines, comment = LINES[kind]
    first = [f"{comment} -*- coding: utf-8 -*-", f"{comment} é 😀 x" if form == "emoji" else comment]
    return (before + between.join([*first, *lines]) + after).encode()


class Window:
    """An editor in a window, on a screen of its own."""

    def __init__(self, home):
        self.home = home
        source, sink = os.pipe()
        words = ["Xvfb", "-displayfd", str(sink), "-screen", "0", "1200x900x24"]
        quiet = {"stdout": subprocess.DEVNULL, "stderr": subprocess.DEVNULL}
        self.screen = subprocess.Popen(words, pass_fds=[sink], **quiet)
        os.close(sink)
        with open(source) as shown:
            display = shown.readline().strip()
        (home / "run").mkdir(mode=0o700)
        self.setting = {
            "PATH": "/usr/bin:/bin",
            "HOME": str(home),
            "SHELL": "/bin/sh",
            "DISPLAY": f":{display}",
            "XDG_RUNTIME_DIR": str(home / "run"),
            "LC_ALL": "C.UTF-8",
        }
        self.manager = subprocess.Popen(["openbox"], env=self.setting, **quiet)
        self.editor = None

    def start(self, words, seconds=90, asks=False, **setting):
        """Starts an editor, and waits this long until it has opened a document. Some editors ask
        whether the server may be started."""
        self.setting.update(setting)
        with open(self.home / "output", "wb") as output:
            how = {"stdout": output, "stderr": output, "cwd": self.home / "work"}
            words = ["dbus-run-session", "--", *words]
            how.update({"env": self.setting, "start_new_session": True})
            self.editor = subprocess.Popen(words, **how)
        end, logs = time.monotonic() + seconds, self.home / "logs"
        while time.monotonic() < end and not any(map(has_opened, logs.glob("*.log"))):
            time.sleep(3)
            if asks and not logs.exists():
                self.press("Return")
        time.sleep(4)

    def do(self, *words):
        subprocess.run(["xdotool", *words], env=self.setting, stdout=subprocess.DEVNULL)

    def press(self, *keys):
        for key in keys:
            self.do("key", "--clearmodifiers", key)
            time.sleep(0.3)

    def type(self, text):
        """Types a text, and Escape, since a list of completions may be open."""
        self.do("type", "--delay", "60", text)
        time.sleep(1.5)
        self.press("Escape")

    def save(self):
        self.press("ctrl+s")
        time.sleep(2.5)

    def work(self, comment):
        """Types at both ends of the file and at the end of its second line, undoes, and saves."""
        self.press("ctrl+Home", "Down", "End")
        self.type(" z")
        self.save()
        self.press("ctrl+Home", "End")
        self.type(" one")
        self.save()
        self.press("ctrl+End")
        self.type(f" {comment} last")
        self.press("Return")
        self.save()
        self.press("ctrl+Home", "End")
        self.type(" two")
        self.press("ctrl+z")
        self.type(" three")
        self.save()
        self.press("ctrl+q")
        time.sleep(3)

    def kill_editor(self):
        """Kills the editor and what it started, if it still runs."""
        if self.editor and self.editor.poll() is None:
            os.killpg(self.editor.pid, signal.SIGKILL)
            self.editor.wait()

    def close(self):
        self.kill_editor()
        for process in (self.manager, self.screen):
            process.kill()
            process.wait()


def has_opened(log):
    return b'"textDocument/didOpen"' in log.read_bytes()


def read_if_there(path):
    return path.read_text() if path.exists() else ""


def script(path, *words):
    """A script that runs the proxy with a server, for settings that take no arguments."""
    quoted = " ".join(f'"{word}"' for word in words)
    path.parent.mkdir(exist_ok=True)
    path.write_text(f'#!/bin/sh\nexec {quoted} "$@"\n')
    path.chmod(0o755)
    return path


def kate(window, file, command):
    settings = window.home / ".config/kate/lspclient/settings.json"
    settings.parent.mkdir(parents=True)
    settings.write_text(json.dumps({"servers": {"c": {"command": [*command, "clangd"]}}}))
    (window.home / ".config/katerc").write_text("[Kate Plugins]\nlspclientplugin=true\n")
    window.start(["kate", "-n", file], asks=True)


def qt_creator(window, file, command):
    path = script(window.home / "bin/clangd-recorded", *command, "clangd")
    settings = window.home / ".config/QtProject/QtCreator.ini"
    settings.parent.mkdir(parents=True)
    settings.write_text(f"[ClangdSettings]\nClangdPath={path}\nUseClangd=true\n")
    window.start(["qtcreator", "-noload", "Welcome", file])


def spyder(window, file, command):
    # It runs a module with Python: this one becomes the proxy.
    module = window.home / "modules/recorded_pylsp.py"
    module.parent.mkdir()
    words = [*map(str, command), "pylsp"]
    module.write_text(f"import os, sys\nos.execv({words[0]!r}, {words!r} + sys.argv[1:])\n")
    folder = window.home / "conf"
    words = ["spyder", "--new-instance", "--conf-dir", folder, "--no-web-widgets", file]
    # It writes its settings when it is started for the first time.
    window.start(words, 0, PYTHONPATH=str(module.parent), PYTHONDONTWRITEBYTECODE="1")
    settings, end = folder / "config/spyder.ini", time.monotonic() + 90
    while time.monotonic() < end and "'advanced/stdio'" not in read_if_there(settings):
        time.sleep(1)
    time.sleep(20)
    window.kill_editor()
    before, begin, rest = settings.read_text().partition("provider_configuration = ")
    line, end, after = rest.partition("\n")
    for old, new in {
        "'advanced/enabled': False": "'advanced/enabled': True",
        "'advanced/module': 'pylsp'": "'advanced/module': 'recorded_pylsp'",
        "'advanced/stdio': False": "'advanced/stdio': True",
    }.items():
        line = line.replace(old, new, 1)
    settings.write_text(before + begin + line + end + after)
    window.start(words)
    window.do("mousemove", "450", "250", "click", "1")


def builder(window, file, command):
    # A login shell, which sets the PATH, finds the server.
    script(window.home / "bin/gopls", *command, "/usr/bin/gopls")
    (window.home / ".profile").write_text(f'PATH="{window.home}/bin:/usr/bin:/bin"\n')
    (file.parent / "go.mod").write_text("module a\n\ngo 1.19\n")
    opens = 'gnome-builder -p "$1" & sleep 12; gnome-builder "$2"; wait'
    window.start(["sh", "-c", opens, "sh", file.parent, file])


# The editor's program, the kind of its files, and how it is started.
WINDOWS = {
    "kate": ("kate", ".cpp", kate),
    "qtcreator": ("qtcreator", ".cpp", qt_creator),
    "spyder": ("spyder", ".py", spyder),
    "builder": ("gnome-builder", ".go", builder),
}

# Faults that these editors are known for: the editor, the rule, and the files in which it may show.
KNOWN = {
    ("builder", "702", "emoji"): "it counts columns in code points",
    ("builder", "702", "crlf"): "it sends CR LF and writes LF",
    **{("spyder", "603", form): "it repeats a version after undo" for form in FORMS},
    **{("spyder", "608", form): "it sends an older text with didSave" for form in FORMS},
    **{("kate", "608", form): "it sends didSave ahead of its change" for form in FORMS},
}

NEEDED = ["Xvfb", "openbox", "xdotool", "dbus-run-session"]


def session(name, form, home, command):
    """An editor's session with one file: its logs."""
    _, kind, start = WINDOWS[name]
    file = home / "work" / f"{form}{kind}"
    file.parent.mkdir(parents=True)
    file.write_bytes(text_of(form, kind))
    window = Window(home)
    try:
        start(window, file, [*command, str(RECORDERS / "proxy"), str(home / "logs")])
        window.work(LINES[kind][1])
    finally:
        window.close()
    return sorted((home / "logs").glob("*.log"))


def counts(program, log):
    """The verdict on a log, and how many of its snapshots were compared."""
    shown = subprocess.run([program, "show", "--all", log], capture_output=True, text=True).stdout
    is_yes = re.search(r"^yes\n.*\nsnapshots (\d+) unmatched (\d+)$", shown, re.M)
    if is_yes:
        return "yes", int(is_yes[1]) - int(is_yes[2])
    compared = re.findall(r"^(?:\d+|no 702) snapshot ", shown, re.M)
    return re.search(r"^no .*", shown, re.M)[0], len(compared)


def is_missing(name):
    missing = [it for it in [WINDOWS[name][0], *NEEDED] if shutil.which(it) is None]
    if missing:
        print(f"{name}: left out: {', '.join(missing)} not installed")
    return bool(missing)


def try_window(name, program, folder):
    """For each file, whether its logs are good, and the reports on them."""
    for form in [] if is_missing(name) else FORMS:
        total = 0
        for log in session(name, form, folder / form, []):
            verdict, compared = counts(program, log)
            total += compared
            cause = KNOWN.get((name, "".join(verdict.split()[1:2]), form))
            shown = f"{verdict} (known: {cause})" if cause else verdict
            yield f"{name}: {form}: {log.name}", verdict == "yes" or cause is not None, shown
        yield f"{name}: {form}: texts", total > 0, f"{total} compared"


def try_lost(program, folder):
    """Whether a save tells that a change was dropped between Kate and the proxy."""
    if is_missing("kate"):
        return
    drops = folder / "drops.py"
    drops.write_text(DROPS)
    for log in session("kate", "lf", folder / "home", ["/usr/bin/python3", str(drops), "2"]):
        verdict, _ = counts(program, log)
        yield f"a lost change in kate: {log.name}", verdict.startswith("no 702 snapshot "), verdict


TRIALS = {name: functools.partial(try_window, name) for name in WINDOWS}
TRIALS["lost"] = try_lost
