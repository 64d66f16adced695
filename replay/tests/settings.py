"""A stranger's log runs nothing: settings, commands and folders are sent only with --with-settings."""

import re
import sys

import sessions
from logs import changed, notification, opened, request, result
from processes import quoted
from trials import HERE, check, named, run
from usage import TEXT, put

SERVER = [sys.executable, "-IS", HERE / "obedient.py"]
URI = "file:///old/folder/a.py"
# What gets to each server, and what gets to the one that is sent the whole log. Each word stands for a
# place in a log that has a command.
TO_EACH = "options strayOption experimental root configuration answer consent answeredFolder added".split()
TO_ONE = """execute customRequest customNotification noQuestion resolve files strayQuestion strayChange
formatting name language shutdown""".split()


WITHOUT = "\nwithout %d parts of the log, which may change the result: see --with-settings\n"


class Told:
    """A log with commands in many places. Each leaves its word in a file."""

    def __init__(self, place):
        self.place, self.ran = place, place / "ran"
        told = {
            "rootUri": self.folder("root"),
            "rootPath": None,
            "initializationOptions": {"linter": {"Command": self.echo("options")}},
            "InitializationOptions": {"command": self.echo("strayOption")},
            "capabilities": {"experimental": {"command": self.echo("experimental")}},
        }
        self.session = sessions.Session(5, told=told)
        self.settings()
        self.commands()
        self.documents()
        self.log = self.end()

    def echo(self, word):
        return f"echo {word} >> {quoted(self.ran)}"

    def folder(self, word):
        """A folder of this machine, with what a server builds in it."""
        folder = self.place / word
        folder.mkdir(exist_ok=True)
        (folder / "build").write_text(self.echo(word))
        return folder.as_uri()

    def settings(self):
        tell = {"settings": {"a": [{"command": self.echo("configuration")}]}}
        self.session.send(notification("workspace/didChangeConfiguration", tell))
        for id, method, answer in [
            ("s", "workspace/configuration", [{"command": self.echo("answer")}]),
            ("c", "window/showMessageRequest", {"title": "Run", "command": self.echo("consent")}),
            ("f", "workspace/workspaceFolders", [{"uri": self.folder("answeredFolder"), "name": "f"}]),
        ]:
            self.session.hear(request(id, method, {"items": [{}]}))
            self.session.send(result(id, answer))

    def ask(self, method, params):
        self.session.id += 1
        self.session.send(request(self.session.id, method, params))
        self.session.hear(result(self.session.id, None))

    def commands(self):
        folder = {"uri": self.folder("added"), "name": "added"}
        for method, params in [
            ("workspace/didChangeWorkspaceFolders", {"event": {"added": [folder], "removed": []}}),
            ("workspace/didChangeWatchedFiles", {"changes": [], "command": self.echo("files")}),
            ("x/run", {"command": self.echo("customNotification")}),
            # It has a name that is sent, but in one kind of message alone.
            ("textDocument/hover", {"command": self.echo("noQuestion")}),
        ]:
            self.session.send(notification(method, params))
        self.ask("workspace/executeCommand", {"command": self.echo("execute"), "arguments": []})
        self.ask("x/run", {"command": self.echo("customRequest")})
        self.ask("codeLens/resolve", {"range": {}, "data": {"command": self.echo("resolve")}})

    def documents(self):
        it = self.session
        for uri, language in [(f"file:///b;{self.echo('name')};.py", "python"), ("file:///c.py", {"command": self.echo("language")})]:
            message = opened(uri, 0, "x\n")
            message["params"]["textDocument"]["languageId"] = language
            it.send(message)
        it.open(URI)
        it.change(URI, [(0, 0, "a")])
        where = {"textDocument": {"uri": URI}, "position": {"line": 0, "character": 0}}
        self.ask("textDocument/hover", where)
        self.ask("textDocument/hover", {**where, "Command": self.echo("strayQuestion")})
        options = {"tabSize": {"command": self.echo("formatting")}, "insertSpaces": True}
        self.ask("textDocument/formatting", {"textDocument": {"uri": URI}, "options": options})
        document = it.documents[URI]
        document.text, document.version = "b\n", document.version + 1
        message = changed(URI, document.version, {"text": "b\n"})
        message["params"]["COMMAND"] = self.echo("strayChange")
        it.note(document, it.send(message))
        it.change(URI, [(1, 2, "\n\n")])

    def end(self):
        it = self.session
        it.id += 1
        it.send(request(it.id, "shutdown", {"command": self.echo("shutdown")}))
        it.hear(result(it.id, None))
        it.send(notification("exit", {}))
        return put(self.place, it, "told.log")

    def words(self):
        """What ran, and how often."""
        ran = self.ran.read_text().split() if self.ran.exists() else []
        self.ran.unlink(missing_ok=True)
        return {it: ran.count(it) for it in ran}


def left_out(done):
    return [it for it in done.stdout.splitlines() if it.startswith("left-out ")]


def runs_nothing_that_a_log_says(program, place):
    """Neither in the replay nor in a fresh server, a search or a small case; it is listed instead."""
    told, small, new = Told(place), place / "small.log", place / "new.log"
    assert check(program, told.log) == "yes"
    done = run(program, told.log, "lose=3", server=SERVER, options=["--every", 1, "--small", small, "--write", new])
    last = told.session.texts[-1][0]
    assert named(done) == {URI: (last, told.session.numbers[last])}, done
    ran = told.words()
    assert ran == {}, (ran, done.stdout)
    lines = left_out(done)
    for word in TO_EACH + TO_ONE:
        assert any(f"echo {word} " in line or f'/{word}"' in line for line in lines), (word, lines)
    # A line for each of them, where the first four are in one, and one line at the end.
    count = len(TO_EACH + TO_ONE) - 3
    assert len(lines) == count and len({line.split()[2] for line in lines}) == count, lines
    assert done.stdout.endswith(WITHOUT % count), done.stdout
    for log in (small, new):
        assert check(program, log) == "yes" and b"echo" not in log.read_bytes(), log.read_bytes()
    again = run(program, small, "lose=3", server=SERVER)
    assert again.returncode == 1 and len(named(again)) == 1 and told.words() == {}, again.stdout
    assert left_out(again) == [], again.stdout


def lists_what_is_left_out(program, place):
    """A line for each message, of which no terminal obeys anything. What may be a program comes first, and
    what is long is cut."""
    settings = {
        "on": True,
        "none": None,
        "words\x1b[31m\x7f": "\u202eé\n" + "x" * 5000,
        "where": "bin/lint",
        "rustfmt": {"overrideCommand": ["id", "-u"]},
        "list": [{"a": 1}],
    }
    session = sessions.Session(5, told={"rootUri": "file:///old", "workspaceFolders": [], "trace": "off"})
    session.open(URI, TEXT)
    session.send(notification("workspace/didChangeConfiguration", {"settings": settings}))
    session.send(notification("x/" + "y" * 5000, {}))
    session.send(notification("textDocument/willSave", {"textDocument": {"uri": URI}, "reason": 1, "Reason": 2}))
    session.hear(request("s", "workspace/configuration", {"items": [{}]}))
    session.send(result("s", [None]))
    done = run(program, put(place, session.end()))
    first, second, third, *rest = left_out(done)
    assert first == 'left-out editor 1 event 1 request 1 "initialize" rootUri="file:///old"', first
    heads = [f"left-out editor {it} event {session.numbers[it]} notification" for it in (4, 5, 6)]
    head = heads[0] + ' "workspace/didChangeConfiguration" '
    shown = (
        'settings.rustfmt.overrideCommand.0="id" settings.rustfmt.overrideCommand.1="-u" settings.where="bin/lint" '
        r'settings.on=true settings.words\u001b[31m\u007f="\u202e\u00e9\n'
    )
    assert second.startswith(head + shown) and second.isascii() and second.isprintable(), second
    assert re.fullmatch(r"x+\.\. settings\.list\.0\.a=1", second[len(head + shown) :]), second
    assert re.fullmatch(heads[1] + r' "x/y+\.\.', third) and len(third) < 300, third
    assert rest == [heads[2] + ' "textDocument/willSave" Reason=2'], rest
    assert done.stdout.endswith(WITHOUT % 4) and f"\nreplayed {session.sent - 3} editor " in done.stdout, done.stdout
    # It is said where nothing can be said, too.
    done = run(program, place / "session.log", "ends=3")
    assert done.returncode == 1 and '\nended "ended with status 3"\n' in done.stdout, done
    assert done.stdout.endswith(WITHOUT % 4), done


def gets_no_folder_but_those_of_map(program, place):
    """Also if the name of one leads out of a folder of the user's."""
    told = Told(place)
    told.folder("mapped")
    inside = told.place / "mapped" / "inside"
    inside.mkdir()
    for root, is_built in [
        ("file:///old", True),
        ("file:///old/inside", False),
        ("file:///old/inside/..", False),
        ("file:///old/%2e%2e/root", False),
        ((place / "mapped").as_uri(), True),
        ((place / "root").as_uri(), False),
        ("file:///old/../root", False),
    ]:
        folders = [{"uri": root, "name": "a"}, {"uri": told.folder("root"), "name": "b"}]
        session = sessions.Session(5, told={"rootUri": root, "rootPath": "/old/..", "workspaceFolders": folders})
        session.open("file:///old/a.py")
        log, new = put(place, session.end()), place / "new.log"
        options = ["--map", f"/old={place}/mapped", "--write", new]
        done = run(program, log, server=SERVER, options=options)
        assert done.returncode == 0 and list(told.words()) == (["mapped"] if is_built else []), (root, done)


def runs_it_with_settings(program, place):
    """Then each server gets the settings, and the one that is sent the whole log all the rest."""
    told = Told(place)
    done = run(program, told.log, server=SERVER, options=["--with-settings"])
    assert done.returncode == 0 and "left-out" not in done.stdout and "without" not in done.stdout, done
    ran = told.words()
    assert sorted(ran) == sorted(TO_EACH + TO_ONE), ran
    assert {it for it in ran if ran[it] >= 3} >= set(TO_EACH), ran


TESTS = [
    runs_nothing_that_a_log_says,
    lists_what_is_left_out,
    gets_no_folder_but_those_of_map,
    runs_it_with_settings,
]
