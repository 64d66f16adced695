"""The server: how it is started and greeted, in which encoding, and the logs of its sessions."""

import json
import os
import re
import tempfile
from dataclasses import dataclass
from pathlib import Path

from lsptools.base.messages import encoded, member, notification, request
from lsptools.base.program import Failed, Program
from lsptools.base.session_log import (
    EDITOR, FIRST_LINE, SERVER, SNAPSHOT, Record, as_records, framed,
)
from lsptools.servers.children import Fault
from lsptools.servers.drive import Run, Setting, error_of
from lsptools.servers.recording import Recording, encoding_of, read
from lsptools.servers.sending import choose
from lsptools.servers.server import Tape

# The name of each kind of file, by its language; the language that a server is for, by its name;
# and both are asked for where they are not known.
ENDINGS = {
    "c": ".c", "cpp": ".cpp", "css": ".css", "fortran": ".f90", "go": ".go", "html": ".html",
    "java": ".java", "javascript": ".js", "json": ".json", "latex": ".tex", "lua": ".lua",
    "markdown": ".md", "perl": ".pl", "php": ".php", "python": ".py", "ruby": ".rb", "rust": ".rs",
    "shellscript": ".sh", "sql": ".sql", "toml": ".toml", "typescript": ".ts", "xml": ".xml",
    "yaml": ".yaml", "zig": ".zig",
}
LANGUAGES = {
    "bash-language-server": "shellscript", "ccls": "cpp", "clangd": "cpp", "fortls": "fortran",
    "gopls": "go", "jdtls": "java", "jedi-language-server": "python", "lua-language-server": "lua",
    "marksman": "markdown", "pylsp": "python", "pyright-langserver": "python", "ruff": "python",
    "rust-analyzer": "rust", "solargraph": "ruby", "texlab": "latex", "taplo": "toml",
    "typescript-language-server": "typescript", "vscode-json-language-server": "json", "zls": "zig",
}
# What a server breaks, in a report.
OF_SERVER = re.compile(r"no \d+ server ")
# How a server wants the changes of a document.
FULL, INCREMENTAL = 1, 2
SYMBOLS = {"hierarchicalDocumentSymbolSupport": True}
FOLDING = {"lineFoldingOnly": False}
TEXT_DOCUMENT = {
    "synchronization": {"didSave": True},
    **dict.fromkeys("formatting documentLink colorProvider selectionRange".split(), {}),
    "documentSymbol": SYMBOLS,
    "foldingRange": FOLDING,
    "publishDiagnostics": {"versionSupport": True},
}


@dataclass(frozen=True)
class Language:
    """A language, as LSP names it."""

    name: str

    # The folder in which the documents are said to be. No file is there.
    folder: str = "/lspcheck-fuzz"

    def uri(self, number):
        """The name of a document."""
        ending = ENDINGS.get(self.name, f".{self.name}")
        return f"{Path(self.folder).as_uri()}/fuzz{number}{ending}"


def language_of(server, start):
    """The language of a file, or of a server whose name is known; None if neither tells it."""
    if start is not None:
        ending = os.path.splitext(start)[1]
        return next((it for it, its_ending in ENDINGS.items() if its_ending == ending), None)
    name = os.path.splitext(os.path.basename(server))[0]
    return next((it for known, it in LANGUAGES.items() if name.startswith(known)), None)


def greeting(root, encodings):
    """The request that begins a session."""
    uri = Path(root).as_uri()
    general = {"positionEncodings": encodings}
    return {
        "processId": os.getpid(),
        "rootUri": uri,
        "workspaceFolders": [{"uri": uri, "name": "root"}],
        "capabilities": {"general": general, "textDocument": TEXT_DOCUMENT},
    }


class Greeting:
    """What a server and an editor say first, and agree on: the log of that, and of sessions that
    begin with it."""

    def __init__(self, target, encodings):
        self.target = target
        asked = request(1, "initialize", greeting(target.root, encodings))
        answer = target.first_answer(asked)
        if "error" in answer:
            raise Fault(f"{target.name} answers initialize with {error_of(answer)}")
        self.encoding = encoding_of(answer)
        greeted = notification("initialized", {})
        first = [(EDITOR, asked), (SERVER, encoded(answer)), (EDITOR, greeted)]
        self.head = FIRST_LINE + b"".join(
            record for kind, content in first for record in as_records(kind, framed(content))
        )
        sync = member(answer, "result", "capabilities", "textDocumentSync")
        self.sync = member(sync, "change") if isinstance(sync, dict) else sync
        if self.sync not in (FULL, INCREMENTAL):
            raise Fault("the server wants no changes of documents")
        self.setting = self.setting_of(())

    @property
    def takes_ranges(self):
        """Whether the server takes changes of a part of a text."""
        return self.sync == INCREMENTAL

    def setting_of(self, sent):
        """What replays a session with these messages."""
        return self.target.setting_of(self.log(sent))

    def log(self, sent):
        """The log of a session with these messages, each with a snapshot of the text that it
        sets."""
        return self.head + b"".join(records_of(sent))


def records_of(sent):
    for it in sent:
        yield from as_records(EDITOR, framed(it.content))
        if it.text is not None:
            yield snapshot(it.uri, it.version, it.text)


def snapshot(uri, version, text):
    return Record(SNAPSHOT, text.encode("utf-8", "replace"), version, uri.encode()).encoded()


class Target:
    """The server that is tested: its command, how long it may take, and the folder for the files of
    its sessions."""

    def __init__(self, program, command, root, folders, folder, wait, jobs):
        self.program, self.command, self.root, self.folders = program, command, root, folders
        self.folder, self.wait, self.jobs = folder, wait, jobs

    @property
    def name(self):
        """The name of the server."""
        return os.path.basename(self.command[0])

    def setting(self, program, recording):
        return Setting(program, recording, self.command, self.wait, self.folders, self.jobs)

    def first_answer(self, asked):
        """How the server answers `initialize`."""
        with Run(self.setting(None, Recording(free_id=2))) as run:
            content = run.folder.put_into(asked)
            run.server.ask("1", content, True)
            answer = run.server.wait("1", self.wait)
            if answer is None:
                run.when = "after initialize"
                run.check()
                raise run.timed_out("initialize")
            return answer

    def file(self, log):
        """The name of a new file with these bytes."""
        number, name = tempfile.mkstemp(".log", dir=self.folder)
        with os.fdopen(number, "wb") as file:
            file.write(log)
        return name

    def verdict(self, path):
        """What lspcheck says about a log: `yes`, or what the server breaks. What this side breaks
        is a fault of this command: then nothing that the session shows counts."""
        report = Program(self.program, path).output("check", "--all").decode("utf-8", "replace")
        verdicts = [it for it in report.splitlines() if it.startswith(("yes", "no ", "bad "))]
        own = [it for it in verdicts if it != "yes" and not OF_SERVER.match(it)]
        if own or not verdicts:
            said = json.dumps((own or report.splitlines() or [""])[0])
            raise Failed(f"lspcheck says {said} about a session of this command", 2)
        return verdicts[0]

    def setting_of(self, log):
        """What replays a log, which must be right."""
        path = self.file(log)
        self.verdict(path)
        program = Program(self.program, path)
        recording = read(program)
        choose(recording, self.folders, True)
        return self.setting(program, recording)


class Journal:
    """The log of all that a server is sent and answers, which is written as it goes. It is used as
    a context, which removes it."""

    def __init__(self, target):
        self.target, self.path = target, target.file(b"")
        self.file = open(self.path, "r+b")
        self.tape = Tape(self.file)

    def note(self, uri, version, text):
        """Notes the right text of a document."""
        self.tape.write([snapshot(uri, version, text)])

    def size(self):
        return os.path.getsize(self.path)

    def verdict(self):
        """Ends the log: what lspcheck says about it."""
        self.end()
        if self.tape.error:
            raise Failed(f"{self.path}: {self.tape.error.strerror}", 3)
        return self.target.verdict(self.path)

    def __enter__(self):
        return self

    def __exit__(self, *_):
        self.end()
        os.unlink(self.path)

    def end(self):
        """Closes the file. What it could not take is the fault of the log."""
        try:
            self.file.close()
        except OSError as error:
            self.tape.error = self.tape.error or error
