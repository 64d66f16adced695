"""Records what a client and a language server send each other, as a log for lspcheck.

    child = subprocess.Popen(["some-language-server"], stdin=PIPE, stdout=PIPE)
    log = record(child, "logs")                 # a folder; before the client's first write
    log.snapshot(uri, version, text)            # whenever the client has sent a change
    assert_clean(log, "--complete")             # once the server has exited

The child may also come from `asyncio.create_subprocess_exec`. Its pipes are replaced by recording
ones: use `child.stdin` and `child.stdout` after the call. Needs Python 3.9 and no packages.
"""

from __future__ import annotations

import contextlib
import errno
import os
import re
import shutil
import stat
import subprocess
import threading
import time
from typing import Any, Awaitable, Callable, Iterable, Iterator

# The version of lspcheck that this file belongs to.
__version__ = "1.0.0"

# Opens no symbolic link, where the system has that.
NO_LINK = getattr(os, "O_NOFOLLOW", 0)

# The most bytes that one record may hold.
MOST = 1048576

# lspcheck for Node, if there is a copy next to this file: for systems that have no program.
FOR_NODE = os.path.join(os.path.dirname(os.path.abspath(__file__)), "lspcheck.mjs")

READS = {"read", "read1", "readline", "readexactly", "readuntil"}

# What may come before the server in a command: `env` and its options, a shell, Python that runs a
# module, the commands and settings before that of the server.
BEFORE_SERVER = re.compile(
    r"""( \s+
        | (\S*/)?env(\s+-([uC]\s+\S+|\S+))*\s
        | (\S*/)?(ba|da|k|z)?sh\s+-\w*c\s
        | (\S*/)?python[\d.]*\s+(-[WX]\s+\S+\s+|-\w+\s+)*-m\s
        | (cd|export|source|\.|set|umask)\s[^;&|\n]*[;&|\n]+
        | exec\s | \w+=\S*\s )+""",
    re.X,
)

# A message that sets or ends the versions of a document, and a snapshot, in `show --long`.
MESSAGE = re.compile(r'\d+ editor \w+ "textDocument/did(\w+)" \d+ (".*?")(?: (-?\d+))?')
SNAPSHOT = re.compile(r'\d+ snapshot (-?\d+) \d+ (".*") (\d+)')

# The log that was last created for each path.
created: dict[str, str] = {}


def create(path: str) -> str:
    """Creates a file that did not exist, for its owner alone: PATH, or PATH-2, PATH-3 and so on."""
    root, ending = os.path.splitext(path)
    name, number = path, 1
    while True:
        try:
            os.close(os.open(name, os.O_WRONLY | os.O_CREAT | os.O_EXCL, 0o600))
            return name
        except FileExistsError:
            number += 1
            name = f"{root}-{number}{ending}"


def why_refused(folder: str) -> str | None:
    """Why no log is written into a folder: whoever else could replace files there could have this
    process write to any file of its user. In a sticky folder, such as /tmp, nobody else can."""
    if not hasattr(os, "geteuid"):
        return None
    found = os.lstat(folder.rstrip("/") or "/")
    if stat.S_ISLNK(found.st_mode):
        return "it is a symbolic link"
    if found.st_uid not in (os.geteuid(), 0):
        return "it belongs to another user"
    if found.st_mode & stat.S_IWOTH and not found.st_mode & stat.S_ISVTX:
        return "others may write to it"
    return None


def server_name(words: list[str]) -> str:
    """The name of the server that a command starts."""
    command = re.sub(r"""["']""", "", " ".join(words))
    before = BEFORE_SERVER.match(command)
    name = re.split(r"[\s;&|]", command[before.end() :])[0] if before else words[0]
    return os.path.basename(name or words[0])


def own_name(child: Any) -> str:
    """The name of a child's log in a folder: its server, the local time, and its number."""
    # A process of asyncio has the command in its transport.
    transport = getattr(child, "_transport", None)
    process = transport.get_extra_info("subprocess") if transport else child
    words = getattr(process, "args", "server")
    if isinstance(words, (str, bytes)):
        words = ["sh", "-c", words]
    server = server_name([os.fsdecode(it) for it in words])
    return f"{server}-{time.strftime('%Y%m%dT%H%M%S')}-{child.pid}.log"


# What the pipes carry (a method of a log has its name).
Data = bytes


class Log:
    """A log in format 2. Each record is written out at once, so the log is whole at any time."""

    def __init__(self, path: str) -> None:
        self.path = created[path] = create(path)
        self.lock = threading.Lock()
        self.has_ended = False
        self.append(b"lsp-session 2\n")

    def bytes(self, side: Data, data: Data | memoryview) -> None:
        """Records bytes that the client wrote (b"E") or read (b"S")."""
        for at in range(0, len(data), MOST):
            piece = Data(data[at : at + MOST])
            self.append(b"%s %d\n%s\n" % (side, len(piece), piece))

    def snapshot(self, uri: str, version: int, text: str) -> None:
        """Records the client's whole text of a document at the version that it keeps for it."""
        name, content = uri.encode(), text.encode()
        head = b"T %d %d %d\n" % (version, len(name), len(content))
        self.append(head + name + b"\n" + content + b"\n")

    def append(self, data: Data) -> None:
        """Appends to the log, unless it was deleted: a new one would lack the beginning."""
        with self.lock, contextlib.suppress(FileNotFoundError):
            with open(os.open(self.path, os.O_WRONLY | os.O_APPEND | NO_LINK), "wb") as file:
                file.write(data)

    def ended(self, status: int | None) -> int | None:
        """Notes in a file next to the log how the server ended, if it did."""
        if status is not None and not self.has_ended:
            self.has_ended = True
            how = f"status {status}" if status >= 0 else f"signal {-status}"
            path = re.sub(r"(\.log)?$", ".exit", self.path, count=1)
            # One that was left of an earlier log of this name.
            with contextlib.suppress(FileNotFoundError):
                os.unlink(path)
            with open(os.open(path, os.O_WRONLY | os.O_CREAT | os.O_EXCL, 0o600), "w") as file:
                file.write(f"{how}\ntime {time.strftime('%Y-%m-%dT%H:%M:%S%z')}\n")
        return status


def noting(method: Callable[..., Any], note: Callable[[Any], Any]) -> Callable[..., Any]:
    """A method as it is, except that `note` also gets what it returns, now or when awaited."""

    async def waited(coming: Awaitable[Any]) -> Any:
        try:
            return note(await coming)
        except EOFError as end:
            note(getattr(end, "partial", b""))
            raise

    def call(*words: Any, **named: Any) -> Any:
        got = method(*words, **named)
        return waited(got) if hasattr(got, "__await__") else note(got)

    return call


class Recorded:
    """One of a server's pipes; all that is written or read through it is recorded."""

    def __init__(self, pipe: Any, log: Log) -> None:
        self.pipe, self.log = pipe, log

    def __getattr__(self, name: str) -> Any:
        method = getattr(self.pipe, name)
        return noting(method, self.noted) if name in READS else method

    def noted(self, data: Any) -> Any:
        self.log.bytes(b"S", data)
        return data

    def __iter__(self) -> Iterator[bytes]:
        return iter(self.readline, b"")

    def readinto(self, buffer: Any) -> int:
        count: int = self.pipe.readinto(buffer)
        self.noted(memoryview(buffer)[:count])
        return count

    def write(self, data: Any) -> Any:
        self.log.bytes(b"E", data)
        return self.pipe.write(data)

    def writelines(self, pieces: Iterable[bytes]) -> None:
        self.write(b"".join(pieces))


def path_of(child: Any, path: str) -> str:
    """The path of a child's log: the given one if it is that of a file, or else one in that
    folder."""
    is_file = path.endswith(".log") and not os.path.isdir(path)
    os.makedirs((os.path.dirname(path) or ".") if is_file else path, 0o700, exist_ok=True)
    if is_file:
        return path
    if why := why_refused(path):
        raise PermissionError(errno.EACCES, f"no log is written into this folder: {why}", path)
    return os.path.join(path, own_name(child))


def record(child: Any, path: str | os.PathLike[str]) -> Log:
    """Records all that passes through the pipes of a child process from now on.

    A path that ends in `.log` is that of the log. Any other is a folder, in which the log gets a
    name of its own. What does not exist is created. An existing file is kept: the new log then has
    a number in its name. How the child ended is noted when the client learns it, by `wait` or
    `poll`."""
    log = Log(path_of(child, os.fsdecode(path)))
    child.stdin, child.stdout = Recorded(child.stdin, log), Recorded(child.stdout, log)
    for name in {"wait", "poll"} & set(dir(child)):
        setattr(child, name, noting(getattr(child, name), log.ended))
    return log


def command() -> list[str]:
    """The words that start lspcheck: the program that is named, the one on the PATH, or that for
    Node next to this file."""
    path = os.environ.get("LSPCHECK") or "lspcheck"
    if path == "lspcheck" and shutil.which(path) is None and os.path.exists(FOR_NODE):
        path = FOR_NODE
    return ["node", path] if path.endswith(".mjs") else [path]


def is_installed() -> bool:
    """Whether there is a program to check logs with, so that tests without one can be skipped."""
    return shutil.which(command()[0]) is not None


def run(*words: str) -> tuple[int, str]:
    """The status of lspcheck, and what it writes."""
    try:
        pipes = {"stdout": subprocess.PIPE, "stderr": subprocess.STDOUT}
        ended = subprocess.run([*command(), *words], **pipes)  # type: ignore[call-overload]
    except FileNotFoundError as error:
        what = "no such program: put lspcheck on the PATH, name it in LSPCHECK, or skip the test"
        what += ' with @unittest.skipUnless(is_installed(), "no lspcheck")'
        raise FileNotFoundError(error.errno, what, command()[0]) from None
    return ended.returncode, ended.stdout.decode()


def unsent(path: str) -> str:
    """Lines about the snapshots of changes that the client has not sent, and never will."""
    versions: dict[str, set[str]] = {}
    found: list[tuple[str, str]] = []
    status, shown = run("show", "--long", path)
    # If texts differ in line ends, what comes after that is not shown.
    for line in shown.splitlines() if status == 0 else ():
        message, snapshot = MESSAGE.fullmatch(line), SNAPSHOT.fullmatch(line)
        if message and message[1] in ("Open", "Change"):
            _, uri, version = message.groups()
            held = set() if message[1] == "Open" else versions.get(uri, set())
            versions[uri] = held | {version}
            found = [it for it in found if it[0] != uri]
        elif message and message[1] == "Close":
            versions.pop(message[2], None)
        elif snapshot:
            version, uri, number = snapshot.groups()
            if version not in versions.get(uri, {version}):
                found.append((uri, f"snapshot {number}: version {version} of {uri} was not sent\n"))
    return "".join(line for _, line in found)


def assert_clean(log: Log | str | os.PathLike[str], *options: str, compared: bool = False) -> str:
    """Fails with what `lspcheck explain` writes about a log, unless its verdict is yes.

    The log is what `record` returned, or a path that was given to it, or that of any log. With
    `compared`, it also fails if no snapshot was compared with a text, or if a snapshot after the
    last change of its document was not."""
    path = log.path if isinstance(log, Log) else created.get(os.fsdecode(log), os.fsdecode(log))
    status, report = run("explain", *options, path)
    if status != 0:
        raise AssertionError(f"{report}log: {path}")
    if compared:
        counts = re.search(r"^snapshots (\d+) unmatched (\d+)$", report, re.M)
        if counts is None or counts[1] == counts[2]:
            raise AssertionError(f"no snapshot was compared\n{report}log: {path}")
        if lines := unsent(path):
            raise AssertionError(f"a change was not sent\n{lines}{report}log: {path}")
    return report
