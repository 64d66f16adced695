"""The example of GOT_A_LOG, and real servers, as far as they are installed."""

import os
import re
import shutil
import subprocess
import sys

import sessions
from processes import SECONDS
from trials import COMMAND, HASTY, SERVER, TOP, check, is_clean, named, run
from usage import put

CODE = {
    "c.cpp": "int f(int a) {\n  // é😀 x\n  return a;\n}\n\nint g() { return f(1); }\n",
    "p.py": "import os\n\n\ndef f(a):\n    # é x\n    return a\n\n\nprint(f(os.name))\n",
    "g.go": "package main\n\nfunc f(a int) int {\n\t// é😀 x\n\treturn a\n}\n\nfunc main() { f(1) }\n",
}
SERVERS = {"clangd": "c.cpp", "pylsp": "p.py", "gopls": "g.go"}


def example():
    """The command of the example in docs/GOT_A_LOG.md, and a pattern of what it writes."""
    text = (TOP / "docs/GOT_A_LOG.md").read_text()
    command, lines = re.search(r"^\$ (lspcheck-replay .*)\n((?:.*\n)*?)```$", text, re.M).groups()
    return command, re.escape(lines).replace(re.escape("..\n"), r"(?:.*\n)*?")


def scripts(place, commands):
    """A folder with a script for each command."""
    for name, words in commands.items():
        path = place / name
        path.write_text("#!/bin/sh\nexec " + " ".join(f"'{it}'" for it in words) + ' "$@"\n')
        path.chmod(0o755)
    return {**os.environ, "PATH": f"{place}:{os.environ['PATH']}"}


def page_shows_what_is_written(program, place):
    """The server of the tests stands for pylsp, and counts characters, too."""
    command, pattern = example()
    hasty = [sys.executable, HASTY, "--program", program]
    setting = scripts(place, {"lspcheck-replay": hasty, "pylsp": [*SERVER, "characters"]})
    done = subprocess.run(command, shell=True, cwd=TOP, env=setting, capture_output=True, text=True, timeout=SECONDS)
    assert done.returncode == 1 and re.fullmatch(pattern, done.stdout), done
    assert check(program, TOP / "examples/after-an-emoji.log") == "yes"


def readme_shows_what_pylsp_does(program, place):
    version = shutil.which("pylsp") and subprocess.run(["pylsp", "--version"], capture_output=True, text=True)
    if not version or "1.7.1" not in version.stdout + version.stderr:
        print("left out, since there is no pylsp 1.7.1: the example of docs/GOT_A_LOG.md with it")
        return
    command, pattern = example()
    setting = scripts(place, {"lspcheck-replay": [sys.executable, COMMAND, "--program", program]})
    done = subprocess.run(command, shell=True, cwd=TOP, env=setting, capture_output=True, text=True, timeout=SECONDS)
    assert done.returncode == 1 and re.fullmatch(pattern, done.stdout), done


def code_session(place, name, wrong_length=False):
    """A session in which a line is typed and deleted, and the file saved."""
    (place / "go.mod").write_text("module example\n")
    (place / name).write_text(CODE[name])
    session = sessions.Session(3)
    uri = (place / name).as_uri()
    session.open(uri, CODE[name])
    at = CODE[name].index("x")
    for number in range(6):
        session.change(uri, [(at + number, at + number, "abcdef"[number])])
    wrong = None
    if wrong_length:
        session.until_wrong = 1
        wrong = session.change(uri, [(at, at + 2, "é")])
    session.change(uri, [(at, at + 3, "")])
    session.change(uri, [(0, 0, "\n\n")])
    return session.end(), uri, wrong


def accuses_no_real_server(program, place):
    for server, name in SERVERS.items():
        if shutil.which(server) is None:
            print(f"left out, since there is no {server}: a session with it")
            continue
        folder = place / server
        folder.mkdir()
        session, _, _ = code_session(folder, name)
        done = run(program, put(folder, session), server=[server], command=COMMAND)
        is_clean(done)
        assert done.returncode == 0 and "\nno difference in " in done.stdout, done


def finds_where_clangd_drops_a_document(program, place):
    """It does so at a wrong rangeLength."""
    if shutil.which("clangd") is None:
        print("left out, since there is no clangd: a wrong rangeLength")
        return
    session, uri, wrong = code_session(place, "c.cpp", True)
    small = place / "small.log"
    done = run(program, put(place, session), server=["clangd"], command=COMMAND, options=["--small", small])
    assert named(done) == {uri: (wrong, session.numbers[wrong])}, done
    assert check(program, small) == "yes" and f"\nsmall {small} 6 messages\n" in done.stdout, done


TESTS = [page_shows_what_is_written]
LONG_TESTS = [readme_shows_what_pylsp_does, accuses_no_real_server, finds_where_clangd_drops_a_document]
