"""What the pages show, with the server of the tests; and real servers, as far as they are installed."""

import os
import re
import shutil
import subprocess
import sys

from hunts import COMMAND, HASTY, SERVER, TOP, check, run
from processes import SECONDS

# The Debian package of each server, which has its version.
PACKAGES = {
    "clangd": "clangd-14", "pylsp": "python3-pylsp", "gopls": "gopls", "ccls": "ccls", "rust-analyzer": "rust-analyzer",
}
# How long a real server is tried, and what it may take for an answer, in seconds: clangd 14 gives none any
# more once it has dropped as many documents as there are processors while it was building them.
LONG, WAIT = 120, 20


def block_after(page, mark):
    """The block of code that a page shows after a comment."""
    text = (TOP / page).read_text()
    return re.search(rf"^<!-- {re.escape(mark)} -->\n```\w*\n(.*?)^```$", text, re.S | re.M)[1]


def example():
    """The command of README's example, and what it writes."""
    text = (TOP / "README.md").read_text()
    return re.search(r"^\$ (lspcheck-fuzz .*)\n((?:.*\n)*?)```$", text, re.M).groups()


def scripts(place, commands):
    """A folder with a script for each command, and the environment that finds them."""
    for name, words in commands.items():
        path = place / name
        path.write_text("#!/bin/sh\nexec " + " ".join(f"'{it}'" for it in words) + ' "$@"\n')
        path.chmod(0o755)
    return {**os.environ, "PATH": f"{place}:{os.environ['PATH']}"}


def shape(line):
    """A line without its texts and numbers, up to `..`."""
    line = re.sub(r'"(?:[^"\\]|\\.)*"', '""', line.partition(" ..")[0])
    return re.sub(r"\d+", "0", line)


def page_shows_what_is_written(program, place):
    """The server of the tests stands for pylsp, and counts characters, too: other texts, the same words."""
    command, lines = example()
    hasty = [sys.executable, HASTY, "--program", program]
    setting = scripts(place, {"lspcheck-fuzz": hasty, "pylsp": [*SERVER, "characters"]})
    done = subprocess.run(
        command.replace("--small", f"--seconds {SECONDS} --small"), shell=True, cwd=place, env=setting,
        capture_output=True, text=True, timeout=2 * SECONDS,
    )
    shown, said = lines.splitlines(), done.stdout.splitlines()
    assert done.returncode == 1 and len(said) == 3, done
    assert said[0].startswith(shown[0].partition("text")[0]), (shown, said)
    assert shape(said[0]).startswith(shape(shown[0])) and said[1] == shown[1] and shown[2] == "..", (shown, said)


def recipe_for_ci_works(program, place):
    """With a server that drifts, and with an honest one, which it accuses of nothing."""
    (place / "fuzz.sh").write_text(block_after("docs/IN_A_TEST_SUITE.md", "fuzz.sh"))
    quick = [sys.executable, HASTY, "--program", program, "--only", "whole"]
    for faults, wanted in ((["whole"], 1), ([], 0)):
        setting = scripts(place, {"lspcheck-fuzz": quick, "my-server": [*SERVER, *faults]})
        text = (place / "fuzz.sh").read_text()
        if not faults:
            text = text.replace("--seconds 300", "--seconds 20")
        done = subprocess.run(["sh", "-c", text], cwd=place, env=setting, capture_output=True, text=True, timeout=SECONDS)
        assert done.returncode == wanted, (faults, done)
    assert check(program, place / "drifts/drift.log") == "yes"


def rows():
    """The rows of docs/FOUND.md: a server, its version, the feature, the cause, and the log."""
    text = (TOP / "docs/FOUND.md").read_text()
    pattern = r"^\| `([\w-]+)` ([\w.~+-]+) \| `([\w-]+): ([^`]*)` \| .*\[.*\]\(\.\./(examples/fuzz/[\w.-]+)\)"
    return re.findall(pattern, text, re.M)


def page_lists_each_log(program, place):
    listed = [log for *_, log in rows()]
    assert sorted(listed) == sorted(f"examples/fuzz/{it.name}" for it in (TOP / "examples/fuzz").iterdir()), listed
    assert len(listed) > 5, listed
    for log in listed:
        assert check(program, TOP / log) == "yes", log


def installed(name):
    """The version of a server, as Debian has it; None if it is not installed."""
    if shutil.which(name) is None or shutil.which("dpkg-query") is None:
        return None
    words = ["dpkg-query", "-W", "-f", "${Version}", PACKAGES[name]]
    return subprocess.run(words, capture_output=True, text=True).stdout


def finds_what_the_page_says(program, place):
    """In each server of these versions, in two minutes, or ten on a busy machine; and each log shows it
    again."""
    for name in PACKAGES:
        said = installed(name)
        listed = [row for row in rows() if row[0] == name and said and row[1] in said]
        if not listed:
            print(f"left out, since there is no {name} of a version that FOUND names")
            continue
        due = sorted((feature, cause) for _, _, feature, cause, _ in listed)
        for seconds in (LONG, 5 * LONG):
            options = ["--seconds", seconds, "--wait", WAIT]
            done = run(program, options=options, command=COMMAND, server=[name], language=None, timeout=20 * LONG)
            found = sorted(re.findall(r"^drift ([\w-]+): (.*?); ", done.stdout, re.M))
            if found == due:
                break
        assert found == due, done
        for *_, log in listed:
            words = [sys.executable, TOP / "replay/lspcheck-replay", "--program", program, TOP / log, name]
            again = subprocess.run(list(map(str, words)), capture_output=True, text=True, timeout=SECONDS)
            assert again.returncode == 1, (log, again)


def readme_shows_what_pylsp_does(program, place):
    if "1.7.1" not in (installed("pylsp") or ""):
        print("left out, since there is no pylsp 1.7.1: README's example with it")
        return
    command, lines = example()
    setting = scripts(place, {"lspcheck-fuzz": [sys.executable, COMMAND, "--program", program]})
    done = subprocess.run(command, shell=True, cwd=place, env=setting, capture_output=True, text=True, timeout=SECONDS)
    shown, said = lines.splitlines(), done.stdout.splitlines()
    assert done.returncode == 1 and said[0].startswith(shown[0].partition(" ..")[0]), done


TESTS = [page_shows_what_is_written, recipe_for_ci_works, page_lists_each_log]
LONG_TESTS = [readme_shows_what_pylsp_does, finds_what_the_page_says]
