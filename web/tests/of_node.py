"""The command for Node, as a user calls it."""

import importlib.machinery
import importlib.util
import os
import re
import shlex
import shutil
import subprocess
import sys

import several
from given import EXAMPLES, TOP
from words import BAD_WORDS


def script(name):
    """A script of the tests, as a module."""
    loader = importlib.machinery.SourceFileLoader(name.replace("/", "_"), str(TOP / name))
    module = importlib.util.module_from_spec(importlib.util.spec_from_loader(loader.name, loader))
    loader.exec_module(module)
    return module


def wrapped(tried):
    """A program that becomes the command, and that anybody may run."""
    program = tried.folder / "for-node/lspcheck"
    program.parent.mkdir(exist_ok=True)
    shutil.copy(tried.built / "lspcheck.mjs", program.parent)
    program.write_text(f'#!/bin/sh\nexec node {shlex.quote(str(program.parent / "lspcheck.mjs"))} "$@"\n')
    for path in (tried.folder, program.parent, program):
        path.chmod(0o755)
    return program


def bad_words(cli, trial):
    for words in BAD_WORDS:
        # No words at all ask for help.
        said = b"lspcheck: error: " if words else b"Judges recorded sessions"
        trial.run("words", words, 64, b"", cli.begins(said))


def the_command_line(tried):
    """The parts of tests/cli about words, files, pipes, terminals and both outputs. Those about logs are
    tried without the command, and faster (same.py)."""
    cli = script("tests/cli/run")
    folder = tried.folder / "cli"
    folder.mkdir()
    folder.chmod(0o755)
    trial = cli.Trial(wrapped(tried), folder)
    for part in (cli.try_faults, cli.try_nothing_compared, cli.try_advice, cli.try_dash, cli.try_progress,
                 cli.try_watched, cli.try_help, several.try_statuses, several.try_options, several.try_names):
        part(trial)
    several.try_faults(trial, cli.NOBODY)
    bad_words(cli, trial)
    tried.add(trial.passed, trial.failed)


def answer_of(*words, **how):
    """The status of a program and both outputs."""
    run = subprocess.run(words, capture_output=True, text=True, **how)
    return run.returncode, run.stdout, run.stderr


def its_version(tried):
    """It names the build."""
    run = subprocess.run([wrapped(tried), "--version"], capture_output=True, text=True)
    wanted = r"lspcheck \d+\.\d+\.\d+ \(WebAssembly(, not proved)?(, commit [0-9a-f]{12}( with changes)?)?\)\n"
    tried.note("--version", re.fullmatch(wanted, run.stdout), run.stdout)


def its_memory_is_bounded(tried):
    """By LSPCHECK_MEMORY, a number of bytes."""
    refused = (4, "", "lspcheck: out of memory\n")
    wrong = (64, "", "lspcheck: LSPCHECK_MEMORY is not a number of bytes\n")
    program = wrapped(tried)
    usual = answer_of(program, "check", EXAMPLES[0])
    for bound, wanted in {"100000000": usual, "1000": refused, "": wrong, "1 MB": wrong, "9" * 19: wrong}.items():
        got = answer_of(program, "check", EXAMPLES[0], env={**os.environ, "LSPCHECK_MEMORY": bound})
        tried.note(f"LSPCHECK_MEMORY={bound}", got == wanted, got)


# A suite that looks for the checker, and asserts that a log is clean.
SUITE = """
const { isInstalled, assertClean } = require("./lspcheck-recorder.cjs");
try {
  console.log(isInstalled());
  process.stdout.write(assertClean(process.argv[1]));
} catch (error) {
  console.log(error.message);
}
"""


# The same in Python.
SUITE_IN_PYTHON = """
import sys
sys.dont_write_bytecode = True
from lspcheck_recorder import assert_clean, is_installed
print(str(is_installed()).lower())
try:
    print(assert_clean(sys.argv[1]), end="")
except Exception as error:
    print(error)
"""


def the_modules_for_suites(tried):
    """Where there is no lspcheck on the PATH, the modules run the file next to them."""
    folder = tried.folder / "suite"
    folder.mkdir()
    (folder / "node").symlink_to(shutil.which("node"))
    for name in ("node/lspcheck-recorder.cjs", "python/lspcheck_recorder.py"):
        shutil.copy(TOP / "recorders" / name, folder)
    how = {"cwd": folder, "env": {"PATH": str(folder)}, "capture_output": True, "text": True}
    suites = {"Node": [folder / "node", "-e", SUITE], "Python": [sys.executable, "-c", SUITE_IN_PYTHON]}
    for name, words in suites.items():
        alone = subprocess.run([*words, "none.log"], **how)
        tried.note(f"{name} without a checker", re.match("false\n.*no (such )?program", alone.stdout), alone)
    shutil.copy(tried.built / "lspcheck.mjs", folder)
    for log in (TOP / "examples/wrong-column.log", TOP / "examples/clangd-session.log"):
        wanted = subprocess.run([tried.program, "explain", log], capture_output=True, text=True)
        end = "" if wanted.returncode == 0 else f"log: {log}\n"
        for name, words in suites.items():
            run = subprocess.run([*words, log], **how)
            tried.note(f"{name}: {log.name}", run.stdout == f"true\n{wanted.stdout}{end}", run)


TESTS = [the_command_line, its_version, its_memory_is_bounded, the_modules_for_suites]
