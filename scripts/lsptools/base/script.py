"""What lspcheck-page, lspcheck-replay and lspcheck-fuzz do alike: arguments, the log, and what they
write."""

import argparse
import json
import os
import sys
import tempfile

from lsptools.base.outputs import say
from lsptools.base.program import Failed, find_program, printable, version_of


class Parser(argparse.ArgumentParser):
    """Reads arguments. If they are bad, the status is 64, and one line says why."""

    def error(self, message):
        say(f"{self.prog}: {printable(message)} (try --help)")
        sys.exit(64)

    def add_version(self, needed):
        """The option --version, with which these arguments are not needed."""
        how = {"nargs": 0, "const": needed, "default": False}
        self.add_argument("--version", action=Version, help="print that of lspcheck", **how)

    def _print_message(self, message, file=None):
        try:
            put(message.encode())
        except Failed as failed:
            say(f"{self.prog}: {failed}")
            sys.exit(failed.status)


class Version(argparse.Action):
    """--version, before or after --program."""

    def __call__(self, parser, given, *_):
        given.version = True
        for it in self.const:
            it.required = False


def print_version(given):
    """The version of the lspcheck that a script would run: the script has none of its own."""
    put(f"{printable(version_of(find_program(given.program, sys.argv[0])))}\n".encode())


def number(word):
    """A number from 1 that is an argument."""
    if not word.isascii() or not word.isdigit() or int(word) == 0:
        raise argparse.ArgumentTypeError(f"{word} is not a number from 1")
    return int(word)


def whole_number(word):
    """A number from 0 that is an argument."""
    if not word.isascii() or not word.isdigit():
        raise argparse.ArgumentTypeError(f"{word} is not a number from 0")
    return int(word)


def seconds(word):
    """A time that is an argument."""
    try:
        value = float(word)
    except ValueError:
        value = 0
    if not 0 < value <= 86400:
        raise argparse.ArgumentTypeError(f"{word} is not a number of seconds")
    return value


def quoted(name):
    """A name for a message: JSON text if it has characters that a terminal would obey or hide."""
    return name if name.isprintable() else json.dumps(name)


def write(path, data):
    """Writes a file as a whole or not at all, readable only by its owner."""
    folder, name = os.path.split(os.path.abspath(path))
    try:
        with tempfile.NamedTemporaryFile(dir=folder, prefix=f".{name}-", delete=False) as file:
            try:
                file.write(data)
                file.close()
                os.replace(file.name, path)
            except BaseException:
                os.unlink(file.name)
                raise
    except OSError as error:
        raise Failed(f"{quoted(path)}: {error.strerror}", 3) from error


def check_writable(path):
    """Fails if a file can't be written there, before hours are spent."""
    try:
        with tempfile.TemporaryFile(dir=os.path.dirname(os.path.abspath(path))):
            pass
        if os.path.isdir(path):
            raise IsADirectoryError(21, "Is a directory")
    except OSError as error:
        raise Failed(f"{quoted(path)}: {error.strerror}", 3) from error


def put(data):
    """Writes to standard output. What could not be written is not tried again at the end."""
    try:
        sys.stdout.buffer.write(data)
        sys.stdout.buffer.flush()
    except OSError as error:
        os.dup2(os.open(os.devnull, os.O_WRONLY), sys.stdout.fileno())
        raise Failed(f"standard output: {error.strerror}", 3) from error
