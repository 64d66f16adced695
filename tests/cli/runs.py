"""Runs of the built program for tests/cli/run, and what each must give."""

import os
import re
import subprocess

from processes import SECONDS


def begins(fixed, *more):
    """Text that begins with the fixed words, and may continue with lines that contain all of these."""
    ahead = b"".join(b"(?=.*%s)" % re.escape(word) for word in more)
    return re.compile(b"(?s)" + re.escape(fixed) + ahead + b"(.*\n)?")


def fits(wanted, got):
    return wanted.fullmatch(got) is not None if isinstance(wanted, re.Pattern) else wanted == got


# The count of the offences of WRONGS.
OFFENCES = b"offences 5 following 1\n"

READ_FAULT = b"lspcheck: read fault\n"
WRITE_FAULT = b"lspcheck: write fault\n"


def cause(name, number):
    """The line after the fixed words of a fault: what failed, and why."""
    return b"lspcheck: %s: %s (os error %d)\n" % (os.fsencode(name), os.strerror(number).encode(), number)


class Trial:
    """Runs of the program, and how many gave the right result."""

    def __init__(self, program, folder):
        self.program, self.folder = program, folder
        self.passed = self.failed = 0

    def file(self, name, content):
        path = self.folder / name
        path.write_bytes(content)
        return path

    def note(self, what, good, got=""):
        self.passed, self.failed = self.passed + good, self.failed + (not good)
        if not good:
            print(f"FAILED {what}: {str(got)[:4000]}", flush=True)

    def run(self, what, words, status, out=b"", err=b"", given=b"", **how):
        """One run, with these bytes on standard input, and what it must give."""
        run = subprocess.run(
            [*how.pop("before", []), self.program, *words],
            **({"input": given} if isinstance(given, bytes) else {"stdin": given}),
            stdout=how.get("stdout", subprocess.PIPE),
            stderr=how.get("stderr", subprocess.PIPE),
            timeout=SECONDS,
        )
        got = (run.returncode, run.stdout or b"", run.stderr or b"")
        good = got[0] == status and fits(out, got[1]) and fits(err, got[2])
        self.note(f"{what}: lspcheck {' '.join(map(str, words))}", good, got)

    def each_way(self, words, given, status, out=b"", err=b""):
        """The same from a FILE, from standard input, and from `-`."""
        path = self.file("input", given)
        self.run("FILE", [*words, path], status, out, err)
        self.run("standard input", words, status, out, err, given)
        self.run("-", [*words, "-"], status, out, err, given)
