"""The program with one of its calls failing: the library that makes it fail, and a run with that
library."""

import os
import shutil
import subprocess
import sys
import tempfile
import threading
from pathlib import Path

SOURCE = Path(__file__).resolve().parent / "faults.c"

# The status and the words of each fault. A write that takes nothing counts as failed.
FAULTS = {
    "allocation": (4, b"lspcheck: out of memory\n"),
    "read": (3, b"lspcheck: read fault\n"),
    "write": (3, b"lspcheck: write fault\n"),
    "nothing": (3, b"lspcheck: write fault\n"),
}


def library(folder):
    """The path of the library, built in this folder. Without a compiler, the script ends here."""
    if shutil.which("cc") is None:
        sys.exit(f"{sys.argv[0]}: no C compiler: there is no `cc` on the PATH, which builds {SOURCE.name}")
    path = folder / "faults.so"
    built = subprocess.run(
        ["cc", "-O1", "-shared", "-fPIC", "-o", path, SOURCE, "-ldl"], capture_output=True, text=True
    )
    if built.returncode != 0:
        sys.exit(f"{sys.argv[0]}: cc did not build {SOURCE.name}:\n{built.stdout}{built.stderr}")
    return str(path)


# The variables of each run, and one file for each thread, where a run says how many calls it made.
ENVIRONMENT = dict(os.environ)
COUNTS = threading.local()


def count_file():
    """The file of this thread."""
    if not hasattr(COUNTS, "file"):
        COUNTS.file = tempfile.NamedTemporaryFile()
    COUNTS.file.truncate(0)
    return COUNTS.file


def answer(program, words, preload, kind, most, at=0, given=None):
    """The status, the output and the errors of one run, and how many calls of the kind it made. If
    `most` is given, each read or write takes at most that many bytes."""
    count = count_file()
    settings = {"LD_PRELOAD": preload, "FAULT_KIND": kind, "FAULT_AT": str(at), "FAULT_COUNT": count.name}
    if kind != "allocation" and most is not None:
        settings["FAULT_MOST"] = str(most)
    how = {"stdin": subprocess.DEVNULL} if given is None else {"input": given}
    run = subprocess.run([program, *words], capture_output=True, env={**ENVIRONMENT, **settings}, **how)
    return (run.returncode, run.stdout, run.stderr), int(os.pread(count.fileno(), 100, 0) or 0)
