"""The sources of lspcheck: their checksum, their commit, and the record of what was proved."""

import hashlib
import os
import subprocess
from pathlib import Path

import programs

TOP = Path(__file__).resolve().parent.parent

# The proved program, and the record next to it: the checksum of what was proved, and that of the
# program's bytes. `./run --prove` writes it; `rt ci`, which removes the program, removes it too.
PROVED = TOP / "crates/lspcheck/out/lspcheck"
RECORD = PROVED.with_name("lspcheck.sum")

# What the program is compiled from, for git.
COMPILED = ["crates.txt", "crates/*/src/*"]


def compiled():
    """The contents of what the program is compiled from, by path."""
    paths = [TOP / "crates.txt", *sorted(TOP.glob("crates/*/src/**/*.rt"))]
    return {str(path.relative_to(TOP)): path.read_bytes() for path in paths}


def read_by_proofs():
    """The paths of what a proof rests on. No byte of the program comes from definitions and proofs,
    but with other definitions, the program would promise something else, and whether another proof
    holds, nobody has seen. HANDLES says what the program may call."""
    found = ["HANDLES", "crates.txt"]
    for crate in sorted(os.listdir(TOP / "crates")):
        for part in ("src", "specs", "proofs"):
            for folder, folders, names in os.walk(TOP / "crates" / crate / part):
                folders.sort()
                below = os.path.relpath(folder, TOP)
                found += [f"{below}/{name}" for name in sorted(names)]
    return found


def sum_of(files):
    """The checksum of files, given by their contents by path."""
    found = hashlib.sha256()
    for path, content in files.items():
        found.update(b"%s\0%d\0" % (os.fsencode(path), len(content)) + content)
    return found.hexdigest()


def sum_for_proofs(paths):
    return sum_of({path: (TOP / path).read_bytes() for path in paths})


def before_proof():
    """What a proof that begins now reads: its checksum, and for each file what tells whether it was
    written since, also where it was changed back."""
    paths = read_by_proofs()
    stats = [os.stat(TOP / path) for path in paths]
    marks = [(it.st_ino, it.st_size, it.st_mtime_ns, it.st_ctime_ns) for it in stats]
    return sum_for_proofs(paths), list(zip(paths, marks))


def record(before):
    """Records that the program was proved from the sources as they were before; whether they were the
    same all the time, and the program is one that was proved."""
    if before_proof() != before or not programs.is_proved(PROVED):
        return False
    new = RECORD.with_name("lspcheck.sum.new")
    new.write_text(f"{before[0]} {hashlib.sha256(PROVED.read_bytes()).hexdigest()}\n")
    os.replace(new, RECORD)
    return True


def why_unproved(program=PROVED):
    """Why a program is not one that was proved from these sources, or None if it is."""
    name = os.path.relpath(program, TOP) if TOP in program.parents else program
    if not program.is_file():
        return "there is no proved program"
    sums = RECORD.read_text(errors="replace").split() if RECORD.is_file() else []
    if len(sums) != 2:
        return f"nothing records what {name} was built from"
    if sums[1] != hashlib.sha256(program.read_bytes()).hexdigest():
        return f"{name} is not the program that was proved"
    if sums[0] != sum_for_proofs(read_by_proofs()):
        return f"the sources have changed since {name} was proved"
    return None


def git(*words):
    """What git prints in this folder, or None if it can't say."""
    command = ["git", "--no-optional-locks", *words]
    try:
        run = subprocess.run(command, cwd=TOP, stdin=subprocess.DEVNULL, capture_output=True, text=True, errors="replace")
    except OSError:
        return None
    return run.stdout if run.returncode == 0 else None


def commit():
    """The commit that is checked out here, or None if this is no repository of its own."""
    said = git("rev-parse", "--show-prefix", "HEAD")
    below, _, number = (said or "").partition("\n")
    return number.strip() if said and below == "" else None


def differing(paths):
    """The files among these that differ from the commit or that it doesn't have, or None if git
    can't say."""
    said = git("status", "--porcelain", "--untracked-files=all", "--", *paths)
    return None if said is None else [line[3:] for line in said.splitlines()]


def commit_in_words(paths=COMPILED):
    """The commit of what the program is compiled from, as its --version names it; nothing if it is
    not known."""
    found, changed = commit(), differing(paths)
    if found is None or changed is None:
        return ""
    return f", commit {found[:12]}{' with changes' if changed else ''}"
