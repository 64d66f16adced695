"""How a program of lspcheck was made: from sources that were proved, or with checks instead of proofs.
It says so itself, so a copy says the same wherever it is."""

import re
import subprocess

# What follows the version of a program that was compiled with checks; then, after a comma, may come
# the commit that it was compiled at.
CHECKED = "(checked, not proved)"


def version_of(program):
    """The version that a program prints, and how it was made; None if it is not lspcheck."""
    try:
        run = subprocess.run([program, "--version"], stdin=subprocess.DEVNULL, capture_output=True, timeout=600)
    except (OSError, subprocess.TimeoutExpired):
        return None
    found = re.fullmatch(r"lspcheck (\d[\w.]*)( .*)?\n", run.stdout.decode(errors="replace"))
    return (found[1], (found[2] or "").strip()) if found and run.returncode == 0 else None


def is_proved(program):
    """Whether this is lspcheck, made from sources that were proved."""
    found = version_of(program)
    return found is not None and found[1] == ""


def leaves_out(program, what):
    """Whether a test, which takes too long with a program compiled with checks or too much memory, is
    left out with this one; then a line says so."""
    if not is_checked(program):
        return False
    print(f"left out, since the program has checks instead of proofs: {what}", flush=True)
    return True


def is_checked(program):
    """Whether this is lspcheck, compiled with checks."""
    found = version_of(program)
    return found is not None and (found[1] == CHECKED or found[1].startswith(f"{CHECKED}, "))
