"""lspcheck-fuzz with real servers, by the tests of fuzz/run: in two minutes each, it finds what
docs/FOUND.md has for the version that is installed, and nothing else; lspcheck-replay shows it
again, from the logs there; and README's example finds what it shows. Debian 12: clangd,
python3-pylsp, gopls, ccls; Debian 13: gopls, rust-analyzer.
"""

import subprocess
from pathlib import Path

RUN = Path(__file__).resolve().parents[2] / "fuzz/run"
TESTS = ["finds_what_the_page_says", "readme_shows_what_pylsp_does"]


def try_fuzz(program, _folder):
    """What fuzz/run says."""
    done = subprocess.run([RUN, program, *TESTS], capture_output=True, text=True)
    *lines, last = done.stdout.splitlines() or [done.stderr]
    for line in lines:
        print(f"fuzz: {line}")
    yield "fuzz", done.returncode == 0, last


TRIALS = {"fuzz": try_fuzz}
