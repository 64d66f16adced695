"""The pages in browsers: a Python that has Selenium drives them."""

import json
import re
import subprocess
from pathlib import Path

from of_node import script

HERE = Path(__file__).resolve().parent


def in_browsers(tried):
    python, reason = script("page/run").python_of_browser()
    if python is None:
        print(f"the browsers' tests are skipped: {reason}")
        return
    given = {"program": str(tried.program), "built": str(tried.built), "folder": str(tried.folder), "logs": [*map(str, tried.logs)],
             "first": tried.seeds.start, "count": len(tried.seeds), "few": tried.few, "names": tried.in_browsers}
    run = subprocess.run([python, "-B", HERE / "browsers.py"], input=json.dumps(given), stdout=subprocess.PIPE, text=True)
    *lines, last = run.stdout.splitlines() or [""]
    print("\n".join(lines), end="\n" if lines else "", flush=True)
    counts = re.fullmatch(r"(\d+) (\d+)", last)
    if counts is None or run.returncode != 0:
        tried.note("browsers", False, f"it ended with status {run.returncode}: {last}")
    else:
        tried.add(*map(int, counts.groups()))


TESTS = [in_browsers]
