"""That web/run notices a module that is none, and one that says nothing. What else it must notice, it tries
itself, in what package/wasm built (web/tests/of_broken.py)."""

import shutil
import subprocess
import tempfile
from pathlib import Path

TOP = Path(__file__).resolve().parent.parent

# A module that has no function but one, which answers nothing, with status 0.
SILENT = bytes.fromhex("0061736d01000000 01070160027f7e017f 03020100 070801046d61696e0000 0a0601040041000b")


def checks(program):
    """Each check as its name and whether web/run noticed."""
    if missing := [name for name in ("rt", "esbuild", "node") if shutil.which(name) is None]:
        print(f"left out, since there is no {' and no '.join(missing)}: web/run")
        return
    with tempfile.TemporaryDirectory() as folder:
        for what, module in {"no module": b"", "a silent module": SILENT}.items():
            (Path(folder) / "lspcheck.wasm").write_bytes(module)
            words = ["--jobs", "1", "--built", folder, program, "the_same_of_recorded_logs"]
            done = subprocess.run([TOP / "web/run", *words], capture_output=True)
            yield f"web/run: {what}", done.returncode == 1 and b"FAILED " in done.stdout
