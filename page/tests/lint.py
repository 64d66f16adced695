"""The scripts of the page, as Debian's linter and its compiler of types see them."""

import os
import re
import shutil
import subprocess
from pathlib import Path

from processes import SECONDS

HERE = Path(__file__).resolve().parent
TOP = HERE.parent.parent
JS = TOP / "scripts/lsptools/page/js"


def passes(*words):
    """Runs a tool, unless it is not installed: then a line says so."""
    if shutil.which(words[0]) is None:
        print(f"{words[0]} is not installed: it is skipped")
        return
    # A Node that is not Debian's does not look for modules where Debian's tools have theirs.
    env = {"NODE_PATH": "/usr/share/nodejs", **os.environ}
    done = subprocess.run(words, cwd=TOP, env=env, capture_output=True, text=True, timeout=SECONDS)
    assert done.returncode == 0, (done.stdout + done.stderr)[:1500]


def scripts_are_linted(program, place):
    # This format needs no other package.
    lint = ("eslint", "--no-eslintrc", "--config", HERE / "eslint.json", "--ext", ".mjs", "--format", "unix")
    passes(*lint, JS)
    passes(*lint, "--env", "node", "--rule", "max-len: [error, 130]", HERE)


def scripts_have_types(program, place):
    passes("tsc", "--project", HERE / "tsconfig.json")


def modules_are_joined(program, place):
    """Each module is in the script of a page once, after those that it imports; two that import each
    other, or declare one name, are refused."""
    code = "import sys; sys.path.append(sys.argv[1]); from lsptools.page import modules; modules.FOLDER = modules.Path(sys.argv[2]); print(modules.joined('a.mjs'), end='')"
    run = lambda: subprocess.run(["python3", "-B", "-c", code, TOP / "scripts", place], capture_output=True, text=True)
    texts = {"a": 'import { b } from "./b.mjs";\nimport {\n  c,\n} from "./c.mjs";\n\nb(c);\n', "b": 'import { c } from "./c.mjs";\n\nexport const b = c;\n',
             "c": "export async function c() {}\n"}
    for name, text in texts.items():
        (place / f"{name}.mjs").write_text(text)
    done = run()
    assert re.sub(r"\s+", " ", done.stdout).strip() == "async function c() {} const b = c; b(c);", done
    (place / "c.mjs").write_text('import { b } from "./b.mjs";\n\nexport const c = b;\n')
    assert run().returncode != 0 and "imports itself" in run().stderr
    (place / "c.mjs").write_text("export const c = 1;\nfunction b() {}\n")
    assert run().returncode != 0
    (place / "c.mjs").write_text("export default 1;\n")
    assert run().returncode != 0


TESTS = [scripts_are_linted, scripts_have_types, modules_are_joined]
