"""What runs the program for WebAssembly: the command for Node, and the page on which logs are
dropped."""

import base64
import gzip
import json
import os
import shutil
import sys
import zlib
from pathlib import Path

TOP = Path(__file__).resolve().parent.parent
WEB, PAGE = TOP / "web", TOP / "scripts/lsptools/page"
sys.path.append(str(TOP / "scripts"))

from lsptools.base import report_lines
from lsptools.page import document, in_markdown, rules
from wasm_module import Refused, output

# What the command for Node has in place of its module and its build.
OF_MODULE = 'readFileSync(new URL("lspcheck.wasm", import.meta.url))'
OF_BUILD = '"(unbuilt)"'


def text_of(path):
    return path.read_text(encoding="utf-8")


def bundled(path, *options):
    """A module and what it imports, as one script."""
    if shutil.which("esbuild") is None:
        raise Refused("there is no esbuild (Debian: esbuild)")
    return output("esbuild", path, "--bundle", "--charset=utf8", "--log-level=error", *options)


def script(name):
    return bundled(WEB / f"page/{name}.mjs", "--format=iife")


def packed(data):
    """Bytes in a script of a page, which is not run."""
    return base64.b64encode(zlib.compress(data, 9)).decode()


def command(module, build):
    """The command for Node."""
    options = ["--format=esm", "--platform=node", "--legal-comments=inline"]
    made = bundled(WEB / "lspcheck.mjs", *options)
    data = base64.b64encode(gzip.compress(module, 9, mtime=0)).decode()
    given = {OF_MODULE: f'Buffer.from("{data}", "base64")', OF_BUILD: json.dumps(build)}
    for old, new in given.items():
        if made.count(old) != 1:
            raise Refused(f"web/lspcheck.mjs has no {old}")
        made = made.replace(old, new)
    return made


def parts_of_pages(build):
    """What a page is made from that lspcheck-page could have made."""
    with open(os.devnull, "wb") as nothing:
        page = document.Document(nothing)
    return {
        "mark": document.MARK.decode(),
        "template": text_of(PAGE / "page.html"),
        "style": page.parts["STYLE"],
        "script": page.parts["SCRIPT"],
        "policy": page.parts["POLICY"],
        "forms": [form for forms in report_lines.forms().values() for form in forms],
        "rules": rules.rules(),
        "words": in_markdown.WORDS,
        "build": build,
    }


def policy_of(scripts, styles):
    """The policy of the page, which the pages that are shown in it obey, too."""
    return "; ".join([
        "default-src 'none'",
        f"script-src {' '.join(map(document.hash_of, scripts))} 'wasm-unsafe-eval'",
        f"style-src {' '.join(map(document.hash_of, styles))}",
        "worker-src blob:",
        "frame-src blob:",
        "base-uri 'none'",
        "form-action 'none'",
        "require-trusted-types-for 'script'",
        "trusted-types lspcheck",
    ])


def page(module, build):
    """The page on which logs are dropped."""
    parts, checker = parts_of_pages(build), script("checker")
    style = text_of(PAGE / "page.css") + text_of(WEB / "page/checker.css")
    given = {
        "POLICY": policy_of([checker, parts["script"]], [style, parts["style"]]),
        "STYLE": style,
        "SCRIPT": checker,
        "BUILD": f"lspcheck {build}",
        "MODULE": packed(module),
        "WORKER": packed(script("worker").encode()),
        "PARTS": packed(json.dumps(parts, separators=(",", ":")).encode()),
    }
    pieces = text_of(WEB / "page/checker.html").split("@")
    return "".join(given[it] if at % 2 else it for at, it in enumerate(pieces))


def files(module, build):
    """Each file that is built, by its name."""
    return {
        "lspcheck.wasm": module,
        "lspcheck.mjs": command(module, build).encode(),
        "lspcheck.html": page(module, build).encode(),
        "again.js": script("again").encode(),
    }
