"""lspcheck.wasm, in Node or in a page of a browser: a program that is given its input and its faults in
memory."""

import base64
import json
import subprocess
from pathlib import Path
from queue import SimpleQueue

HERE = Path(__file__).resolve().parent
SERVER = HERE / "server.mjs"
PAGE = "<!doctype html><meta charset=utf-8><title>tests</title><script>{}</script>"


class Engine:
    """Whatever runs the module: `ask` gives the answer to a case."""

    def run(self, words, given, kind=None, most=None, at=0, bound=None):
        """What one run gives, and how many calls of the kind it made."""
        case = {"words": [str(it) for it in words], "input": base64.b64encode(given or b"").decode(), "kind": kind, "at": at}
        case |= {} if most is None else {"most": most}
        case |= {} if bound is None else {"bound": bound}
        got = self.ask(case)
        return (got["status"], *(base64.b64decode(got[it]) for it in ("out", "err"))), got["calls"]


class Node(Engine):
    """As many processes of Node as runs are asked for at once."""

    def __init__(self, module, jobs):
        self.idle, self.all = SimpleQueue(), []
        for _ in range(jobs):
            pipes = {"stdin": subprocess.PIPE, "stdout": subprocess.PIPE}
            self.all.append(subprocess.Popen(["node", SERVER, module], **pipes))
            self.idle.put(self.all[-1])

    def __enter__(self):
        return self

    def __exit__(self, *_):
        for it in self.all:
            it.stdin.close()
            it.wait()

    def ask(self, case):
        node = self.idle.get()
        try:
            node.stdin.write(json.dumps(case).encode() + b"\n")
            node.stdin.flush()
            return json.loads(node.stdout.readline())
        finally:
            self.idle.put(node)


def page_of_runs(folder):
    """A page that runs the module for the tests."""
    path = folder / "runs.html"
    words = ["esbuild", HERE / "in_browser.mjs", "--bundle", "--format=iife", "--log-level=error"]
    script = subprocess.run(words, check=True, capture_output=True, text=True).stdout
    path.write_text(PAGE.format(script))
    return path


class InBrowser(Engine):
    """That page, open in a browser. `execute` runs a script there, and `wait_for` one whose result is a
    promise."""

    def __init__(self, module, execute, wait_for):
        self.execute = execute
        given = base64.b64encode(module.read_bytes()).decode()
        self.is_ready = wait_for("compileModule(arguments[0])", given)

    def ask(self, case):
        return self.execute("return answerOf(arguments[0])", case)
