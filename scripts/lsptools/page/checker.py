"""The checker in a page, which judges the log again when it is opened."""

import os
from pathlib import Path

from lsptools.base.program import Failed
from lsptools.page.blocks import compressed, write_block

TOP = Path(__file__).resolve().parents[3]
# Next to this folder in a package, and where package/wasm is told to write in a clone.
PLACES = [TOP / "web", TOP / "out/web"]
# The program for WebAssembly, and the script that runs it.
MODULE, WORKER = "lspcheck.wasm", "again.js"
PIECE = 1 << 20

# What the policy of the page allows beyond that of others: to compile the program, and to run it
# where the page can still be used. It can open no connection.
POLICY = ["worker-src blob:", "trusted-types lspcheck"]
OF_SCRIPTS = "'wasm-unsafe-eval'"


class Checker:
    """What package/wasm built."""

    def __init__(self):
        named = os.environ.get("LSPCHECK_WEB")
        places = [Path(named)] if named else PLACES
        found = [it for it in places if (it / MODULE).is_file() and (it / WORKER).is_file()]
        if not found:
            missing = places[-1] / MODULE
            raise Failed(f"--with-checker: there is no {missing}: package/wasm builds it")
        self.files = {"module": found[0] / MODULE, "worker": found[0] / WORKER}

    def write(self, file, log, level):
        """Writes the program, its script and the whole log into a page."""
        for name, path in {**self.files, "log": Path(log.path)}.items():
            with open(path, "rb") as given:
                write_block(file, name, compressed(iter(lambda: given.read(PIECE), b""), level))
