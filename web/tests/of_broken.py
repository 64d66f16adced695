"""That these tests notice what is broken on purpose: in what package/wasm builds, in a copy of this
folder, or in the module itself."""

import shutil
import subprocess

from given import TOP
from of_node import script

COPIED = ["web", "package", "page", "recorders", "replay", "scripts", "tests", "examples", "docs"]
MODULE = "lspcheck.wasm"

# Each as a file, a text and its replacement, and the test that must notice.
IN_NODE = [
    (MODULE, "position inside a character", "position inside a charakter", "the_same_of_recorded_logs"),
    ("web/module.mjs", "exports.main(0, 0n);", "exports.main(0, 0n) * 0;", "the_same_of_recorded_logs"),
    ("web/module.mjs", "system.read(fd, bytes(at, size))", "system.read(fd, bytes(at, size)) * 0", "the_same_of_recorded_logs"),
    ("web/lspcheck.mjs", '.replace("\\n", ', '.replace("x", ', "its_version"),
    ("web/lspcheck.mjs", "systemFor(words), bound)", "systemFor(words))", "its_memory_is_bounded"),
    ("recorders/node/lspcheck-recorder.cjs", '"lspcheck.mjs"', '"no.mjs"', "the_modules_for_suites"),
]
IN_CHROMIUM = [
    ("package/wasm_files.py", "\"default-src 'none'\"", '"default-src *"', "a_page_opens_from_a_file"),
    ("web/page/checker.mjs", "`${first}: ${second}`", "first", "logs_are_judged"),
    ("web/page/checker.mjs", "of files)", "of [...files].reverse())", "ten_logs_are_judged"),
    ("web/page/session.mjs", '? "broken" : "partner"', '? "partner" : "broken"', "pages_are_those_of_lspcheck_page"),
    ("web/page/again.mjs", 'compare("the verdict is another", page.said, objectsOf(given, "explain"));', "", "pages_with_the_checker"),
    ("web/page/again.mjs", "if (!shown || !isEqual(content, shown))", "if (false)", "pages_with_the_checker"),
]


class Copy:
    """A copy of this folder, in which the module is built into pages again."""

    def __init__(self, tried):
        self.top, self.module, self.program = tried.folder / "broken", tried.module, tried.program
        self.built = self.top / "out/web"
        for folder in COPIED:
            shutil.copytree(TOP / folder, self.top / folder)

    def put(self, path, text):
        (self.top / path).write_text(text)

    def run(self, *names, old=b"", new=b""):
        """Runs web/run over it, with one text of the module replaced by another."""
        subprocess.run([self.top / "package/wasm", self.built, self.module], check=True, capture_output=True)
        data = (self.built / MODULE).read_bytes()
        (self.built / MODULE).write_bytes(data.replace(old, new) if old else data)
        words = ["--count", "5", "--jobs", "1", "--built", self.built, self.program, *names]
        return subprocess.run([self.top / "web/run", *words], capture_output=True, text=True)


def is_noticed(copy, file, old, new, test):
    """Whether a test fails where one thing is broken."""
    if file == MODULE:
        return old.encode() in copy.module.read_bytes() and "FAILED " in copy.run(test, old=old.encode(), new=new.encode()).stdout
    text = (copy.top / file).read_text()
    copy.put(file, text.replace(old, new))
    run = copy.run(test)
    copy.put(file, text)
    return old in text and "FAILED " in run.stdout


def what_is_broken_is_noticed(tried):
    copy, broken = Copy(tried), [*IN_NODE]
    if script("page/run").python_of_browser()[0] is not None:
        broken += IN_CHROMIUM
    whole = copy.run(*sorted({test for *_, test in broken}))
    tried.note("nothing is broken", whole.returncode == 0, whole)
    for file, old, new, test in broken:
        tried.note(f"{test}: {file} without {old}", is_noticed(copy, file, old, new, test))


TESTS = [what_is_broken_is_noticed]
