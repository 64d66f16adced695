"""The modules of the page's script, joined into one."""

import re
from pathlib import Path

FOLDER = Path(__file__).resolve().parent / "js"

# What a module begins with: names of another one. They keep their names where all are joined.
IMPORT = re.compile(r'^import (?:\{[\w\s,$]*\} from )?"\./([\w-]+\.mjs)";\n', re.M)
EXPORT = re.compile(r"^export (?=(?:async )?function|class|const|let)", re.M)
DECLARED = re.compile(r"^(?:async )?(?:function\*?|class|const|let) ([\w$]+)", re.M)


def text_of(name):
    """A module without its imports and exports, and the names of those that it imports."""
    text = (FOLDER / name).read_text(encoding="utf-8")
    return EXPORT.sub("", IMPORT.sub("", text)), IMPORT.findall(text)


def joined(name, *there):
    """The text of a module and of all that it imports, each once and after those that it imports;
    without those that are `there` already. All share one scope, so no two may declare one name."""
    texts, open_, declared = {it: "" for it in there}, [], set()

    def add(it):
        if it in open_:
            raise ValueError(f"{it} imports itself: {' '.join(open_)}")
        if it in texts:
            return
        open_.append(it)
        text, imported = text_of(it)
        for other in imported:
            add(other)
        open_.pop()
        twice = declared & set(DECLARED.findall(text))
        if twice or re.search(r"^(import|export)\b", text, re.M):
            raise ValueError(f"{it}: {' '.join(twice) or 'an import or export of another form'}")
        declared.update(DECLARED.findall(text))
        texts[it] = text

    add(name)
    return "".join(texts.values())
