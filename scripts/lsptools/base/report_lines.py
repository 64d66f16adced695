"""The objects that `lspcheck --json` writes, and the lines of the report that they stand for.

The title of each form in report.schema.json is such a line: `<key>` is the value of a key, as JSON
text where it is in quotes, `..` means more values of an array, and `[key]` is a word that is there
if its key is true.
"""

import json
import re
from pathlib import Path

HERE = Path(__file__).resolve().parent
# Next to this file in a package, and in docs in the repository. It is the same file.
PLACES = [HERE / "report.schema.json", HERE.parents[2] / "docs/report.schema.json"]

# What a line has for null: in most lines a dash.
NULLS = {"codes": "end"}

# How much of a line is quoted that is not an object.
MOST_QUOTED = 60

encode = json.JSONEncoder(ensure_ascii=False, separators=(",", ":")).encode


class NoObject(ValueError):
    """A line that should be an object of `--json`, and is not."""


def object_of(line):
    """The object that a line of `--json` is."""
    try:
        found = json.loads(line)
    except (ValueError, RecursionError):
        found = None
    if isinstance(found, dict) and isinstance(found.get("is"), str):
        return found
    shown = line if isinstance(line, str) else line.decode(errors="replace")
    raise NoObject(f"it wrote a line that is not an object of --json: {shown[:MOST_QUOTED]!r}")


def forms():
    """The forms of objects, by what they say in `is`."""
    place = next((it for it in PLACES if it.is_file()), PLACES[0])
    found = {}
    for form in json.loads(place.read_text(encoding="utf-8"))["anyOf"]:
        found.setdefault(form["properties"]["is"]["const"], []).append(form)
    return found


def has_form(it, form):
    """Whether an object has the keys of a form in their order, and the constants among its values.
    Keys that are not known are skipped."""
    properties = form["properties"]
    return [key for key in it if key in properties] == form["required"] and all(
        it[key] == properties[key].get("const", it[key]) for key in properties)


def words_of(it, key, is_quoted):
    """The words for the value of a key."""
    values = it[key] if isinstance(it[key], list) else [it[key]]
    if is_quoted or key == "id":
        return " ".join(map(encode, values))
    return " ".join(NULLS.get(it["is"], "-") if value is None else str(value) for value in values)


class Report:
    """Makes the lines of a report from its objects."""

    def __init__(self):
        self.forms = forms()

    def lines_of(self, it):
        """The line that an object stands for, and its text if it has one. An object that has no
        known form stays as it is."""
        found = [form for form in self.forms.get(it["is"], []) if has_form(it, form)]
        if not found:
            return [encode(it)]

        def flag(part):
            return f" {part[1]}" if it[part[1]] else ""

        def value(part):
            words = words_of(it, part[3], part[2])
            return part[1] + words if words else ""

        title = max(found, key=lambda form: len(form["required"]))["title"]
        line = re.sub(r" \[(\w+)\]", flag, title)
        return re.sub(r'(^|[ \n])("?)<(\w+)>\2(?: \.\.)?', value, line).split("\n")

    def lines(self, objects):
        """The lines of all these objects, in order."""
        return [line for it in objects for line in self.lines_of(it)]
