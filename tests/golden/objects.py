"""The objects that `--json` writes: the form in docs/report.schema.json that each has, and the line
of the report that it stands for.

The title of a form is that line: `<key>` stands for the value of a key, in JSON text where it is in
quotes, `..` for more values of an array, and `[key]` for a word that is there if its key is true.
"""

import json
import re
from pathlib import Path

SCHEMA = Path(__file__).resolve().parent.parent.parent / "docs/report.schema.json"

KINDS = {"object": dict, "string": str, "array": list, "boolean": bool, "integer": int, "null": type(None)}

# How a line writes what an object has as null.
NULLS = {"codes": "end"}


def forms():
    """The forms of objects, each with the line that it stands for."""
    return json.loads(SCHEMA.read_text(encoding="utf-8"))["anyOf"]


def is_kind(value, name):
    """Whether a value is of a type of JSON Schema."""
    return isinstance(value, KINDS[name]) and (name == "boolean" or not isinstance(value, bool))


def is_valid(value, schema):
    """Whether a value keeps a schema of one key, by the words of JSON Schema that these use."""
    kinds = schema.get("type", [])
    kinds = [kinds] if isinstance(kinds, str) else kinds
    if kinds and not any(is_kind(value, name) for name in kinds):
        return False
    if "const" in schema and (value != schema["const"] or isinstance(value, bool) != isinstance(schema["const"], bool)):
        return False
    if "enum" in schema and value not in schema["enum"]:
        return False
    return all(is_valid(item, schema["items"]) for item in value) if "items" in schema else True


def has_form(members, form):
    """Whether an object has just the keys of a form, in order, and values of their types."""
    return list(members) == form["required"] and all(
        is_valid(members[key], schema) for key, schema in form["properties"].items())


def quoted(value):
    """A value as JSON text."""
    return json.dumps(value, ensure_ascii=False)


def words_of(members, key, is_quoted):
    """The words of a line for the value of a key. A text that is the word for null gets quotes, which
    the line does not have: it should have been null."""
    values = members[key] if isinstance(members[key], list) else [members[key]]
    if is_quoted or key == "id":
        return [quoted(value) for value in values]
    null = NULLS.get(members["is"], "-")
    return [null if value is None else quoted(value) if value == null else str(value) for value in values]


def line_of(members, form):
    """The line that an object of this form stands for, and the text of one that has a text."""
    def filled(found):
        words = words_of(members, found[3], bool(found[2]))
        return found[1] + " ".join(words) if words else ""

    line = re.sub(r" \[(\w+)\]", lambda found: f" {found[1]}" if members[found[1]] else "", form["title"])
    return re.sub(r'(^|[ \n])("?)<(\w+)>\2(?: \.\.)?', filled, line)


# A text in quotes, in a line.
QUOTED = r'"(?:[^"\\]|\\.)*"'


def pattern_of(form):
    """What the first line looks like that an object of this form stands for."""
    def part_of(found):
        if found[3]:
            return f"(?: {found[3]})?"
        word = QUOTED if found[2] else f"(?:{QUOTED}|\\S+)"
        return found[1] + (f"{word}(?: {word})*" if found[0].endswith("..") else word)

    title = form["title"].split("\n")[0]
    return re.sub(r'( ?)(?:("?)<\w+>\2(?: \.\.)?|\[(\w+)\])', part_of, title)


def lines_of(written):
    """The lines that these objects stand for, and what is wrong with them."""
    known = forms()
    for line in filter(None, written.split("\n")):
        try:
            members = json.loads(line)
        except ValueError as fault:
            yield None, f"no JSON: {fault}: {line}"
            continue
        found = [form for form in known if has_form(members, form)]
        if len(found) == 1:
            yield line_of(members, found[0]), None
        else:
            yield None, f"{len(found)} forms: {line}"


def faults_of(report, written):
    """What is wrong with the objects that are written for a report."""
    lines = [*lines_of(written)]
    yield from (fault for _, fault in lines if fault)
    made = "".join(f"{line}\n" for line, _ in lines)
    if made != report:
        yield f"the objects stand for {made!r}, and the report is {report!r}"
