"""How texts of a log are written where no box can be drawn around odd characters, and names."""

import html
import re
import unicodedata

# How many marks may follow one character, as those above letters do. More would cover other text.
MOST_MARKS = 3
LONGEST_NAME = 200
VERSION_NUMBER = re.compile(r"[0-9]+(?:\.[0-9]+)+")


def numbered(character):
    return f"[U+{ord(character):04X}]"


def printed(text, kept=""):
    """A text with numbers for characters that are not printed, but for those that are kept."""
    return "".join(it if it.isprintable() or it in kept else numbered(it) for it in text)


def plain(text):
    """A text for HTML: escaped, and with numbers for characters that are not printed."""
    return html.escape(printed(text, "\n"))


def visible(text, kept=""):
    """The same as `printed`, also with numbers for marks of which too many follow one another."""
    if text.isascii():
        return printed(text, kept)
    found, marks = [], 0
    for it in text:
        marks = marks + 1 if unicodedata.category(it).startswith("M") else 0
        found.append(numbered(it) if marks > MOST_MARKS else printed(it, kept))
    return "".join(found)


def cut(text, most):
    """The beginning of a text, with a mark if something is left out."""
    return text if len(text) <= most else f"{text[: most - 1]}…"


def counted(number, noun):
    return f"{number:,} {noun}{'' if number == 1 else 's'}"


def short_name(info):
    """A client or server: its name with the number in its version, which may be a sentence; or
    None."""
    name, version = info.get("name"), info.get("version") or ""
    if not name:
        return None
    number = VERSION_NUMBER.search(version)
    shown = " ".join(filter(None, [name, number[0] if number else version]))
    return cut(visible(shown), LONGEST_NAME)


def sentence_of(said):
    """The sentence in which lspcheck explains its verdict, or None."""
    return next((it["sentence"] for it in said if it["is"] == "so"), None)
