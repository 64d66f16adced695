"""What one pastes into an issue about a log, or into the summary of a job: the sentence first, then
who took part, the message, what differs, and what lspcheck says.

All that comes from the log is in code, in more backquotes than it has in a row, so that it stays
text: no link, no HTML, and nobody is mentioned.
"""

import json
import os
import re
import shlex
import string

from lsptools.page.columns import table_of, text_before
from lsptools.page.hunks import difference
from lsptools.page.wording import counted, cut, sentence_of, short_name, visible

# How many characters of the message and of a suspect are shown, and how many lines or items.
MOST_OF_MESSAGE, MOST_OF_SUSPECT = 600, 200
MOST_OF_DIFFERENCE, MOST_SUSPECTS, MOST_NOTES, MOST_LINES = 24, 5, 20, 60
# How long a line of lspcheck may be: a URI may be thousands of characters.
LONGEST_LINE = 1000

# All words that are not those of a log or of lspcheck.
WORDS = {
    "yes": "Yes: the session keeps every rule",
    "no": "No: {text}",
    "bad log": "Bad log: {text}",
    "at event": "No, rule {rule} ({text}): {whose} {number}, event {event} of {events}.",
    "at the end": "No, rule {rule} ({text}): at the end of the log, {whose}.",
    "at record": "Bad log {code} ({text}): record {record}.",
    "editor": "the editor's message",
    "server": "the server's message",
    "snapshot": "snapshot",
    "editor at the end": "the editor's bytes",
    "server at the end": "the server's bytes",
    "an editor": "an editor",
    "a server": "a server",
    "who": "{editor} to {server}, {agreed}. Log {log}, {events}.",
    "agreed": "columns in {encoding}, synchronisation: {sync}",
    "no handshake": "no handshake",
    "standard input": "standard input",
    "message": "The message:",
    "difference": "By the messages (-) and in the editor (+):",
    "more of the difference": "and more lines",
    "columns": "Line {line}, counted from 0 as in the message, before this change:",
    "suspects": "What may have made the texts differ:",
    "explanation": "`lspcheck explain` says:",
    "more lines": "and {more}",
    "notes": "Notes:",
    "smallest": "The editor's messages of the smallest session that shows this{lack}, for "
                "`clangd -lit-test`:",
    "lack": ", without its snapshot",
    "command": "{command} shows this.",
    "written by": "Written by {version} and lspcheck-page.",
}

# A sentence in which nothing means anything in Markdown, and nothing is a link or a name on a
# forge: no word of it has a sign inside that could make it one.
HARMLESS = re.compile(r"(?:[A-Za-z0-9 ,;()'’+-]|[.:?](?= |$))+")
# Words that a forge takes for a link all the same: a commit, or an issue.
LINKED = re.compile(r"\b(?:[0-9a-f]{7,}|(?!UTF-)[A-Z]+-[0-9]+)\b")

# What begins the changes in a didChange, and the whitespace of JSON.
CHANGES = b'"contentChanges"'
BLANKS = b" \t\r\n"
# What needs no escape in a word of a shell.
SEEN = string.ascii_letters + string.digits + " ,._-+=@%/:"


def say(key, **values):
    return WORDS[key].format(**values)


def longest_run(text):
    """How many backquotes a text has in a row."""
    return max(map(len, re.findall("`+", text)), default=0)


def code(text):
    """A text of one line as code."""
    most = longest_run(text)
    return f"`{text}`" if most == 0 else f"{'`' * (most + 1)} {text} {'`' * (most + 1)}"


def block(kind, lines):
    """Lines as a block of code."""
    fence = "`" * (max(2, *map(longest_run, lines)) + 1) if lines else "```"
    return [fence + kind, *lines, fence]


def inert(text):
    """A sentence, as code if a part of it might mean something."""
    text = visible(text)
    return text if HARMLESS.fullmatch(text) and not LINKED.search(text) else code(text)


def title_of(said):
    """The sentence of a log: why it breaks a rule, if lspcheck says so in one, or its verdict."""
    verdict = said[0]
    return sentence_of(said) or say(verdict["is"], text=verdict.get("text"))


def bold(text):
    text = inert(text)
    return text if text.startswith("`") else f"**{text}**"


def place_of(verdict, events):
    """Where the verdict applies."""
    if verdict["is"] == "yes":
        return []
    values = {key: value for key, value in verdict.items() if key != "is"}
    if verdict["is"] == "bad log":
        return [say("at record", **values)]
    if verdict["event"] > events:
        return [say("at the end", whose=say(f"{verdict['who']} at the end"), **values)]
    return [say("at event", whose=say(verdict["who"]), events=events, **values)]


def who_of(index):
    """Both sides, what they agreed on, and the log."""
    agreed = "agreed" if index["agreed"] else "no handshake"
    return [say(
        "who",
        editor=code(short_name(index["client"]) or say("an editor")),
        server=code(short_name(index["server"]) or say("a server")),
        agreed=say(agreed, encoding=index["encoding"], sync=index["sync"]),
        log=code(visible(index["name"] or say("standard input"))),
        events=counted(index["events"], "event"),
    )]


def shown_content(content, most):
    """The content of a message in one line."""
    return cut(visible(content[: 4 * most].rstrip(BLANKS).decode(errors="replace")), most)


def shown_line(line):
    """A line that lspcheck wrote."""
    return cut(visible(line), LONGEST_LINE)


def message_part(verdict, kept):
    content = kept.get(verdict.get("event"))
    return content and [
        say("message"), "", *block("json", [shown_content(content, MOST_OF_MESSAGE)])]


def difference_part(texts):
    if not texts:
        return None
    lines, is_whole = difference(texts["messages"], texts["editor"], MOST_OF_DIFFERENCE)
    more = [] if is_whole else ["", say("more of the difference")]
    return [say("difference"), "", *block("diff", lines), *more]


def value_of(content):
    """The JSON value of a message, or None."""
    try:
        return json.loads(content)
    except (ValueError, RecursionError):
        return None


def columns_part(said, encoding, before, kept):
    """The table of the columns of a 605 or 606; `before` is the text before its message, if it is
    known."""
    change = next((it for it in said if it["is"] == "change"), None)
    if before is None or change is None or change.get("whole"):
        return None
    message = value_of(kept.get(said[0]["event"], b""))
    text = text_before(before, message, change["which"], encoding)
    fits = next((it["names"] for it in said if it["is"] == "fits"), [])
    table = table_of(text, change, encoding, fits) if text is not None else None
    return table and [say("columns", line=table[0]), "", *block("", table[1])]


def changes_in(content):
    """The end of a message from its changes on, which is what matters."""
    start = max(content.find(CHANGES), 0)
    return ("…" if start else "") + shown_content(content[start:], MOST_OF_SUSPECT)


def suspects_part(said, lines_of, kept):
    """The messages that may have made two texts differ."""
    found = [it for it in said if it["is"] == "suspect"]
    lines = []
    for it in found[:MOST_SUSPECTS]:
        lines += lines_of([it])
        if content := kept.get(it["event"]):
            lines.append(f"  {changes_in(content)}")
    # lspcheck counts more than it lists.
    rest = next((it["count"] for it in said if it["is"] == "suspects"), 0) - MOST_SUSPECTS
    if found and rest > 0:
        lines.append(say("more lines", more=counted(rest, "more message")))
    return lines and [say("suspects"), "", *block("", lines)]


def explanation_part(said, lines_of):
    objects = [it for it in said if it["is"] not in ("note", "notes")]
    lines = [shown_line(it) for it in lines_of(objects)]
    rest = len(lines) - MOST_LINES
    more = ["", say("more lines", more=counted(rest, "more line"))] if rest > 0 else []
    return [say("explanation"), "", *block("", lines[:MOST_LINES]), *more]


def notes_part(notes, lines_of):
    lines = [f"- {code(shown_line(it))}" for it in lines_of(notes[:MOST_NOTES])]
    rest = len(notes) - MOST_NOTES
    more = [f"- {say('more lines', more=counted(rest, 'more note'))}"] if rest > 0 else []
    return lines and [say("notes"), "", *lines, *more]


def smallest_part(smallest, verdict):
    if not smallest:
        return None
    lack = say("lack") if verdict.get("rule") == 702 else ""
    lines = [visible(it, "\t") for it in smallest.removesuffix("\n").split("\n")]
    return [say("smallest", lack=lack), "", *block("", lines)]


def shell_word(text):
    """A word for a shell like bash: as it is, in quotes, or with escapes for what can't be seen."""
    if visible(text) == text:
        return shlex.quote(text)
    return f"$'{''.join(map(escaped, text))}'"


def escaped(character):
    """A character between the quotes of such a word."""
    if character in SEEN:
        return character
    return "".join(f"\\x{byte:02x}" for byte in os.fsencode(character))


def end_part(index):
    """The command that shows this, and who wrote it."""
    name = index["name"]
    log = "LOG" if name is None else shell_word(f"./{name}" if name.startswith("-") else name)
    return [say("command", command=code(f"lspcheck explain {log}")) + " "
            + say("written by", version=code(visible(index["version"])))]


def markdown_of(index, lines_of, kept, before):
    """The Markdown of a log: `index` is that of its page, `lines_of` makes the lines of objects,
    `kept` has contents by their events, and `before` is the text before the message of a 605 or
    606."""
    said = index["said"]
    parts = [
        [bold(title_of(said))],
        place_of(said[0], index["events"]),
        who_of(index),
        message_part(said[0], kept),
        difference_part(index["texts"]),
        columns_part(said, index["encoding"], before, kept),
        suspects_part(said, lines_of, kept),
        explanation_part(said, lines_of),
        notes_part(index["notes"], lines_of),
        smallest_part(index["smallest"], said[0]),
        end_part(index),
    ]
    return "\n\n".join("\n".join(it) for it in parts if it) + "\n"
