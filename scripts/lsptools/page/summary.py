"""Several logs in one text of Markdown: a table of all, and what one pastes about those with a
violation, a fault or a note."""

from lsptools.page.folder import shown_name, totals, verdict_of
from lsptools.page.in_markdown import code, inert
from lsptools.page.wording import visible

HEADS = ["log", "verdict", "what", "editor", "server", "events", "bytes"]
# In a table, not every program takes it for text, even in code.
BAR = "[U+007C]"


def cell(text, written):
    return written(visible(text).replace("|", BAR)) if text else ""


def row_of(given, told):
    cells = [
        cell(shown_name(given), code),
        verdict_of(told),
        cell(told.get("what") or told.get("failed"), inert),
        cell(told.get("editor"), code),
        cell(told.get("server"), code),
        *(f"{told[it]:,}" if it in told else "" for it in ("events", "bytes")),
    ]
    return f"| {' | '.join(cells)} |\n"


def is_told(told):
    """Whether a log has more than its row."""
    return "markdown" in told and (told["verdict"] != "yes" or told["notes"] > 0)


def pieces_of(logs, verdicts, get):
    """The text, in pieces; `get` gives what was told about the log of a number."""
    yield f"**{totals(verdicts)}**\n\n| {' | '.join(HEADS)} |\n"
    yield f"| {' | '.join(['---'] * 5 + ['---:'] * 2)} |\n"
    for number, given in enumerate(logs):
        yield row_of(given, get(number))
    for number, given in enumerate(logs):
        if is_told(told := get(number)):
            yield f"\n### {code(shown_name(given))}\n\n{told['markdown']}"
