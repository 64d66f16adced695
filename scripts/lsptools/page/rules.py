"""What docs/RULES.md says about each rule, with its links reduced to their text."""

import re
from pathlib import Path

from lsptools.base.program import Failed

HERE = Path(__file__).resolve().parent
# Next to this file in a package, and in docs in the repository. It is the same file.
PLACES = [HERE / "RULES.md", HERE.parents[2] / "docs/RULES.md"]

RULE = re.compile(r"\d{3}|L\d")
LINK = re.compile(r"\[([^\]]*)\]\([^)]*\)")


def page_of_rules():
    for place in PLACES:
        if place.is_file():
            return place.read_text(encoding="utf-8")
    raise Failed(f"there is no {PLACES[0]}: this command is not installed completely")


def plain(text):
    """A text without links, emphasis and marks of own choices; code stays between backquotes."""
    text = LINK.sub(r"\1", text).replace(" *(own)*", "")
    return re.sub(r"\*+([^*]+)\*+", r"\1", text)


def numbers_of(cell):
    """The rules that the first cell of a row names: 605, or 608, 702, or 101 to 106."""
    if found := re.fullmatch(r"(\d{3}) to (\d{3})", cell):
        return [str(number) for number in range(int(found[1]), int(found[2]) + 1)]
    if cell == "a bad log":
        return [f"L{number}" for number in range(1, 7)]
    words = cell.split(", ")
    return words if all(RULE.fullmatch(word) for word in words) else []


def paragraphs_of(section):
    """The paragraphs of a section that are neither tables nor code, each as one line."""
    unfenced = re.sub(r"^```.*?^```$", "", section, flags=re.S | re.M)
    for paragraph in re.split(r"\n\n+", unfenced)[1:]:
        if paragraph.strip() and not paragraph.startswith(("|", "#", "    ")):
            items = re.split(r"\n- ", paragraph.strip())
            text = plain("\n• ".join(" ".join(item.split()) for item in items))
            # A sentence that ends with a colon introduces the code that is left out.
            yield re.sub(r"(?:^|(?<=\.) )[^.]*:$", "", text)


def rows_of(section):
    """The rows of the tables of a section, as lists of cells."""
    for line in section.splitlines():
        if line.startswith("|"):
            yield [plain(cell.strip()) for cell in line.strip("|").replace(r"\|", "¦").split("|")]


def add_look(rule, text):
    """Adds to what to look at after a violation of the rule. A cell ends without a full stop."""
    before = rule.get("look")
    rule["look"] = f"{before.removesuffix('.')}. {text}" if before else text


def read_headed(section, rules):
    """Adds what the parts of a section say whose headings name rules in parentheses."""
    for part in re.split(r"^### ", section, flags=re.M)[1:]:
        heading = part.split("\n", 1)[0]
        for number in numbers_of(heading.rpartition("(")[2].rstrip(")")):
            add_look(rules.setdefault(number, {}), "\n".join(paragraphs_of(part)))


def heading_of(section):
    """The heading of a section, without the rules that it has in parentheses."""
    return re.sub(r" \([^)]*\)$", "", plain(section.partition("\n")[0]))


def read_section(section, rules):
    """Adds what one section says about the rules that have a row in it."""
    paragraphs, heading = list(paragraphs_of(section)), heading_of(section)
    for row in rows_of(section):
        for number in numbers_of(row[0]):
            rule = rules.setdefault(number, {})
            if len(row) == 2:
                if row[1] != "see below":
                    add_look(rule, row[1])
                continue
            rule.update(zip(("text", "when", "causes", "fault"), row[1:]), section=heading)
            rule["more"] = [it for it in paragraphs if re.search(rf"\b{number}\b", it)]


def rules():
    """For each rule and each fault of a log: its text, when it applies, what causes it, and the
    heading of its section."""
    found = {}
    for section in re.split(r"^## ", page_of_rules(), flags=re.M):
        read_section(section, found)
        read_headed(section, found)
    return found
