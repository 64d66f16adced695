"""Compares the manual pages with the texts of help: the commands, what each takes, options and
statuses; and with the variables of the environment that the sources read."""

import re

# For each manual page, the files that read the variables in it.
SOURCES = {
    "lspcheck": [
        "crates/*/src/**/*.rt",
        "recorders/ale/job.vim",
        "recorders/emacs.el",
        "recorders/neovim.lua",
        "recorders/node/*.cjs",
        "recorders/python/*.py",
    ],
    "lspcheck-page": ["scripts/lsptools/page/*.py", "scripts/lsptools/base/*.py"],
    "lspcheck-replay": [f"scripts/lsptools/{it}/*.py" for it in ("replay", "servers", "base")],
    "lspcheck-fuzz": [f"scripts/lsptools/{it}/*.py" for it in ("fuzz", "servers", "base")],
    "lspcheck-proxy": ["scripts/lsptools/proxy/*.py", "scripts/lsptools/base/*.py", "recorders/vscode/*.js"],
    "lspcheck-from-trace": ["scripts/lsptools/trace/*.py", "scripts/lsptools/base/*.py"],
    "lspcheck-shrink": ["scripts/lsptools/shrink/*.py", "scripts/lsptools/base/*.py"],
    "lspcheck-without": ["scripts/lsptools/shrink/without.py", "scripts/lsptools/base/*.py"],
}
VARIABLE = re.compile(r"(?:environ(?:\.get\(|\[)\"|getenv(?: |\()\"|env::var(?:_os)?\(\"|process\.env\.|empty\(\$)(\w+)")

# Those that Python and the system read for a script.
OF_THE_SYSTEM = {"PATH", "TMPDIR"}

# Options of other programs that a text of help has.
OF_OTHERS = {"--version", "--log"}

# Requests that only say how lines are broken.
LINES = re.compile(r"^\.(?:nh|hy|ad l|ad)\n", re.M)


def plain(line):
    """A line of the page without the requests and escapes of troff."""
    line = re.sub(r"^\.(B|I|BR|RB|BI|RI|IR)\b", "", line)
    return line.replace("\\-", "-").replace('"', "")


def section(page, name):
    """The lines of a section."""
    return re.split(r"^\.SH .*\n", page[page.index(f".SH {name}\n") :], flags=re.M)[1]


def heads(page, name):
    """The words of each entry of a section."""
    return [plain(line).replace(",", " ").split() for line in re.findall(r"^\.TP\n(.*)", section(page, name), re.M)]


def synopsis(page):
    """What each command takes, as the synopsis has it: options, and the names of the arguments."""
    for entry in LINES.sub("", section(page, "SYNOPSIS")).split("\n.br\n"):
        words = " ".join(map(plain, entry.splitlines())).replace("[", " ").replace("]", " ").split()
        yield words[1], sorted({it for it in words[2:] if it.startswith("--")}), [it for it in words if it.isupper()]


def version(page):
    """The version that the page describes."""
    return re.search(r"^\.TH .*lspcheck (\d[.\d]*)", page, re.M)[1]


def options(text):
    """The long options that a text of help lists, each with its short form and its argument."""
    part = re.split(r"^Options:\n", text, flags=re.M)[1].split("\n\n")[0]
    return re.findall(r"^ +(?:(-\w), )?(--[a-z-]+)(?: <(\w+)>)?", part, re.M)


def statuses(text):
    """The statuses that the help lists."""
    part = re.split(r"^Exit status:\n", text, flags=re.M)[1].split("\n\n")[0]
    return sorted(map(int, re.findall(r"(?:^|  )(\d+) [a-z]", part, re.M)))


def compared(page, helps):
    """Pairs that must be equal: what is compared, what the page has, and what the texts of help have."""
    listed = re.split(r"^Commands:\n", helps[""], flags=re.M)[1].split("\n\n")[0]
    yield "commands", [it[0] for it in heads(page, "COMMANDS")], re.findall(r"^  (\w+)", listed, re.M)
    found = {option: (short, argument) for text in helps.values() for short, option, argument in options(text)}
    shown = {}
    for words in heads(page, "OPTIONS"):
        option = next(it for it in words if it.startswith("--"))
        others = [it for it in words if it != option]
        shown[option] = ("".join(it for it in others if it[0] == "-"), "".join(it for it in others if it[0] != "-"))
    yield "options", shown, found
    taken = {}
    for name, text in helps.items():
        if name:
            usage = re.search(r"^Usage: (.*)", text, re.M)[1]
            long = sorted(option for _, option, _ in options(text) if option != "--help")
            taken[name] = (long, re.findall(r"[<\[]([A-Z]+)[>\]]", usage.replace("[OPTIONS]", "")))
    yield "synopsis", {name: (long, arguments) for name, long, arguments in synopsis(page)}, taken
    yield "statuses", [int(it[0]) for it in heads(page, "EXIT STATUS")], statuses(helps[""])


def environment(name, page, top):
    """The variables that the sources of a page read, and those that it has."""
    files = [file for pattern in SOURCES[name] for file in sorted(top.glob(pattern))]
    read = {it for file in files for it in VARIABLE.findall(file.read_text())}
    return read, {it[0] for it in heads(page, "ENVIRONMENT")} - OF_THE_SYSTEM


def compared_script(page, text):
    """The same pairs for a script, whose help is this text."""
    listed = {it for words in heads(page, "OPTIONS") for it in words if it.startswith("--")}
    told = set(re.findall(r"(?<![\w-])--[a-z-]+", text.partition("Exit status:")[0]))
    yield "options", listed - {"--help"}, told - {"--help", *OF_OTHERS}
    taken = set(re.findall(r"--[a-z-]+", " ".join(map(plain, section(page, "SYNOPSIS").splitlines()))))
    yield "synopsis", taken, listed - {"--help"}
    if "Exit status:" in text:
        statuses = re.findall(r"\b(\d+) (?=[A-Za-z])", text.partition("Exit status:")[2].partition("\n\n")[0])
        yield "statuses", [it[0] for it in heads(page, "EXIT STATUS")], statuses
