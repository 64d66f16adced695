"""What one pastes: `--markdown` prints it, the page has it, and what a log says stays text in it."""

import json
import random
import re
import shutil
import subprocess

import logs
from command import EXAMPLE, TOP, answers, run
from data import EXAMPLES, NO, WRONG, lines_of, output, page_of, smallest_of, written
from lsptools.page import columns, hunks, in_markdown

# What a text may say outside code: words, and the marks of headings, tables, lists and emphasis.
OUTSIDE = re.compile(r"(?:[A-Za-z0-9 ,:;().'’\n-]|\*\*|^#{3} |\||\[U\+[0-9A-F]+\]|\+)*", re.M)


# What was printed before, by the name of a log, its bytes, and the options: several tests look at it.
PRINTED = {}


def printed(program, log, *words):
    """What is printed about a log: it doesn't depend on the folder."""
    key = (log.name, log.read_bytes(), words)
    if key not in PRINTED:
        done = run(log, *words, "--markdown", "--program", program)
        assert (done.returncode, done.stderr) == (0, ""), done
        PRINTED[key] = done.stdout
    return PRINTED[key]


def blocks_in(text):
    """The blocks of code of a text of Markdown, as CommonMark has them, and what is outside."""
    blocks, outside, fence = [], [], None
    for line in text.split("\n"):
        if fence is None and (found := re.fullmatch(r"(`{3,})(\w*)", line)):
            fence = found[1]
            blocks.append([])
        elif fence is None:
            outside.append(line)
        elif re.fullmatch(r"`{3,}", line) and len(line) >= len(fence):
            fence = None
        else:
            blocks[-1].append(line)
    assert fence is None, text
    return blocks, "\n".join(outside)


def spans_in(text):
    """The spans of code of a text, and what is outside of them."""
    return [it[2].strip() for it in re.finditer(r"(?<!`)(`+)(?!`)(.+?)(?<!`)\1(?!`)", text)], \
        re.sub(r"(?<!`)(`+)(?!`)(.+?)(?<!`)\1(?!`)", "", text)


def all_logs(place):
    made = {**logs.telling(), **logs.evil(), "hostile": logs.hostile(), "unquoted": logs.unquoted()}
    return [*EXAMPLES, *(written(place, f"{name.removesuffix('.log')}.log", log) for name, log in made.items())]


def is_that_of_the_page(program, place):
    """Of each log, and of one that is cut, and of a small one."""
    tried = [(log, []) for log in all_logs(place)]
    for log, options in [*tried, (WRONG, ["--most-events", "9"]), (WRONG, ["--small"]), (place / "differs.log", ["--small"])]:
        index, _ = logs.data_of(page_of(program, log, *options))
        assert index["markdown"] == printed(program, log, *options), (log, options)
        assert index["markdown"].endswith(" and lspcheck-page.\n") and "\r" not in index["markdown"]


def numbers_for_odd(text):
    return "".join(it if it.isprintable() else f"[U+{ord(it):04X}]" for it in text)


def says_what_lspcheck_says(program, place):
    """The sentence first, where it is, the words of `explain`, all notes, and the command."""
    for log in all_logs(place):
        blocks, outside = blocks_in(printed(program, log))
        check, explain = lines_of(program, "check", log), lines_of(program, "explain", log)
        sentences = [json.loads(it[3:]) for it in explain if it.startswith("so ")]
        head = outside.split("\n")[0]
        verdict = {"y": "Yes: the session keeps every rule", "n": f"No: {check[-1]}", "b": f"Bad log: {check[-1]}"}[check[0][0]]
        assert head == f"**{sentences[0] if sentences else verdict}**", (log, head)
        if found := NO.fullmatch(check[0]):
            rule, who, number, event, _ = found.groups()
            shown = lines_of(program, "show", "--all", log)
            events = sum(re.match(r"\d|no (?!107|303|407)", it) is not None for it in shown)
            whose = f"snapshot {number}" if who == "snapshot" else f"the {who}'s message {number}"
            place_of = f"No, rule {rule} ({check[1]}): {whose}, event {event} of {events}."
            if int(rule) in (107, 303, 407):
                place_of = f"No, rule {rule} ({check[1]}): at the end of the log, the {who}'s bytes."
            assert place_of in outside, (log, place_of, outside)
        wanted = [numbers_for_odd(it) for it in explain if not it.startswith(("note ", "notes "))]
        assert wanted[:60] in blocks, (log, wanted, blocks)
        notes = [it for it in lines_of(program, "explain", "--all", "--notes", log) if it.startswith("note ")]
        listed = [spans_in(it)[0][0] for it in outside.split("\n") if it.startswith("- `")]
        assert listed == [numbers_for_odd(it) for it in notes[:20]], (log, listed, notes)
        command = re.search(r"^(`+)\s?(lspcheck explain .*?)\s?\1 shows this\.", outside, re.M)[2]
        again = subprocess.run(["bash", "-c", command], cwd=place if log.parent == place else TOP / "examples",
                               env={"PATH": f"{place}/bin:/usr/bin:/bin"}, stdin=subprocess.DEVNULL,
                               capture_output=True) if with_program(place, program) else None
        assert again.stdout == output(program, "explain", log), (log, command, again)


def with_program(place, program):
    """Puts the program where a shell finds it."""
    (place / "bin").mkdir(exist_ok=True)
    if not (place / "bin/lspcheck").exists():
        (place / "bin/lspcheck").symlink_to(program)
    return True


def shows_the_message(program, place):
    """Its content as it was sent, as far as it is not too long; and those of suspects."""
    suspects = 0
    for log in all_logs(place):
        check, blocks = lines_of(program, "check", log), blocks_in(printed(program, log))[0]
        if not (found := NO.fullmatch(check[0])) or int(found[1]) < 200 or found[2] == "snapshot":
            continue
        content = numbers_for_odd(output(program, "event", found[4], log).decode(errors="replace").rstrip(" \t\r\n"))
        wanted = content if len(content) <= 600 else f"{content[:599]}…"
        assert [re.sub(r"\[U\+0[0-9A-F]+\]", "?", wanted)] in [[re.sub(r"\[U\+0[0-9A-F]+\]", "?", it) for it in block] for block in blocks], (log, wanted)
    for log in all_logs(place):
        explain = lines_of(program, "explain", log)
        for line in [it for it in explain if it.startswith("suspect ")][:5]:
            content = numbers_for_odd(output(program, "event", line.split()[3], log).decode().rstrip(" \t\r\n"))
            before, changes, after = content.partition('"contentChanges"')
            content = changes + after if changes else before
            shown = ("  …" if changes else "  ") + (content if len(content) <= 200 else f"{content[:199]}…")
            assert any(block[at : at + 2] == [line, shown] for block in blocks_in(printed(program, log))[0] for at in range(len(block))), (log, shown)
            suspects += 1
    assert suspects > 0


def shows_who_took_part(program, place):
    client = {"name": "An `odd` editor", "version": "version 1.2.3 (new)"}
    picks = {"capabilities": {"positionEncoding": "utf-8", "textDocumentSync": 1}, "serverInfo": {"name": "server"}}
    offers = {"capabilities": {"general": {"positionEncodings": ["utf-8"]}}, "clientInfo": client}
    asked = logs.frame(b"E", logs.request(1, "initialize", offers))
    agreed = written(place, "agreed.log", b"lsp-session 2\n" + asked + logs.frame(b"S", logs.result(1, picks)))
    assert "``  An `odd` editor 1.2.3 ``".replace("  ", " ") + " to `server`, columns in utf-8, synchronisation: full. Log `agreed.log`, 2 events." \
        in printed(program, agreed)
    alone = written(place, "alone.log", b"lsp-session 2\n" + asked)
    assert "to `a server`, no handshake. Log `alone.log`, 1 event." in printed(program, alone)


def differs_as_diff_says(program, place):
    """Of two texts with one difference: the lines of `diff -U3`."""
    log, compared = written(place, "long.log", logs.long(400, difference=201, lines=60)), 0
    for it in [log, *all_logs(place)]:
        if NO.match(lines_of(program, "check", it)[0]) is None:
            continue
        texts = [output(program, "explain", option, it) for option in ("--by-messages", "--in-editor")]
        if b"no texts differ" in texts[0] or not all(text.isascii() and b"\r" not in text and text.endswith(b"\n") for text in texts):
            continue
        for name, text in zip("ab", texts):
            written(place, name, text)
        lines = subprocess.run(["diff", "-U3", "a", "b"], cwd=place, capture_output=True, text=True).stdout.splitlines()
        if len([line for line in lines if line.startswith("@@")]) == 1 and len(lines) <= 27 and max(map(len, lines[3:])) < 100:
            block = [block for block in blocks_in(printed(program, it))[0] if block and all(line[0] in " -+" for line in block)]
            assert lines[3:] in block, (it, lines, block)
            compared += 1
    assert compared > 0


def hunks_lead_from_one_text_to_the_other(program, place):
    """Of random texts: with no line left out, both can be read from it, and no more is shown than asked."""
    chance = random.Random(98)
    for _ in range(400):
        one = [chance.choice("abc") + "\n" for _ in range(chance.randrange(30))]
        other = [it for it in one if chance.random() > 0.2]
        other.insert(chance.randrange(len(other) + 1), "new\n")
        lines, is_whole = hunks.difference("".join(one), "".join(other), 1000)
        assert is_whole
        pieces = re.split(r"@@ (\d+) equal lines @@", "\n".join(lines))
        for signs, text in ((" -", one), (" +", other)):
            shown = [it[1:] + "\n" for it in lines if it[0] in signs]
            counted = sum(map(int, pieces[1::2]))
            start = next(at for at in range(len(text) + 1) if text[at : at + 3] == shown[:3] or len(shown) < 3) if shown else 0
            assert len(shown) + counted <= len(text) and all(it in text for it in shown), (one, other, lines, start)
            if counted == 0 and shown:
                assert "".join(shown) in "".join(text), (one, other, lines)
        first = next((at for at, pair in enumerate(zip(one, other)) if pair[0] != pair[1]), min(len(one), len(other)))
        before = [it for it in lines[: next(at for at, it in enumerate(lines) if it[0] in "-+")]]
        assert before == [f" {it[:-1]}" for it in one[max(first - 3, 0) : first]], (one, other, lines)
        assert hunks.difference("".join(one), "".join(other), 3) == (lines[:3], len(lines) <= 3)


def tables_have_the_columns_of_each_character(program, place):
    """Of the example, and of a second change whose line the first one has made."""
    uri = "file:///a.c"
    second = logs.handshake() + b"".join([
        logs.frame(b"E", logs.opened(uri, 1, "x\nab\N{GRINNING FACE}c\n")),
        logs.frame(b"E", logs.changed(uri, 2, logs.edit((1, 0), (1, 1), "\u00e9\u0301"), logs.edit((1, 4), (1, 4), "!"))),
    ])
    for log, line, before in ((WRONG, None, None), (written(place, "second.log", second), 1, "\u00e9\u0301b\N{GRINNING FACE}c")):
        explain = lines_of(program, "explain", log)
        assert explain[0].startswith("no 605 "), explain
        change = next(it for it in explain if it.startswith("change ")).split()
        if before is None:
            line, number = int(change[2]), int(explain[0].split()[3])
            uri_of = json.loads(next(it for it in explain if it.startswith("uri "))[4:])
            before = output(program, "text", "--all", number - 1, uri_of, log).decode().split("\n")[line]
        fits = next((it.split()[1:] for it in explain if it.startswith("fits ")), [])
        encodings = {"utf-16": lambda it: len(it.encode("utf-16-le")) // 2, "utf-8": lambda it: len(it.encode()), "utf-32": len}
        blocks, outside = blocks_in(printed(program, log))
        assert f"Line {line}, counted from 0 as in the message, before this change:" in outside
        table = next(block for block in blocks if block and block[0].split()[:1] == ["utf-16"])
        assert table[0].split() == ["utf-16", *[it for it in ("utf-8", "utf-32") if it in fits]], table
        shown = [re.fullmatch(r' *(\d+(?: +\d+)*)  (?:"◌?(\[U\+[0-9A-F]+\]|.)"|(the end of the line))(  <- column (\d+))?', row) for row in table[1:]]
        assert all(shown), table
        columns_of = [[encodings[it](before[:at]) for it in table[0].split()] for at in range(len(before) + 1)]
        starts = [list(map(int, it[1].split())) for it in shown]
        first = columns_of.index(starts[0])
        assert starts == columns_of[first : first + len(starts)], (table, before)
        assert "".join(it[2] or "" for it in shown) == numbers_for_odd(before[first : first + len([it for it in shown if it[2]])]), table
        marked = [at for at, it in enumerate(shown) if it[4]]
        assert len(marked) == 1 and int(shown[marked[0]][5]) in (int(change[3]), int(change[5])), (table, change)
        column = int(shown[marked[0]][5])
        assert starts[marked[0]][0] <= column < (starts + [[10**9]])[marked[0] + 1][0], table
        assert min(marked[0], 5) == marked[0] and len(shown) <= 11


def finds_the_line_of_a_position(program, place):
    """Line ends of each kind, and columns in each unit: as Python's own encodings count."""
    text = "a\r\nb\rc\n\N{GRINNING FACE}\u00e9\u4e00x"
    assert [text[slice(*columns.span_of(text, at))] for at in range(4)] == ["a", "b", "c", "\N{GRINNING FACE}\u00e9\u4e00x"]
    assert columns.span_of(text, 4) is None and columns.span_of("", 0) == (0, 0) and columns.span_of("\n", 1) == (1, 1)
    last = text[7:]
    for name, of in (("utf-8", "utf-8"), ("utf-16", "utf-16-le"), ("utf-32", "utf-32-le")):
        size = {"utf-8": 1, "utf-16": 2, "utf-32": 4}[name]
        for at in range(len(last) + 1):
            place_of = {"line": 3, "character": len(last[:at].encode(of)) // size}
            assert columns.offset_of(text, place_of, name) == 7 + at, (name, at)


def stays_text(program, place):
    """Nothing of a log is outside code, and no block ends in it, however many backquotes it has."""
    ticks = "`" * 9 + "\n```\n~~~ @everyone #1 https://a.example <b> [x](y) **z** | 0123456789abcdef GH-1"
    client = {"name": f"{ticks}{logs.EVIL}", "version": ticks}
    start = b"lsp-session 2\n" + logs.frame(b"E", logs.request(1, "initialize", {"capabilities": {}, "clientInfo": client}))
    start += logs.frame(b"S", logs.result(1, {"capabilities": {"textDocumentSync": 2}, "serverInfo": client}))
    start += logs.frame(b"E", logs.notification("initialized", {}))
    uri = f"file:///{ticks}"
    opened = start + logs.frame(b"E", logs.opened(uri, 1, ticks)) + logs.snapshot(uri, 1, ticks)
    found = {
        "differs": opened + logs.frame(b"E", logs.changed(uri, 2, logs.edit((0, 0), (0, 1), ticks))) + logs.snapshot(uri, 2, f"```\n{ticks}"),
        "inside": opened + logs.frame(b"E", logs.changed(uri, 2, {"text": "``\N{GRINNING FACE}``"}, logs.edit((0, 3), (0, 3), "x"))),
        "message": start + logs.frame(b"E", logs.notification("textDocument/didClose", {"textDocument": {"uri": ticks}})),
        "no JSON": start + logs.frame(b"S", ticks.encode()),
    }
    made = [written(place, f"`{name}` @x | <b>.log", log) for name, log in found.items()]
    small = [(log, ["--small"]) for log in made]
    for log, options in [*small, *((log, []) for log in [*made, *all_logs(place)])]:
        text = printed(program, log, *options)
        rest = spans_in(blocks_in(text)[1])[1]
        assert OUTSIDE.fullmatch(rest) and "\u202e" not in text and "\x1b" not in text, (log, OUTSIDE.match(rest)[0][-80:], rest)
        assert not re.search(r"\S[.:]\S|GH-|[0-9a-f]{7}", rest.replace("**", "")), (log, rest)
    text = printed(program, made[0])
    assert "`" * 10 in text and ticks.split("\n")[0] in text, text
    # No line of a log is a fence by itself today; should one be, it doesn't end its block.
    for lines in (["```"], ["a", "`````", "~~~"], ["``````` x"]):
        assert blocks_in("\n".join(in_markdown.block("", lines))) == ([lines], ""), lines


def is_not_too_long(program, place):
    """However long what a log has is: URIs, names, lines of texts, and how many there are of each."""
    uri, line = f"file:///{'u' * 8000}", "x" * 15000
    names = {"name": "n" * 5000, "version": "v" * 5000}
    start = b"lsp-session 2\n" + logs.frame(b"E", logs.request(1, "initialize", {"capabilities": {}, "clientInfo": names}))
    start += logs.frame(b"S", logs.result(1, {"capabilities": {"textDocumentSync": 2}, "serverInfo": names}))
    start += logs.frame(b"E", logs.notification("initialized", {}))
    start += logs.frame(b"E", logs.opened(uri, 0, f"{line}\n" * 50)) + logs.snapshot(uri, 0, f"{line}\n" * 50)
    for version in range(1, 30):
        start += logs.frame(b"E", logs.changed(uri, version, logs.edit((version, 5000), (version, 5000), line)))
    for at in range(40):
        start += logs.frame(b"E", logs.notification("textDocument/didRename", {"textDocument": {"uri": uri}}))
        start += logs.frame(b"E", logs.notification("textDocument/hover", {"textDocument": {"uri": f"{uri}{at}"}}))
    log = written(place, "long.log", start + logs.snapshot(uri, 29, f"{line}\n" * 49))
    text = printed(program, log)
    assert len(text) < 20000 and max(map(len, text.split("\n"))) <= 1002, (len(text), max(map(len, text.split("\n"))))
    assert text.startswith("**") and "and more lines" in text and "and 24 more messages" in text, text[:3000]


def pastes_the_smallest_session(program, place):
    for log in EXAMPLES:
        wanted = smallest_of(program, log).removesuffix("\n")
        blocks, outside = blocks_in(printed(program, log, "--small"))
        assert (wanted.split("\n") in blocks) == ("smallest session" in outside) == bool(wanted), (log, wanted)


def sums_up_several_logs(program, place):
    """A table of all logs, and what one pastes about each that has more to say."""
    good, bad = TOP / "examples/clangd-session.log", WRONG
    for name, log in (("good.log", good.read_bytes()), ("bad | b.log", bad.read_bytes()), ("noted.log", logs.noted()), ("text.log", b"hello\n"),
                      ("cut.log", good.read_bytes()[:-1])):
        written(place, name, log)
    given = ["good.log", "bad | b.log", "noted.log", "none.log", "text.log", "cut.log"]
    done = run(*given, "--markdown", "--program", program, cwd=place)
    assert done.returncode == 3 and len(done.stderr.splitlines()) == 2, done
    head, empty, titles, line, *rest = done.stdout.split("\n")
    assert head == "**6 logs: 1 no, 1 bad log, 2 not read, 2 yes**" and empty == ""
    assert titles.count("|") == line.count("|") == 8
    rows, rest = rest[:6], rest[6:]
    for row, name in zip(rows, given):
        cells = [it.strip() for it in row.strip("|").split("|")]
        assert len(cells) == 7 and cells[0] == f"`{name.replace('|', '[U+007C]')}`", row
        path, size = place / name, f"{(place / name).stat().st_size:,}" if (place / name).exists() else ""
        if name in ("none.log", "text.log"):
            assert cells[1] == "Not read" and cells[2].startswith(f"`{name}: ") and cells[6] == "", row
            continue
        first = lines_of(program, "check", path)[0].split()
        assert cells[1].split()[-1] in (first[0].capitalize(), first[1] if len(first) > 1 else "", first[-3] if len(first) > 3 else ""), row
        assert cells[6] == size, row
    told = [it for it in given if f"### `{it}`" in rest]
    assert told == ["bad | b.log", "noted.log", "cut.log"], told
    parts = re.split(r"^### .*\n\n", "\n".join(rest), flags=re.M)[1:]
    assert [part.rstrip("\n") for part in parts] == [printed(program, place / it).rstrip("\n") for it in told]
    answers(run("none.log", "--markdown", "--program", program, cwd=place), 3, "none.log: No such file or directory")


def writes_pages_too(program, place):
    """With a folder, both: the pages, and the text of them instead of the name of the index."""
    shutil.copy(EXAMPLE, place / "a.log")
    done = run("a.log", "a.log", "--markdown", "--output", "pages", "--program", program, cwd=place)
    again = run("a.log", "a.log", "--markdown", "--program", program, cwd=place)
    assert done.returncode == again.returncode == 0 and done.stdout == again.stdout != "", done
    assert sorted(it.name for it in (place / "pages").iterdir()) == ["a-2.html", "a.html", "index.html"]


TESTS = [
    is_that_of_the_page,
    says_what_lspcheck_says,
    shows_the_message,
    shows_who_took_part,
    differs_as_diff_says,
    hunks_lead_from_one_text_to_the_other,
    tables_have_the_columns_of_each_character,
    finds_the_line_of_a_position,
    stays_text,
    is_not_too_long,
    pastes_the_smallest_session,
    sums_up_several_logs,
    writes_pages_too,
]
