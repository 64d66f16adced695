"""Every value that a page shows is what the program writes about its log, read as a browser shows it.

What is expected is made here from the output of `show`, `check`, `explain`, `event` and `text`.
"""

import json
import re
import subprocess

import logs
from data import EXAMPLES, NO, lines_of, output, written
from expected import READ, Expected, later, version_label
from sentences import MISUSES, SENTENCES, note_words, words_of
from window import WIDTHS

ROWS = READ + """
return [...document.querySelectorAll("#lanes > .row")].filter((it) => it.querySelector(".say")).map((row) => {
  const say = row.querySelector(".say"), spine = row.querySelector(".spine");
  const [a, b] = [say, spine].map((it) => it.getBoundingClientRect());
  const part = (name) => plain(say.querySelector(name));
  return { event: row.querySelector(".number").innerText, isLeft: a.right <= b.left + 1,
    names: part(".names").trim(), id: part(".id"), file: part(".file"), version: part(".version"),
    tags: [...say.querySelectorAll(".says .tag")].map(plain), summary: part(".summary"),
    label: say.getAttribute("aria-label"), top: a.top,
    about: plain(row.querySelector(".details .about")), uri: plain(row.querySelector(".about.uri")),
    contents: [...row.querySelectorAll(":scope > .details > .json, :scope > .details > .halves .json, " +
      ":scope > .details > .document-text, :scope > .details > .halves .document-text")].map(plain),
    paths: [...row.querySelectorAll("path:not(.arrow)")].map((it) => [it.getAttribute("d"), it.getAttribute("class")]),
    text: row.innerText };
});
"""


def open_all(page, wanted, **how):
    """Opens a page in a window in which all rows are seen, and opens all rows."""
    page.open(height=800 + 60 * len(wanted.events), **how)
    closed = page.run(ROWS)
    page.run("document.querySelectorAll('.say').forEach((it) => it.click())")
    for _ in range(40):
        height = page.run("return document.documentElement.scrollHeight")
        page.size(how.get("width", 1600), min(height + 100, 400000))
        page.wait_for_frame()
        if len(page.all(".row .details")) == len(wanted.events):
            break
    return closed, page.run(ROWS)


def shows_each_event(page, program, log):
    """The rows, in order: number, side, method, id, document, version, rule, and the label."""
    wanted = Expected(program, log)
    closed, opened = open_all(page, wanted)
    assert [int(it["event"]) for it in closed] == sorted(wanted.events), [it["event"] for it in closed]
    assert [it["event"] for it in opened] == [it["event"] for it in closed]
    assert [it["top"] for it in closed] == sorted(it["top"] for it in closed)
    suspects, noted = suspects_of(program, log), set(events_of_notes(program, log))
    for row in closed:
        event = wanted.events[int(row["event"])]
        check_row(row, event, suspects, noted)
        assert json.dumps(event.get("id"), ensure_ascii=False) in (row["id"] or "#null")[1:]
    for row in opened:
        check_details(row, wanted.events[int(row["event"])], wanted)
    check_tracks(closed, wanted)
    check_snapshots(program, log, closed, wanted)


# What a row says about a snapshot that breaks no rule itself.
STATUSES = ["equal", "differs", "not compared"]


def check_snapshots(program, log, rows, wanted):
    """Of a session that keeps every rule: as many were not compared as lspcheck counts. Otherwise those
    differ of which it says so."""
    events = [wanted.events[int(row["event"])] for row in rows]
    said = [[tag for tag in row["tags"] if tag in STATUSES] for row in rows]
    for tags, row, event in zip(said, rows, events):
        is_told = event["kind"] == "snapshot" and "rule" not in event and "last equal" not in row["tags"]
        assert len(tags) == is_told, (row, event)
    if wanted.check[0] == "yes":
        count = re.fullmatch(r"snapshots (\d+) unmatched (\d+)", wanted.check[2])
        assert said.count(["not compared"]) == int(count[2]), (said, count)
        assert said.count(["equal"]) == int(count[1]) - int(count[2]), (said, count)
    named = re.findall(r"^snapshot event (\d+)", output(program, "explain", "--all", log).decode(), re.M)
    differ = {row["event"] for row in rows if "differs" in row["tags"]}
    assert differ == {it for it in named if "rule" not in wanted.events[int(it)]}, (differ, named)


def suspects_of(program, log):
    found = output(program, "explain", "--all", log).decode()
    return set(map(int, re.findall(r"^suspect \S+ event (\d+)", found, re.M)))


def notes_of(program, log):
    """The lines of all notes, also of those after a violation."""
    return [it for it in lines_of(program, "explain", "--all", "--notes", log) if it.startswith("note ")]


def events_of_notes(program, log):
    """For each event, its notes."""
    found = {}
    for line in notes_of(program, log):
        if event := re.search(r" event (\d+) \w+ \d+$", line):
            found.setdefault(int(event[1]), []).append(line)
    return found


def check_row(row, event, suspects, noted):
    method, kind = event.get("method"), event["kind"]
    if kind in ("result", "error"):
        asked = event.get("request", {}).get("method")
        wanted = f"{kind} {asked}" if asked else kind
    else:
        wanted = {"snapshot": "snapshot", "unreadable": "cannot be read"}.get(kind, method)
    assert row["names"] == wanted, (row, event)
    assert row["isLeft"] == (event["side"] != "server"), (row, event)
    if "rule" not in event:
        assert row["file"] == (event["uri"].rpartition("/")[2] if "uri" in event else row["file"]), (row, event)
    assert row["version"] == (f"v{event['version']}" if "version" in event else None), (row, event)
    assert (row["id"] is None) == ("id" not in event), (row, event)
    tags = []
    if event.get("follows"):
        tags = [f"follows: {event['rule']}"]
    elif "rule" in event:
        tags = [f"{event['rule']} {event['text']}"]
    elif event["event"] in suspects:
        tags = ["suspect"]
    tags += ["cancelled"] * ("cancel" in event) + ["note"] * (event["event"] in noted)
    assert [it for it in row["tags"] if it not in (*STATUSES, "last equal")] == tags, (row, event)
    said = [f"event {event['event']}", "snapshot" if kind == "snapshot" else f"{event['side']}, {kind}"]
    said += [f"rule {event['rule']}, {event['text']}"] if "rule" in event else []
    said += ["note"] if event["event"] in noted else []
    assert all(it in row["label"] for it in [*said, method or ""]), (row["label"], said)
    if "rule" not in event:
        said = [f"version {event['version']}" if "version" in event else "", f"id {json.dumps(event['id'])}" if "id" in event else ""]
        assert all(it in row["label"].split(", ") for it in said if it), (row["label"], said)


def check_details(row, event, wanted):
    """What an open row says about its event, and its content."""
    said = [it.strip() for it in row["about"].split(" · ")]
    content = wanted.content(event["event"])
    whose = "snapshot" if event["side"] == "snapshot" else f"{event['side']} message"
    assert said[:2] == [f"event {event['event']}", f"{whose} {event['number']}"], (said, event)
    size = f"{len(content):,} byte{'' if len(content) == 1 else 's'}"
    assert said[2] == size, (said, len(content))
    if "id" in event:
        assert said[3] == f"id {json.dumps(event['id'], ensure_ascii=False)}", (said, event)
    joins = [it for it in said[3:] if not it.startswith(("id ", "previous: ", "next: "))]
    assert joins == joins_of(event, wanted), (joins, event)
    if "version" in event and event in (found := wanted.versions(event["uri"])):
        at = found.index(event)
        near = [(word, found[at + by]) for word, by in (("previous", -1), ("next", 1)) if 0 <= at + by < len(found)]
        shown = [it for it in said if it.startswith(("previous: ", "next: "))]
        assert [f"{word}: {version_label(it)}" for word, it in near] == shown, (shown, near)
    if "uri" in event:
        assert row["uri"] == event["uri"], (row["uri"], event)
    if event["kind"] == "snapshot":
        assert row["contents"] == [content.decode()], row["event"]
    elif content and b"\xff" not in content:
        is_join = "rule" not in event and event["kind"] in ("request", "result", "error")
        other = (event.get("answer") or event.get("request")) if is_join else None
        pair = sorted([event["event"]] + ([other["event"]] if other else []))
        try:
            assert [json.loads(it) for it in row["contents"]] == [json.loads(wanted.content(it)) for it in pair], row
        except ValueError:
            assert row["contents"] == [content.decode()], row


def joins_of(event, wanted):
    """What an open row says about the request or the answer of its event."""
    said = []
    if event["kind"] == "request" and "answer" in event:
        said.append(f"answered {later(event, event['answer'])}, by event {event['answer']['event']}")
    elif event["kind"] == "request" and "rule" not in event:
        said.append(why_unanswered(event, wanted))
    elif event.get("method") == "$/cancelRequest" and "request" in event:
        said.append(f"cancels event {event['request']['event']}")
    elif "request" in event:
        said.append(f"answers event {event['request']['event']}, {later(event['request'], event)}")
    if "cancel" in event:
        said.append(f"cancelled by event {event['cancel']['event']}")
    return said


def why_unanswered(event, wanted):
    other = "server" if event["side"] == "editor" else "editor"
    if "broken" in event:
        return f"its answer, event {event['broken']['event']}, breaks rule {event['broken']['rule']}"
    found = [(int(it[1]), int(it[4])) for it in map(NO.fullmatch, wanted.every) if it and it[2] == other]
    for rule, at in found:
        if 101 <= rule <= 106:
            return (f"no answer up to event {at}, a frame that cannot be read: nothing that the {other} "
                    "sent after it can be")
    unread = [at for rule, at in found if 201 <= rule <= 209 and at > event["event"] and "method" not in wanted.events[at]]
    if unread:
        return f"not answered, unless event {unread[0]}, which breaks a rule, was the answer"
    if any(rule == 107 for rule, _ in found):
        return f"no answer before the {other}’s last frame, which is cut off"
    if any(it.startswith("bad log") for it in wanted.every):
        return "no answer before the place where the log is damaged"
    return "not answered in the log"


def check_tracks(rows, wanted):
    """The line of each request begins at its row, passes those after it, and ends at its answer, or at
    its cancel if it has none."""
    opened = {}
    for row in rows:
        event = wanted.events[int(row["event"])]
        begins, passes, ends = set(), set(), set()
        for path, side in row["paths"]:
            if found := re.fullmatch(r"M([\d.]+) ([\d.]+)V([\d.]+)", path):
                x, start, end = found[1], float(found[2]), float(found[3])
                where = begins if start else ends if end < 25 and end != 30 else passes
                where.add((side, x))
        assert passes | ends == set(opened), (row["event"], passes, ends, opened)
        for track in ends:
            request = opened.pop(track)
            assert request.get("answer", request.get("cancel")) is event, (row["event"], request)
        for track in begins:
            assert event["kind"] == "request" and track[0] == f"track-{event['side']}", row
            opened[track] = event
        ended = [it for it in opened.values() if it.get("answer", it.get("cancel")) is event]
        assert not ended, (row["event"], ended)
    assert not opened, opened


def shows_the_head(page, program, log):
    """The verdict, the counts, who took part and what was agreed, as the program and the messages have
    them, also in the page of a log that was cut."""
    wanted = Expected(program, log)
    page.open()
    head = page.run(READ + "return plain(document.querySelector('.verdict'))")
    sides = [it["side"] for it in wanted.events.values()]
    counts = [sides.count(it) for it in ("editor", "server", "snapshot")]
    title = page.run(READ + "return plain(document.querySelector('.verdict h1'))")
    rule = page.run(READ + "return plain(document.querySelector('.verdict .rule'))")
    so = [json.loads(it[3:]) for it in wanted.explain if it.startswith("so ")]
    plural = lambda number, noun: f"{number:,} {noun}{'' if number == 1 else 's'}"
    if wanted.check[0] == "yes":
        numbers = [int(it) for line in wanted.check[1:3] for it in re.findall(r"\d+", line)]
        assert counts == numbers[:3], (counts, numbers)
        assert title == ("Yes The session keeps every rule" if numbers[:2] != [0, 0] else "Yes The log has no message"), title
        found = re.match(r"encoding (\S+) sync (\S+)", wanted.check[3])
        agreed = f"columns in {found[1]} · synchronisation: {found[2]}" if found[1] != "-" else "no handshake"
        assert f" · {agreed}" in head, head
    elif wanted.check[0].startswith("no "):
        number, side, its, event, _ = NO.fullmatch(wanted.check[0]).groups()
        assert title == (f"{so[0]} lspcheck" if so else wanted.check[1]), (title, so)
        assert rule.startswith(f"No · rule {number} {wanted.check[1]} · " if so else f"No · rule {number} · "), rule
        if int(event) <= sum(counts):
            whose = f"snapshot {its}" if side == "snapshot" else f"the {side}’s message {its}"
            assert rule.endswith(f" · {whose}, event {event} of the log"), rule
        else:
            assert f" · the {side}’s " in rule and rule.endswith(", at the end of the log"), rule
    else:
        assert title == f"Bad log {wanted.check[1]}", title
    assert plural(sum(counts), "event") in head, head
    assert f"{plural(counts[0], 'message')} of the editor and {counts[1]:,} of the server" in head, head
    assert f"· {plural(counts[2], 'snapshot')} ·" in head, head
    assert plural(log.stat().st_size, "byte") in head and f"format {log.read_bytes()[12:13].decode()}" in head, head
    named = {it["uri"] for it in wanted.events.values() if "uri" in it}
    assert re.search(rf" · {plural(len(named), 'document')} · ", head), (head, len(named))
    found = re.fullmatch(r"offences (\d+) following (\d+)", wanted.every[-1])
    if found:
        alone, follow = int(found[1]) - int(found[2]), int(found[2])
        assert plural(alone, "violation") in head and (f"and {follow:,} that follow" in head) == (follow > 0), head
    version = subprocess.run([program, "--version"], capture_output=True, text=True).stdout.strip()
    assert f"that of {version}." in head, head
    names = who(wanted)
    assert f"{names[0] or 'an editor without a name'} to {names[1] or 'a server without a name'}" in head, (head, names)
    heads = page.texts("#lane-heads > div")
    assert heads == [f"Editor: {names[0]}" if names[0] else "Editor", "event",
                     f"Server: {names[1]}" if names[1] else "Server"], heads


def who(wanted):
    """The names of both sides, with the first number with a point in their versions."""
    names = [None, None]
    for at, member in ((1, "clientInfo"), (2, "serverInfo")):
        is_message = wanted.events.get(at, {}).get("kind") in ("request", "result")
        message = json.loads(wanted.content(at)) if is_message else {}
        found = message.get("params" if at == 1 else "result", {}).get(member)
        if found:
            number = re.search(r"\d+(\.\d+)+", found.get("version", ""))
            names[at - 1] = f"{found['name']} {number[0]}" if number else found["name"]
    return names


def says_each_note(page, program, log):
    """The notes of `explain --all --notes`, in its order, as sentences, and each at its event."""
    notes = [words_of(it)[1] for it in notes_of(program, log)]
    for event, lines in events_of_notes(program, log).items():
        page.open(link=f"#event-{event}")
        shown = page.run(READ + "return [...document.querySelectorAll('.selected .details .notes li')].map(plain)")
        assert shown == [note_words(name, values) for name, *values in (words_of(it)[1] for it in lines)], (shown, lines)
    page.open()
    shown = page.run(READ + "return [...document.querySelectorAll('#overview .card')].filter((it) => plain(it).startsWith('Notes')).flatMap((it) => [...it.querySelectorAll('li')].map(plain))")
    assert shown == [note_words(name, values) for name, *values in notes], (shown, notes)
    if log.name == "noted.log":
        kinds = {name for name, *_ in notes}
        assert kinds == {*MISUSES, "past-end", "range-length", "refused", "similar", "late-edits", "outside", "overlap", "unsent", "exit-without-shutdown", "offset-encoding", "no-snapshot"}, kinds


def explains_each_violation(page, program, log):
    """The lines of `explain --all`, as sentences in the details of their events."""
    wanted = Expected(program, log)
    explained, current = {}, None
    for line in lines_of(program, "explain", "--all", log):
        if found := NO.fullmatch(line):
            current = explained.setdefault((int(found[1]), int(found[4])), [])
        elif line.startswith(("bad log ", "end ")):
            current = None
        elif current is not None:
            current.append(line)
    for (rule, event), lines in explained.items():
        if event not in wanted.events:
            continue
        page.open(link=f"#event-{event}")
        facts = page.run(READ + """return [...document.querySelectorAll('.selected .why .facts > dt')]
            .map((it) => [plain(it), plain(it.nextSibling)])""")
        above = shown_above(page)
        for line in lines[1:]:
            word, values = words_of(line)
            if word in SENTENCES:
                label, sentence = SENTENCES[word]
                said = sentence(values)
                assert said is None or [label, said] in facts or is_above(word, values, above), (line, said, facts, above)
            elif word in ("by-messages", "in-editor", "saved", "begins", "similar", "member"):
                assert any(values[0] in text for _, text in facts) or is_above(word, values, above), (line, facts, above)
        so = [words_of(it)[1][0] for it in lines if it.startswith("so ")]
        first = page.run(READ + "return plain(document.querySelector('.selected .details > .so'))")
        assert first == (f"{so[0]} lspcheck" if so else None), (so, first)
        about = page.run(READ + "return [...document.querySelectorAll('.selected .about-rule dd')].map(plain)")
        cells = rule_words(rule)[: -1 if any(it.startswith("usually ") for it in lines) else None]
        assert about == cells, (about, cells)
        raw = page.run("const it = document.querySelector('.selected .why .folded'); it.open = true; return 0")
        page.wait("return document.querySelector('.selected .why .raw') !== null")
        raw = page.run(READ + "return plain(document.querySelector('.selected .why .raw'))").split("\n")
        assert raw[1:] == [it for it in lines if not it.startswith(("offences ", "bad log"))][: len(raw) - 1], (raw, lines)


def shown_above(page):
    """What the details of a violation show above its explanation: lines of the texts, characters and
    encodings in the table of columns."""
    return page.run(READ + """const texts = (selector) => [...document.querySelectorAll(selector)].map(plain);
        return { lines: texts('.selected .texts .line-text'), here: texts('.selected .columns-table td.is-here'),
                 encodings: texts('.selected .columns-table .agreed th') };""")


def is_above(word, values, above):
    """Whether what a line of an explanation says is shown above it."""
    if word in ("by-messages", "in-editor", "saved"):
        # Of a long line, the ends.
        return any(values[0].rstrip("\n")[:300] in it for it in above["lines"])
    return word == "inside" and values[0] in above["here"] or word == "encoding" and values[0].upper() in above["encodings"]


def rule_words(rule):
    """The cells of the rule's row in RULES, without links and marks. The last one says whose fault it is."""
    text = (EXAMPLES[0].parent.parent / "docs/RULES.md").read_text()
    rows = [it.split(" | ") for it in re.findall(rf"^\| {rule} \| (.*) \|$", text, re.M)]
    cells = [re.sub(r"\[([^\]]*)\]\([^)]*\)|`([^`]*)`|\*+([^*]+)\*+", lambda it: it[1] or it[2] or it[3], cell.replace(" *(own)*", ""))
             for cell in max(rows, key=len)[1:]]
    return [it for it in cells if it != "see below"]


COMPARED = READ + """
document.querySelectorAll(arguments[0] + ' button.skipped').forEach((it) => it.click());
for (let more; (more = document.querySelector(arguments[0] + ' .more:not([hidden])'));) more.click();
for (let more; (more = document.querySelector(arguments[0] + ' button.skipped'));) more.click();
const heads = [...document.querySelectorAll(arguments[0] + ' .heads > div')];
const cells = [...document.querySelectorAll(arguments[0] + ' .pair:not(.heads)')].map((pair) =>
  [...pair.children].map((cell) => [cell.querySelector('.line-number').innerText,
    plain(cell.querySelector('.line-text')), [...cell.querySelectorAll('mark')].map(plain).join(''),
    cell.getBoundingClientRect().left, pair.className]));
return { heads: heads.map((it) => [plain(it), it.getBoundingClientRect().left]), cells };
"""


def lines_in(text):
    return re.findall(r"[^\r\n]*(?:\r\n|\r|\n)|[^\r\n]+$", text) or [""]


def check_comparison(page, selector, left, right):
    """Both texts, line by line with their numbers, the first on the left; what is marked differs."""
    found = page.run(COMPARED, selector)
    assert found["heads"][0][1] < found["heads"][1][1], found["heads"]
    for side, text in enumerate((left, right)):
        numbered = {}
        for pair in found["cells"]:
            number, shown, _, x, classes = pair[side]
            assert x == found["heads"][side][1] or abs(x - found["heads"][side][1]) < 2, (x, found["heads"])
            if number:
                numbered[int(number)] = shown + ("\n" if "equal" in classes and not shown.endswith("\r") else "")
        lines = lines_in(text)
        for number, line in enumerate(lines, 1):
            assert numbered.get(number, "").rstrip("\n") == line.rstrip("\n"), (selector, side, number, line, numbered.get(number))
        assert max(numbered) <= len(lines) + 1, (side, max(numbered), len(lines))
    for a, b in found["cells"]:
        assert ("differs" in a[4]) == bool(a[2] or b[2]), (a, b)
        assert "equal" not in a[4] or a[1] == b[1], (a, b)


def shows_both_texts(page, program, log):
    """The text by the messages on the left, the editor's own on the right."""
    texts = [output(program, "explain", it, log).decode() for it in ("--by-messages", "--in-editor")]
    assert texts[0] != texts[1]
    for width in WIDTHS:
        page.open(width)
        tops = page.run("return ['.first .pair', '.first .pair.differs'].map((it) => "
                        "document.querySelector(it).getBoundingClientRect().top)")
        assert tops[0] < 400 and tops[1] < 450, (width, tops)
    assert page.texts(".first .heads > div")[0] == "By the messages"
    assert page.texts(".first .heads > div")[1] in ("In the editor", "Saved by the editor")
    shown = [pair for pair in page.all(".first .pair.equal")]
    assert len(shown) < len(lines_in(texts[0])) or len(lines_in(texts[0])) < 10, len(shown)
    check_comparison(page, ".first .texts", *texts)


def shows_the_columns(page, program, log):
    """Of a 605: the line, character by character, and the column of each in the agreed encoding."""
    wanted = Expected(program, log)
    rule, who_, number, event = re.match(r"no (\d+) (\w+) (\d+) event (\d+)", wanted.check[0]).groups()
    change = json.loads(wanted.content(int(event)))["params"]["contentChanges"][0]["range"]["start"]
    uri = json.loads(wanted.content(int(event)))["params"]["textDocument"]["uri"]
    line = lines_in(output(program, "text", str(int(number) - 1), uri, log).decode())[change["line"]]
    characters = re.findall(r"\r\n|.", line, re.S)
    page.open()
    rows = page.run(READ + "return [...document.querySelectorAll('.first .columns-table tr')].map((it) => [...it.children].map(plain))")
    assert rows[0][1:] == [it.replace("\t", "\t") for it in characters], (rows[0], characters)
    at, columns = 1, []
    for character in characters:
        columns.append(str(at))
        at += len(character.encode("utf-16-le")) // 2
    assert ["UTF-16", *columns] in rows, (rows, columns)
    said = page.text(".first .line-columns")
    assert f"Line {change['line'] + 1} before this change" in said, said
    assert f"line {change['line']} and character {change['character']}, in utf-16" in said, said
    here = page.run(READ + "return [...document.querySelectorAll('.first td.is-here')].map(plain)")
    inside = max(it for it in range(len(columns)) if int(columns[it]) <= change["character"] + 1)
    assert here[0] == characters[inside] and here[1] == columns[inside], here
    is_between = int(columns[inside]) != change["character"] + 1
    assert here[-1] == f"▲ {change['character'] + 1}{' inside' if is_between else ''}", here
    assert bool(page.all(".first .positions .is-inside")) == is_between, here


def tests_of(window, program, place):
    """Pairs of a name and a test, for each log that shows something else."""
    made = [written(place, name, log) for name, log in logs.telling().items()]
    for log in [*EXAMPLES, *made]:
        page = window(log)
        found = [shows_each_event, shows_the_head, explains_each_violation, says_each_note]
        rule = lines_of(program, "check", log)[0].split()[1:2]
        found += [shows_both_texts] if rule in (["608"], ["702"]) else []
        found += [shows_the_columns] if rule == ["605"] else []
        for test in found:
            yield f"{test.__name__} {log.name}", lambda test=test, page=page, log=log: test(page, program, log)
