"""Sessions in which a server sends more edits, answers and versions than `explain` looks at, and
what must be reported about them."""

import sys
from pathlib import Path

sys.path.insert(0, str(Path(__file__).resolve().parent))

from sizes import START, did_change, did_open, message, replaced, yes

URI, OTHER = "file:///a", "file:///b"
TWO = START.replace(b"lsp-session 1", b"lsp-session 2", 1)
COMPARED = ["note nothing-compared"]


def formatting(number, uri):
    """A request for edits of a document."""
    params = {"textDocument": {"uri": uri}, "options": {}}
    return message(b"E", id=number, method="textDocument/formatting", params=params)


def edit(first, second, text):
    """An edit, as servers send it."""
    change = replaced(first, second, text)
    return {"range": change["range"], "newText": change["text"]}


def answer(number, edits):
    return message(b"S", id=number, result=edits)


def diagnosed(uri, version):
    params = {"uri": uri, "version": version, "diagnostics": []}
    return message(b"S", method="textDocument/publishDiagnostics", params=params)


def noted(sent, documents, notes):
    """The report of a session without snapshots, with these notes."""
    notes = COMPARED + notes
    return yes(sent, (0, 0), [*documents, *notes, f"notes {len(notes)}"])


def many_edits(count):
    """An answer with so many edits, one of them outside: up to 1,024 are looked at."""
    edits = [edit((0, 0), (0, 0), "")] * (count - 1) + [edit((0, 3), (0, 3), "")]
    log = TWO + did_open(URI, 1, "ab") + formatting(5, URI) + answer(5, edits)
    notes = ["note outside 0 3 event 6 server 2"] if count <= 1024 else []
    return log, noted((4, 2), [f'document 1 2 "{URI}"'], notes)


def many_requests(later):
    """A request for edits, others after it, and its answer. The last 64 are remembered."""
    numbers = range(6, 6 + later)
    log = [TWO, did_open(URI, 1, "ab"), did_open(OTHER, 1, "ab"), formatting(5, URI)]
    log += [formatting(number, OTHER) for number in numbers]
    log.append(answer(5, [edit((0, 3), (0, 3), "")]))
    lines = [f'document 1 2 "{uri}"' for uri in (URI, OTHER)]
    lines += [f'request editor {number} "textDocument/formatting"' for number in numbers]
    notes = [f"note outside 0 3 event {later + 7} server 2"] if later < 64 else []
    return b"".join(log), noted((later + 5, 2), lines, notes)


def many_answers(later):
    """An answer to a request since which the text changed, others on another document after it,
    and a change that makes its edits. The last 8 are remembered."""
    log = [TWO, did_open(URI, 1, "a_"), did_open(OTHER, 1, "b_"), formatting(5, URI), formatting(6, OTHER)]
    log += [did_change(uri, 2, [replaced((0, 0), (0, 0), "x")]) for uri in (URI, OTHER)]
    log.append(answer(5, [edit((0, 1), (0, 2), "")]))
    for number in range(later):
        # Each is asked for at version 2 + n and comes at 3 + n.
        log.append(answer(6 + number, [edit((0, 0), (0, 1), "")]))
        log.append(formatting(7 + number, OTHER))
        log.append(did_change(OTHER, 3 + number, [replaced((0, 0), (0, 0), "y")]))
    log.append(did_change(URI, 3, [replaced((0, 1), (0, 2), "")]))
    lines = [f'document 3 2 "{URI}"', f'document {later + 2} {later + 3} "{OTHER}"']
    lines.append(f'request editor {6 + later} "textDocument/formatting"')
    event = 3 * later + 11
    change = f"event {event} editor {2 * later + 9}"
    notes = [f"note late-edits event 6 editor 5 event 10 server 2 {change}"] if later < 8 else []
    return b"".join(log), noted((2 * later + 9, later + 2), lines, notes)


def large_edits(size):
    """An answer with two edits of this size, 64 bytes for each and those of their texts: up to
    262,144 bytes are held."""
    long = "é" * 100_000
    texts = [long, "x" * (size - len(long.encode()) - 2 * 64)]
    edits = [edit((0, 1), (0, 1), texts[0]), edit((0, 2), (0, 2), texts[1])]
    made = f"x{texts[0]}a{texts[1]}b"
    log = [TWO, did_open(URI, 1, "ab"), formatting(5, URI)]
    log += [did_change(URI, 2, [replaced((0, 0), (0, 0), "x")]), answer(5, edits), did_change(URI, 3, [{"text": made}])]
    notes = ["note late-edits event 5 editor 4 event 7 server 2 event 8 editor 6"] if size <= 262_144 else []
    return b"".join(log), noted((6, 2), [f'document 3 {len(made.encode())} "{URI}"'], notes)


def old_request(changes):
    """A request for edits that are outside, and so many changes before its answer: format 2 keeps
    the text of the version that is 16 before the held one."""
    log = [TWO, did_open(URI, 1, "ab"), formatting(5, URI)]
    log += [did_change(URI, 2 + number, []) for number in range(changes)]
    log.append(answer(5, [edit((0, 3), (0, 3), "")]))
    notes = [f"note outside 0 3 event {changes + 6} server 2"] if changes <= 16 else []
    return b"".join(log), noted((changes + 4, 2), [f'document {changes + 1} 2 "{URI}"'], notes)


def old_version(changes):
    """A version below that of the opening, after so many changes: the last 32 messages that set a
    version are looked at."""
    log = [TWO, did_open(URI, 5, "ab"), *(did_change(URI, 6 + number, []) for number in range(changes))]
    log.append(diagnosed(URI, 4))
    notes = [f"note unsent 4 event {changes + 5} server 2"] if changes < 32 else []
    return b"".join(log), noted((changes + 3, 2), [f'document {changes + 5} 2 "{URI}"'], notes)


def gap(changes):
    """A version between those of two of the last 32 messages that set one, or before all of them."""
    log = [TWO, did_open(URI, 1, "ab"), *(did_change(URI, 3 + 2 * number, []) for number in range(changes))]
    log.append(diagnosed(URI, 4))
    notes = [f"note unsent 4 event {changes + 5} server 2"] if changes <= 32 else []
    return b"".join(log), noted((changes + 3, 2), [f'document {2 * changes + 1} 2 "{URI}"'], notes)


def many_documents(count=66):
    """Documents of which the server sends a version that was not sent, and edits that are outside
    and overlap: the first 64 are noted."""
    log, lines, outside, overlaps, unsent = [TWO], [], [], [], []
    for number in range(count):
        uri = f"file:///{number}"
        edits = [edit((0, 0), (0, 1), ""), edit((0, 0), (0, 3), "")]
        log += [did_open(uri, 1, "ab"), diagnosed(uri, 2), formatting(number + 5, uri), answer(number + 5, edits)]
        first, second = f"event {4 * number + 5} server {2 * number + 2}", f"event {4 * number + 7} server {2 * number + 3}"
        lines.append(f'document 1 2 "{uri}"')
        outside.append(f"note outside 0 3 {second}")
        overlaps.append(f"note overlap {second}")
        unsent.append(f"note unsent 2 {first}")
    notes = [*outside[:64], *overlaps[:64], *unsent[:64]]
    return b"".join(log), noted((2 * count + 2, 2 * count + 1), lines, notes)


def cases():
    """Each session as a run of `explain`, in the form of `sizes.cases`."""
    for name, log, report in sessions():
        yield name, ["explain"], log, 0, report, b""


def sessions():
    """Each session with its name and the report of `explain`."""
    for count in (1024, 1025):
        yield f"an answer with {count} edits", *many_edits(count)
    for later in (63, 64):
        yield f"a request for edits before {later} others", *many_requests(later)
    for later in (7, 8):
        yield f"an answer that came late before {later} others", *many_answers(later)
    for size in (262_144, 262_145):
        yield f"an answer with edits of {size} bytes", *large_edits(size)
    for changes in (16, 17):
        yield f"an answer after {changes} changes", *old_request(changes)
    for changes in (31, 32):
        yield f"a version below those of {changes} changes", *old_version(changes)
    for changes in (32, 33):
        yield f"a version between those of {changes} changes", *gap(changes)
    yield "many documents that the server edits", *many_documents()
