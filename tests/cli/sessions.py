"""Sessions, byte by byte, and what must be reported about them.

The messages and the answers of the commands are worked out by hand from LSP 3.17 and the pages in
docs.
"""


def frame(content):
    """The canonical frame of a content."""
    content = content.encode()
    return b"Content-Length: %d\r\n\r\n%s" % (len(content), content)


def editor(content):
    """The record of a message that the editor wrote."""
    return b"E %d\n%s\n" % (len(frame(content)), frame(content))


def server(content):
    """The record of a message that the editor read."""
    return b"S %d\n%s\n" % (len(frame(content)), frame(content))


def content(record):
    """The content of the only frame of a record."""
    return record.partition(b"\r\n\r\n")[2][:-1]


HEAD = b"lsp-session 1\n"
INITIALIZE = editor('{"jsonrpc":"2.0","id":1,"method":"initialize","params":{"capabilities":{}}}')
ANSWER = server('{"jsonrpc":"2.0","id":1,"result":{"capabilities":{"textDocumentSync":2}}}')
INITIALIZED = editor('{"jsonrpc":"2.0","method":"initialized","params":{}}')
OPEN = editor(
    '{"jsonrpc":"2.0","method":"textDocument/didOpen","params":{"textDocument":'
    '{"uri":"file:///a","languageId":"x","version":1,"text":"ab"}}}'
)
SNAPSHOT = b"T 1 9 2\nfile:///a\nab\n"
SHUTDOWN = editor('{"jsonrpc":"2.0","id":2,"method":"shutdown","params":null}')
STOPPED = server('{"jsonrpc":"2.0","id":2,"result":null}')
EXIT = editor('{"jsonrpc":"2.0","method":"exit"}')

# A session whose editor was killed, and a whole one; both keep the rules.
KILLED = HEAD + INITIALIZE + ANSWER + INITIALIZED + OPEN + SNAPSHOT + SHUTDOWN + STOPPED
WHOLE = KILLED + EXIT

# The same with its words replaced.
REDACTED = b"".join([
    HEAD,
    editor('{"id":1,"jsonrpc":"2.0","method":"initialize","params":{"capabilities":{}}}'),
    server(
        '{"id":1,"jsonrpc":"2.0","result":{"capabilities":'
        '{"positionEncoding":"utf-16","textDocumentSync":2}}}'
    ),
    editor('{"jsonrpc":"2.0","method":"initialized"}'),
    editor(
        '{"jsonrpc":"2.0","method":"textDocument/didOpen","params":{"textDocument":'
        '{"text":"xx","uri":"file:///1","version":1}}}'
    ),
    b"T 1 9 2\nfile:///1\nxx\n",
    editor('{"id":2,"jsonrpc":"2.0","method":"shutdown"}'),
    server('{"id":2,"jsonrpc":"2.0","result":null}'),
    EXIT,
])

# The same in format 2.
HEAD_TWO = b"lsp-session 2\n"
UPGRADED = HEAD_TWO + WHOLE[len(HEAD):]

WHOLE_REPORT = b"""yes
messages 5 2
snapshots 1 unmatched 0
encoding utf-16 sync incremental
document 1 2 "file:///a"
"""

# The killed editor sent one message less.
KILLED_YES = WHOLE_REPORT.replace(b"messages 5 2", b"messages 4 2")

# Sessions that keep the rules, and their reports.
KEPT = [(WHOLE, WHOLE_REPORT), (KILLED, KILLED_YES), (UPGRADED, WHOLE_REPORT)]

WHOLE_LINES = b"""1 editor request 1 "initialize"
2 server result 1
3 editor notification "initialized"
4 editor notification "textDocument/didOpen"
5 snapshot 1 2 "file:///a"
6 editor request 2 "shutdown"
7 server result 2
8 editor notification "exit"
"""

# The same with the number of each event among those of its side, and the URI and version of
# documents.
WHOLE_LONG = b"""1 editor request 1 "initialize" 1
2 server result 1 1
3 editor notification "initialized" 2
4 editor notification "textDocument/didOpen" 3 "file:///a" 1
5 snapshot 1 2 "file:///a" 1
6 editor request 2 "shutdown" 4
7 server result 2 2
8 editor notification "exit" 5
"""

# The content of each of its events.
WHOLE_CONTENTS = [content(INITIALIZE), content(ANSWER), content(INITIALIZED), content(OPEN), b"ab"]
WHOLE_CONTENTS += [content(SHUTDOWN), content(STOPPED), content(EXIT)]

# The same with an exit too many.
EXITS = WHOLE + EXIT
EXITS_REPORT = b"no 406 editor 6 event 9\neditor message after exit\n"

# The same without the answer to shutdown. The reports on it, and on that of the killed editor.
UNANSWERED = HEAD + INITIALIZE + ANSWER + INITIALIZED + OPEN + SNAPSHOT + SHUTDOWN + EXIT
UNANSWERED_REPORT = b"no 303 editor 6 event 8\nrequest is not answered\n"
KILLED_REPORT = b"no 407 editor 5 event 8\nexit is missing\n"

# An unfinished frame.
REST = HEAD + b"E 3\nabc\n"
REST_REPORT = b"no 107 editor 1 event 1\nstream ends inside a frame\n"

# An invalid header part, and after it a message of either side.
BROKEN = HEAD + b"E 4\n\r\n\r\n\n" + EXIT + STOPPED
BROKEN_REPORT = b"no 102 editor 1 event 1\nbad header line\n"

# A header part without a length, while the other side is inside a frame.
MISSPELT = HEAD + b"E 3\nabc\n" + b"S 23\nContent-Lenght: 2\r\n\r\n{}\n"
MISSPELT_REPORT = b"no 103 server 1 event 1\nnot exactly one Content-Length\n"


def changed(version, *changes):
    """The record of a `didChange` with these changes."""
    return editor(
        '{"jsonrpc":"2.0","method":"textDocument/didChange","params":{"textDocument":'
        '{"uri":"file:///a","version":%d},"contentChanges":[%s]}}' % (version, ",".join(changes))
    )


def shown(version, text):
    """The record of a snapshot."""
    return b"T %d 9 %d\nfile:///a\n%s\n" % (version, len(text), text)


REVERSED = '{"range":{"start":{"line":0,"character":2},"end":{"line":0,"character":1}},"text":"x"}'
RENEWED = '{"text":"new"}'

# A session in which five events offend: the document is lost at the second, so that the third follows from it.
WRONGS = HEAD + INITIALIZE + ANSWER + INITIALIZED + OPEN + changed(1) + SNAPSHOT + changed(2, REVERSED)
WRONGS += shown(1, b"xx") + changed(3, RENEWED) + shown(3, b"old") + SHUTDOWN + STOPPED + EXIT + EXIT
STAYS = b"no 603 editor 4 event 5\nversion does not rise\n"
WRONG_LINES = STAYS + b"no 606 editor 5 event 7\nrange is reversed\n"
WRONG_LATER = b"no 702 snapshot 3 event 10\nsnapshot differs\nno 406 editor 9 event 14\neditor message after exit\n"
WRONG_FOLLOWS = b"no 702 snapshot 2 event 8 follows\nsnapshot differs\n"

# All its events: the lines of those that are kept, and the offences.
WRONGS_SHOWN = b"""1 editor request 1 "initialize"
2 server result 1
3 editor notification "initialized"
4 editor notification "textDocument/didOpen"
no 603 editor 4 event 5
version does not rise
6 snapshot 1 2 "file:///a"
no 606 editor 5 event 7
range is reversed
no 702 snapshot 2 event 8 follows
snapshot differs
9 editor notification "textDocument/didChange"
no 702 snapshot 3 event 10
snapshot differs
11 editor request 2 "shutdown"
12 server result 2
13 editor notification "exit"
no 406 editor 9 event 14
editor message after exit
"""

# A handshake that is lost at its first message.
UNSHAKEN = HEAD + editor('{"jsonrpc":"2.0","id":1,"method":"initialize","params":[]}') + ANSWER + INITIALIZED + EXIT
UNSHAKEN_LINES = b"no 209 editor 1 event 1\nbad params of an interpreted method\n"
UNSHAKEN_FOLLOW = b"no 301 server 1 event 2 follows\nresponse to no open request\n"
UNSHAKEN_FOLLOW += b"no 401 editor 2 event 3 follows\neditor message before initialize\n"

# What is left of both sides.
RESTS = REST + b"S 3\nabc\n"

# What is listed for a log: the causes, all offences, and how many there are; with the status of the
# first.
OFFENCES = [
    (WRONGS, WRONG_LINES + WRONG_LATER, WRONG_LINES + WRONG_FOLLOWS + WRONG_LATER, b"offences 5 following 1\n"),
    (UNSHAKEN, UNSHAKEN_LINES, UNSHAKEN_LINES + UNSHAKEN_FOLLOW, b"offences 3 following 2\n"),
    (EXITS, EXITS_REPORT, EXITS_REPORT, b"offences 1 following 0\n"),
    (REST, REST_REPORT, REST_REPORT, b"offences 1 following 0\n"),
    (
        RESTS,
        REST_REPORT + REST_REPORT.replace(b"editor", b"server"),
        REST_REPORT + REST_REPORT.replace(b"editor", b"server"),
        b"offences 2 following 0\n",
    ),
    (
        BROKEN,
        BROKEN_REPORT,
        BROKEN_REPORT + b"no 301 server 1 event 2 follows\nresponse to no open request\n",
        b"offences 2 following 1\n",
    ),
]

# The same session up to its second and to its third offence, without the ones before.
REVERSES = HEAD + INITIALIZE + ANSWER + INITIALIZED + OPEN + changed(2, REVERSED)
DIFFERS = HEAD + INITIALIZE + ANSWER + INITIALIZED + OPEN + changed(3, RENEWED) + shown(3, b"old")
REVERSES_REPORT = b"no 606 editor 4 event 5\nrange is reversed\n"
DIFFERS_REPORT = b"no 702 snapshot 1 event 6\nsnapshot differs\n"

# The same where a snapshot before was equal; a second answer to a request, and a request whose id is taken.
PARTS = HEAD + INITIALIZE + ANSWER + INITIALIZED + OPEN + SNAPSHOT + changed(3, RENEWED) + shown(3, b"old")
PARTS_REPORT = b"no 702 snapshot 2 event 7\nsnapshot differs\n"
AGAIN = HEAD + INITIALIZE + ANSWER + ANSWER
AGAIN_REPORT = b"no 301 server 2 event 3\nresponse to no open request\n"
HOVER = editor('{"jsonrpc":"2.0","id":1,"method":"textDocument/hover","params":{}}')
TAKEN = HEAD + INITIALIZE + ANSWER + INITIALIZED + HOVER + HOVER
TAKEN_REPORT = b"no 302 editor 4 event 5\nid is already open\n"

URI_LINE = b'uri "file:///a"\n'
STAYS_FACTS = b'event 5 editor 4 notification "textDocument/didChange"\n' + URI_LINE
STAYS_FACTS += b"held 1 event 4 editor 3\nsent 1\nchanges 0\nusually editor\n"
REVERSED_FACTS = b'event 5 editor 4 notification "textDocument/didChange"\n' + URI_LINE
REVERSED_FACTS += b"held 1 event 4 editor 3\nsent 2\nchanges 1\nencoding utf-16\n"
REVERSED_FACTS += b"change 1 0 2 0 1\nlength 2\nusually editor\n"
APART = b'version 3\nencoding utf-16\nat 0 0\nby-messages "new"\nin-editor "old"\n'
APART += b"codes U+006E U+006F\n"
DIFFERS_FACTS = b"event 6 snapshot 1\n" + URI_LINE + b"held 3 event 5 editor 4\n" + APART
DIFFERS_FACTS += b"snapshot event 6 snapshot 1\nsuspects 2\nsuspect 1 event 4 editor 3\n"
DIFFERS_FACTS += b"suspect 3 event 5 editor 4\nusually editor\n"
PARTS_FACTS = b"event 7 snapshot 2\n" + URI_LINE + b"held 3 event 6 editor 4\n" + APART
PARTS_FACTS += b"snapshot event 7 snapshot 2\nequal 1 event 5 snapshot 1\nsuspects 1\n"
PARTS_FACTS += b"suspect 3 event 6 editor 4\nusually editor\n"
PARTS_FACTS += b'so "Either one message is wrong, or one change was never sent."\n'
EXITS_FACTS = b'event 9 editor 6 notification "exit"\nphase exited\nsince event 8 editor 5\n'
EXITS_FACTS += b"usually editor\n"
TAKEN_FACTS = b'event 5 editor 4 request 1 "textDocument/hover"\nid 1\nasked event 4 editor 3\n'
TAKEN_FACTS += b"answered event 2 server 1\nusually editor\n"
TAKEN_FACTS += b'so "The id was used again before the first request was answered."\n'
AGAIN_FACTS = b"event 3 server 2 result 1\nid 1\nanswered event 2 server 1\nusually server\n"
AGAIN_FACTS += b'so "The request was answered before."\n'
REST_FACTS = b'end 1 editor\nbegins "abc"\nusually recorder\n'


def long_lines(held, other, column, by_messages, in_editor, codes):
    """The log of a snapshot that has one long line, the report on it, and what explains it."""
    opened = OPEN_WITH.format(held)
    log = HEAD + INITIALIZE + ANSWER + INITIALIZED + editor(opened) + shown(1, other.encode())
    facts = b"event 5 snapshot 1\n" + URI_LINE
    facts += b"held 1 event 4 editor 3\nversion 1\nencoding utf-16\n"
    facts += f"at 0 {column}\nby-messages {by_messages}\nin-editor {in_editor}\n".encode()
    facts += f"codes {codes}\n".encode()
    facts += b"snapshot event 5 snapshot 1\nsuspects 1\nsuspect 1 event 4 editor 3\n"
    facts += b"usually editor\n"
    return log, b"no 702 snapshot 1 event 5\nsnapshot differs\n", facts


OPEN_WITH = (
    '{{"jsonrpc":"2.0","method":"textDocument/didOpen","params":{{"textDocument":'
    '{{"uri":"file:///a","languageId":"x","version":1,"text":"{}"}}}}}}'
)
AS, SMILES = "a" * 300, "\U0001f600" * 150

# Of a line of more than 200 characters, at most 100 are shown before the first one that differs.
LONG_LINES = [
    long_lines(
        AS[:150] + "b" + AS[:150],
        AS[:150] + "c" + AS[:150],
        150,
        f'"{AS[:100]}b{AS[:99]}" cut 50 51',
        f'"{AS[:100]}c{AS[:99]}" cut 50 51',
        "U+0062 U+0063",
    ),
    long_lines(AS, AS + "b", 300, f'"{AS[:100]}" cut 200 0', f'"{AS[:100]}b" cut 200 0', "end U+0062"),
    long_lines("b" + AS, "c", 0, f'"b{AS[:199]}" cut 0 101', '"c"', "U+0062 U+0063"),
    long_lines(AS[:199] + "b", AS[:199] + "c", 199, f'"{AS[:199]}b"', f'"{AS[:199]}c"', "U+0062 U+0063"),
    long_lines(AS[:200] + "b", AS[:199] + "c", 199, f'"{AS[:101]}b" cut 99 0', f'"{AS[:199]}c"', "U+0061 U+0063"),
    long_lines(
        SMILES + "b" + SMILES,
        SMILES + "c" + SMILES,
        300,
        f'"{SMILES[:100]}b{SMILES[:99]}" cut 50 51',
        f'"{SMILES[:100]}c{SMILES[:99]}" cut 50 51',
        "U+0062 U+0063",
    ),
]

# For logs with a no: what is written after its two lines.
FACTS = [
    (WRONGS, STAYS, STAYS_FACTS),
    (REVERSES, REVERSES_REPORT, REVERSED_FACTS),
    (DIFFERS, DIFFERS_REPORT, DIFFERS_FACTS),
    (EXITS, EXITS_REPORT, EXITS_FACTS),
    (PARTS, PARTS_REPORT, PARTS_FACTS),
    (AGAIN, AGAIN_REPORT, AGAIN_FACTS),
    (TAKEN, TAKEN_REPORT, TAKEN_FACTS),
    (REST, REST_REPORT, REST_FACTS),
    *LONG_LINES,
    (BROKEN, BROKEN_REPORT, rb'''event 1 editor 1
begins "\r\n\r\n"
usually editor
'''),
    (MISSPELT, MISSPELT_REPORT, rb'''event 1 server 1
begins "Content-Lenght: 2\r\n\r\n"
usually server
'''),
]

UNANSWERED_FACTS = b'end 8 editor\nrequest 2 "shutdown" event 6 editor 4\nphase exited\n'
UNANSWERED_FACTS += b"since event 7 editor 5\nusually server\n"
KILLED_FACTS = b"end 8 editor\nphase stopping\nsince event 6 editor 4\nusually editor\n"

# The same for sessions that must be complete.
LACK_FACTS = [
    (UNANSWERED, UNANSWERED_REPORT, UNANSWERED_FACTS),
    (KILLED, KILLED_REPORT, KILLED_FACTS),
]

# For logs with several offences: what explains each that follows from no earlier one, and how many
# there are.
WRONGS_EXPLAINED = STAYS + STAYS_FACTS + rb'''no 606 editor 5 event 7
range is reversed
event 7 editor 5 notification "textDocument/didChange"
uri "file:///a"
held 1 event 4 editor 3
sent 2
changes 1
encoding utf-16
change 1 0 2 0 1
length 2
usually editor
no 702 snapshot 3 event 10
snapshot differs
event 10 snapshot 3
uri "file:///a"
held 3 event 9 editor 6
version 3
encoding utf-16
at 0 0
by-messages "new"
in-editor "old"
codes U+006E U+006F
snapshot event 10 snapshot 3
equal 1 event 6 snapshot 1
suspects 1
suspect 3 event 9 editor 6
usually editor
so "Either one message is wrong, or one change was never sent."
no 406 editor 9 event 14
editor message after exit
event 14 editor 9 notification "exit"
phase exited
since event 13 editor 8
usually editor
'''
ALL_FACTS = [
    (WRONGS, WRONGS_EXPLAINED, b"offences 5 following 1\n"),
    (
        UNSHAKEN,
        UNSHAKEN_LINES + rb'''event 1 editor 1 request 1 "initialize"
begins "{\"jsonrpc\":\"2.0\",\"id\":1,\"method\":\"initialize\",\"params\":[]}"
member ""
usually editor
''',
        b"offences 3 following 2\n",
    ),
    (EXITS, EXITS_REPORT + EXITS_FACTS, b"offences 1 following 0\n"),
    (
        RESTS,
        (REST_REPORT + REST_FACTS) + (REST_REPORT + REST_FACTS).replace(b"editor", b"server"),
        b"offences 2 following 0\n",
    ),
    (
        BROKEN,
        BROKEN_REPORT + rb'''event 1 editor 1
begins "\r\n\r\n"
usually editor
''',
        b"offences 2 following 1\n",
    ),
]

# A didChange that breaks a rule and changes nothing, and one that is past the end of its line: what
# is written of them before the log ends, and then.
PAST_END = '{"range":{"start":{"line":0,"character":3},"end":{"line":0,"character":3}},"text":"x"}'
NOTED = HEAD + INITIALIZE + ANSWER + INITIALIZED + OPEN + changed(1) + changed(2, PAST_END)
NOTED_EXPLAINED = STAYS + STAYS_FACTS + b"note past-end 0 3 length 2 event 6 editor 5\n"
NOTED_COUNTS = b"offences 1 following 0\nnotes 1\n"


def in_bytes(log):
    """The log with each record of bytes cut into records of one byte."""
    cut, at = [HEAD], len(HEAD)
    while at < len(log):
        end = log.index(b"\n", at) + 1
        sizes = [int(word) for word in log[at:end].split()[1:]]
        if log[at:at + 1] == b"T":
            whole = end + sizes[1] + 1 + sizes[2] + 1
            cut.append(log[at:whole])
        else:
            whole = end + sizes[0] + 1
            side = log[at:at + 1]
            cut += [b"%s 1\n%c\n" % (side, byte) for byte in log[end:whole - 1]]
        at = whole
    return b"".join(cut)


EXIT_CONTENT = b'{"jsonrpc":"2.0","method":"exit"}'
CANONICAL = b"Content-Length: 33\r\n\r\n" + EXIT_CONTENT
LOOSE = b"content-length:  0000000033 \r\nX: y\r\n\r\n" + EXIT_CONTENT
ONE_TOO_FEW = b"Content-Length: 9\r\n\r\n" + '{"a":"é"}'.encode()

# A raw stream: what `frames` writes as lengths, as kinds and as canonical, and the report of its fault.
STREAMS = [
    (b"", b"", b"", b"", None, None),
    (CANONICAL, b"1 33\n", b'1 33 notification "exit"\n', CANONICAL, None, None),
    (
        LOOSE + CANONICAL,
        b"1 33\n2 33\n",
        b'1 33 notification "exit"\n2 33 notification "exit"\n',
        CANONICAL + CANONICAL,
        None,
        None,
    ),
    (
        ONE_TOO_FEW,
        b"1 9\n",
        b"",
        ONE_TOO_FEW[:-1],
        b"fault 107 frame 2\nstream ends inside a frame\n",
        b"fault 201 frame 1\ncontent is not JSON\n",
    ),
    (
        CANONICAL + b"Content-Length: 2\r\nContent-Length: 2\r\n\r\n{}",
        b"1 33\n",
        b'1 33 notification "exit"\n',
        CANONICAL,
        b"fault 103 frame 2\nnot exactly one Content-Length\n",
        None,
    ),
    (b"Content-Length: 2\n\n{}", b"", b"", b"", b"fault 107 frame 1\nstream ends inside a frame\n", None),
    (b"Content-Length: 67108865\r\n\r\n", b"", b"", b"", b"fault 105 frame 1\ncontent too long\n", None),
    (
        b"Content-Length: 2\r\nContent-Type: a; charset=utf-16\r\n\r\n{}",
        b"",
        b"",
        b"",
        b"fault 106 frame 1\ncharset is not utf-8\n",
        None,
    ),
]
