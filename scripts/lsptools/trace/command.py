"""Makes a log for lspcheck of a trace that an editor or a server has written.

usage: from-trace [--format NAME] [--session N] [--server NAME] FILE > LOG

FILE, or standard input with `-`, is one of these. Without --format, the first lines decide:

  trace      the text that VS Code, coc.nvim and lsp-mode write, with all params and results
  gopls      the same from `gopls -rpc.trace`
  inspector  the lines of JSON for the LSP Inspector
  clangd     standard error of `clangd --log=verbose`
  helix      the log of `hx -v`
  zed        the RPC messages of Zed

The log is in format 2. It has no snapshots, and its frames are made from the messages. What
else is lost is said on standard error. If a server was started again, the trace has several
sessions: N counts them from 1. Helix writes the messages of all servers into one file: NAME is one
of them (default: the first).

Lines that are not messages are skipped. At a message that cannot be read, the log ends, and
standard error says in which line of the trace; what precedes it is still written.

Exit status: 0 done, 1 part of the trace was not read or is missing, 2 there is no log, or the
arguments are wrong, 3 the log cannot be written.
"""

import argparse
import collections
import itertools
import json
import re
import sys

from lsptools.base import outputs, session_log

# How many lines may precede the first message.
FIRST = 1000
NO_MESSAGES = f"no message in the first {FIRST} lines: name the format with --format"

BYTE_ORDER_MARK = "\ufeff"

# The code of an error whose code the trace leaves out (UnknownErrorCode in LSP).
UNKNOWN = -32001

EDITOR, SERVER = session_log.EDITOR, session_log.SERVER

# What editors send without params.
WITHOUT_PARAMS = {"shutdown", "exit"}

# A message: the line it begins in, who sent it, its JSON text, its method (none for a response),
# and the server's name, if the trace has names.
Message = collections.namedtuple("Message", "line side content method server", defaults=[None])

# A part of a trace that begins with a line of a known form, and whether it is the last one.
Entry = collections.namedtuple("Entry", "line match text is_last")


SPACE, LINE_END = re.compile(r"\s*"), re.compile(r"[^\S\n]*(\n|\Z)")
NO_MESSAGE = "this is not a message, although its line begins like one"


class Damage(Exception):
    """What is wrong with a trace, and in which line."""

    def __init__(self, line, what):
        super().__init__(what)
        self.line = line


def entries(lines, begins):
    """The parts of a trace that begin with a line of this form, each up to the next one."""
    held = None
    for number, line in enumerate(lines, 1):
        match = begins.match(line)
        if match and held:
            yield Entry(*held[:2], "".join(held[2]), False)
        if match:
            held = number, match, [line]
        elif held:
            held[2].append(line)
    if held:
        yield Entry(*held[:2], "".join(held[2]), True)


def line_of(entry, at):
    """The number of the line that a place of an entry is in, or of the last one before the end."""
    if SPACE.match(entry.text, at).end() == len(entry.text):
        at = len(entry.text.rstrip())
    return entry.line + entry.text.count("\n", 0, at)


def json_at(entry, at):
    """The JSON text at a place of an entry: its bounds and its value."""
    at = SPACE.match(entry.text, at).end()
    try:
        value, end = json.JSONDecoder().raw_decode(entry.text, at)
    except (ValueError, RecursionError) as error:
        line = line_of(entry, getattr(error, "pos", at))
        raise Damage(line, "the JSON of a message ends too early or is damaged") from error
    if not LINE_END.match(entry.text, end):
        raise Damage(line_of(entry, end), "the JSON of a message has more after its end")
    return at, end, value


def refuse_rest(entry, at):
    """Refuses what follows a message or another line in an entry, if it looks like a message: then
    the line that it began with is damaged."""
    found = re.compile(r'^(Params|Result|Error data): |"jsonrpc"', re.M).search(entry.text, at)
    if found:
        line = line_of(entry, found.end())
        raise Damage(line, "this belongs to a message whose first line is missing or damaged")


def raw_message(entry, side, at, server=None):
    """The message whose whole JSON is at a place of an entry, and where it ends."""
    start, end, value = json_at(entry, at)
    line = line_of(entry, start)
    if not isinstance(value, dict) or "jsonrpc" not in value:
        raise Damage(line, NO_MESSAGE)
    return Message(line, side, entry.text[start:end], value.get("method"), server), end


def of_server(entry):
    """The message of an entry of clangd or Helix."""
    side = EDITOR if entry.match["way"] in ("<<<", "->") else SERVER
    server = entry.match.groupdict().get("server")
    message, end = raw_message(entry, side, entry.match.end(), server)
    yield message
    refuse_rest(entry, end)


def of_zed(entry):
    side = EDITOR if entry.match["way"] == "Send" else SERVER
    at = SPACE.match(entry.text, entry.match.end()).end()
    while at < len(entry.text):
        message, end = raw_message(entry, side, at)
        yield message
        at = SPACE.match(entry.text, end).end()


def of_inspector(entry):
    _, end, value = json_at(entry, entry.match.end())
    way, message = str(value.get("type")), value.get("message")
    if not isinstance(message, dict) or not way.startswith(("send-", "receive-")):
        raise Damage(entry.line, NO_MESSAGE)
    side = EDITOR if way.startswith("send-") else SERVER
    yield Message(entry.line, side, json.dumps(message), message.get("method"))
    refuse_rest(entry, end)


REQUEST = re.compile(r"request '(?P<method>.*?) - \((?P<id>.*?)\)'?\.")
NOTIFICATION = re.compile(r"notification '(?P<method>.*?)'\.")
RESPONSE = re.compile(r"response (?:'.*? - \((?P<id>.*?)\)'|(?P<unasked>\S+) without )")
FAILED = re.compile(r".*? Request failed: (?P<message>.*?) \((?P<code>-?\d+)\)\.\n", re.S)
GOPLS_ERROR = re.compile(r"#(?P<id>\S+) (?P<message>.*)", re.S)
LABEL = re.compile(r"^(Params|Result|Error data):[ \t]*", re.M)
SAYS_NONE = re.compile(r"^No (parameters provided|result returned)\.$", re.M)

# What a message of `trace` and `gopls` says: the lines that name it, the label of its params or its
# result if there is one, their JSON, and its value; and where it ends.
Spoken = collections.namedtuple("Spoken", "head label body value end")


def spoken(entry):
    """What an entry says. The label is in the lines before the first empty one."""
    start = entry.match.end()
    end = re.compile(r"\n(?=\n)|\Z").search(entry.text, start).end()
    label = LABEL.search(entry.text, start, end)
    if label is None:
        return Spoken(entry.text[start:end], None, None, None, end)
    head = entry.text[start : label.start()]
    if entry.text[label.end() :].startswith("\n"):
        return Spoken(head, label[1], None, None, label.end())
    at, end, value = json_at(entry, label.end())
    return Spoken(head, label[1], entry.text[at:end], value, end)


def id_of(text):
    """An id as JSON. The trace does not show whether `7` was a number or a string."""
    return text if re.fullmatch(r"-?(0|[1-9]\d*)", text) else json.dumps(text)


def is_error(value):
    """Whether what lsp-mode calls a result is an error."""
    members = set(value) if isinstance(value, dict) else set()
    return {"code", "message"} <= members <= {"code", "message", "data"}


def error_of(message, code=UNKNOWN, data=None):
    shown = f'{{"code":{code},"message":{json.dumps(message)}'
    return shown + (f',"data":{data}}}' if data else "}")


def outcome(said):
    """The member of a response that says how it ended. VS Code writes nothing below its own error
    response, unless the error has data."""
    if failed := FAILED.match(said.head):
        return '"error":' + error_of(failed["message"], failed["code"], said.body)
    if said.label == "Error data" or said.label is None and not SAYS_NONE.search(said.head):
        return '"error":' + error_of("", data=said.body)
    if is_error(said.value):
        return f'"error":{said.body}'
    return f'"result":{said.body or "null"}'


def members_of(entry, said):
    """The members of a message, and its method."""
    if match := REQUEST.match(said.head) or NOTIFICATION.match(said.head):
        method = match["method"]
        if method == "initialize" and said.value is None:
            raise Damage(entry.line, "there are no params: the trace must be verbose")
        members = [f'"id":{id_of(match["id"])}'] if match.re is REQUEST else []
        members.append(f'"method":{json.dumps(method)}')
        members += [] if said.value is None else [f'"params":{said.body}']
        labels = (None, "Params")
    elif match := RESPONSE.match(said.head):
        method, labels = None, (None, "Result", "Error data")
        members = [f'"id":{id_of(match["id"] or match["unasked"])}', outcome(said)]
    elif match := GOPLS_ERROR.match(said.head):
        method, labels = None, (None,)
        members = [f'"id":{id_of(match["id"])}', f'"error":{error_of(match["message"].strip())}']
    else:
        raise Damage(entry.line, NO_MESSAGE)
    if said.label not in labels:
        raise Damage(entry.line, "another message's params or result follow")
    return members, method


def may_be_cut(entry, said, method):
    """Whether an entry without params or a result may be only the beginning of a message."""
    if not entry.is_last or said.body is not None:
        return False
    is_all = SAYS_NONE.search(said.head) or FAILED.match(said.head)
    needs_none = method in WITHOUT_PARAMS and "\n" not in said.head.strip()
    is_empty = said.label is not None and entry.text.endswith("\n\n")
    return not (is_all or needs_none or is_empty)


def of_trace(entry):
    """The message of an entry: a line that says what it is, and then its params or its result."""
    side = SERVER if entry.match["way"] == "Received" else EDITOR
    said = spoken(entry)
    # lsp-mode writes the editor's responses whole.
    content, method = said.body, None
    if not (isinstance(said.value, dict) and "jsonrpc" in said.value):
        members, method = members_of(entry, said)
        content = f'{{"jsonrpc":"2.0",{",".join(members)}}}'
    if may_be_cut(entry, said, method):
        raise Damage(entry.line, "the trace ends inside a message")
    yield Message(entry.line, side, content, method)
    refuse_rest(entry, said.end)


# How a line of each format begins: `way` is there only if it begins a message.
TIME = r"\d\d:\d\d:\d\d\.\d+"
FORMATS = {
    # An error is `[Error - Received] TIME #ID MESSAGE`.
    "gopls": (
        of_trace,
        rf"\[(?:\w+ - {TIME} [AP]M\] |Error - )"
        rf"(?P<way>Sending|Sent|Received)?(?:\] {TIME} [AP]M)?\s",
    ),
    "trace": (
        of_trace,
        rf"(?:\[\w+\s*-\s[^\]]*\]|\d{{4}}-\d\d-\d\d {TIME} \[\w+\]) "
        r"(?:(?P<way>Sending|Received) )?",
    ),
    "inspector": (
        of_inspector,
        r'(?:\[LSP\s*-\s[^\]]*\] ?)?(?=(?P<way>\{"(?:isLSPMessage|type)"))',
    ),
    "clangd": (of_server, rf"[A-Z]\[{TIME}\] (?:(?P<way><<<|>>>) )?"),
    "helix": (
        of_server,
        r"\d{4}-\d\d-\d\dT\S+ (?:helix_lsp::transport \[\w+\] (?:(?P<server>\S+) )?"
        r'(?P<way>->|<-) (?=\{.*"jsonrpc"))?',
    ),
    "zed": (of_zed, r"// (?P<way>Send|Receive):\s*$"),
}
FORMATS = {name: (read, re.compile(begins)) for name, (read, begins) in FORMATS.items()}
OF_SERVERS = {"gopls", "clangd"}


def guess(lines):
    """The format of which a line first begins a message."""
    for line in lines:
        for name, (_, begins) in FORMATS.items():
            if (match := begins.match(line)) and match["way"]:
                return name
    return None


# What cannot be read, by how its first line or any other begins, and what to do.
NOT_TEXT = {
    "\x1f\udc8b": "this is compressed by gzip: unpack it with gunzip",
    "\udcff\udcfe|\udcfe\udcff|.?\0": "this is UTF-16: convert it with iconv -f UTF-16 -t UTF-8",
}
NO_TRACE = {
    r"\[(START|TRACE|DEBUG|INFO|WARN|ERROR)\]\[\d{4}-\d\d-\d\d ": "this is Neovim's lsp.log, whose "
    "messages are Lua and not JSON: record the session with recorders/neovim.lua",
}


def why_unreadable(lines, kinds):
    """What these lines are, if they are of one of these kinds."""
    for begins, what in kinds.items():
        if any(re.match(begins, line, re.S) for line in lines):
            return what
    return None


def messages_of(lines, name):
    read, begins = FORMATS[name]
    for entry in entries(lines, begins):
        if entry.match["way"]:
            yield from read(entry)
        else:
            refuse_rest(entry, (entry.text + "\n").index("\n"))


def chosen(messages, session, server, say):
    """The messages of one session with one server."""
    count, others, has_begun = 1, set(), False
    for message in messages:
        server = server or message.server
        if message.server != server:
            if message.server not in others:
                others.add(message.server)
                say(message.line, f"messages of {message.server} are left out: --server chooses")
            continue
        if has_begun and message.side == EDITOR and message.method == "initialize":
            count += 1
            if count == 2:
                say(message.line, "session 2 begins here: --session chooses one")
        has_begun = True
        if count == session:
            yield message
    if count > 2:
        say(None, f"there are {count} sessions")


def convert(lines, name, words, out, say):
    """Writes the log, and returns how many messages it has, and whether the trace was whole."""
    count, is_whole = 0, True
    messages = chosen(messages_of(lines, name), words.session, words.server, say)
    try:
        for message in messages:
            if count == 0:
                out.write(session_log.FIRST_LINE)
            if count == 0 and (message.side, message.method) != (EDITOR, "initialize"):
                is_whole = False
                say(message.line, "the trace begins late: a no will be about that")
            count += 1
            frame = session_log.framed(message.content.encode("utf-8", "surrogateescape"))
            out.writelines(session_log.as_records(message.side, frame))
    except Damage as damage:
        is_whole = False
        say(damage.line, f"{damage}; the rest is not read")
    out.flush()
    return count, is_whole


def losses(name, count):
    yield f"{count} messages of a trace of the format {name}"
    yield "lost: the bytes of the frames, so rules 101 to 107 say nothing"
    if name in OF_SERVERS:
        yield "lost: the editor's own order, since the server wrote the trace"


def read_words():
    parser = argparse.ArgumentParser(
        prog=outputs.called("from-trace"),
        description=__doc__.replace("usage: from-trace", f"usage: {outputs.called('from-trace')}"),
        usage=argparse.SUPPRESS,
        formatter_class=argparse.RawDescriptionHelpFormatter,
    )
    parser.add_argument("--format", choices=FORMATS, help=argparse.SUPPRESS)
    parser.add_argument("--session", type=int, default=1, help=argparse.SUPPRESS)
    parser.add_argument("--server", help=argparse.SUPPRESS)
    parser.add_argument("file", help=argparse.SUPPRESS)
    return parser.parse_args()


def main():
    words = read_words()
    file = 0 if words.file == "-" else words.file
    shown = "standard input" if words.file == "-" else words.file

    def say(line, what):
        place = f"{shown}:{line}" if line else shown
        outputs.say(f"from-trace: {place}: {what}")

    try:
        with open(file, encoding="utf-8", errors="surrogateescape") as trace:
            lines = (line.removeprefix(BYTE_ORDER_MARK) for line in trace)
            first = list(itertools.islice(lines, FIRST))
            name = words.format or guess(first)
            reason = why_unreadable(first[:1], NOT_TEXT)
            if name is None and reason is None:
                reason = why_unreadable(first, NO_TRACE) or NO_MESSAGES
            if reason:
                say(None, reason)
                return 2
            rest = itertools.chain(first, lines)
            count, is_whole = convert(rest, name, words, sys.stdout.buffer, say)
    except OSError as error:
        say(None, error.strerror)
        return 2
    if count == 0:
        say(None, f"no message of the format {name}")
        return 2
    for line in losses(name, count):
        say(None, line)
    return 0 if is_whole else 1

