"""The lines that lspcheck-replay writes, each as text or as a JSON object."""

import json
import re
import threading

from lsptools.base.script import put, quoted
from lsptools.servers.children import PROCESSES, Fault
from lsptools.servers.comparison import differing
from lsptools.servers.drive import error_of, named, place
from lsptools.servers.questions import DIFFERS, NOTHING, VIEW, bare

# The most characters of an answer in a line, and how many of them precede what is different.
MOST_SHOWN, BEFORE = 200, 40
CUT = ".."
# The most characters of what is left out of a message in a line, and of each part of it. Those that
# may name a program, or what it is given, come first.
MOST_LEFT_OUT, MOST_OF_PART = 400, 100
OF_PROGRAMS = re.compile(
    "command|cmd|exec|program|script|shell|binary|tool|interpreter|arg|run", re.IGNORECASE
)
OF_PATHS = re.compile("[/;|&$`]")
# Who has it knows that no line is half-written. None begins once the servers were killed: it could
# say what is wrong of them.
WRITING = threading.Lock()
# Of several logs, each is one line: the first that is one of these, in this order.
DECIDES = ("ends after", "text differs after", "answers differ after", "at-fault",
           "repeated runs disagree after", "no difference in")


def shown(answer):
    """An answer as text: what is compared of its result, or its error."""
    if "result" in answer and "error" not in answer:
        return json.dumps(bare(answer["result"]), ensure_ascii=False, separators=(",", ":"))
    return error_of(answer)


def cut(text, start, most=MOST_SHOWN):
    """A text from this character on, as much of it as a line holds."""
    before = CUT if start else ""
    after = CUT if len(text) > start + most else ""
    return before + text[start : start + most] + after


def both(one, other):
    """Two answers as text, cut so that what is different can be seen."""
    one, other = shown(one), shown(other)
    pairs = enumerate(zip(one, other))
    end = min(len(one), len(other))
    first = next((it for it, (mine, its) in pairs if mine != its), end)
    start = max(first - BEFORE, 0) if first >= MOST_SHOWN - BEFORE else 0
    return cut(one, start), cut(other, start)


def is_of_program(path, value):
    """0 for a member whose name says so, 1 for one whose value looks like it, and 2 for others."""
    names = [it for it in path if isinstance(it, str)]
    if any(map(OF_PROGRAMS.search, names)):
        return 0
    return 1 if any(map(OF_PATHS.search, (value, *names))) else 2


def members_of(message):
    """A message in a JSON object."""
    found = {"event": message.event, "side": "editor", "number": message.number}
    kind = "request" if message.is_request else "notification"
    if message.is_response:
        kind = "error" if message.is_error else "result"
    found["kind"] = kind
    if message.id is not None:
        found["id"] = json.loads(message.id)
    return {**found, "method": message.method or message.asked}


class Report:
    """What is written about one log: lines, objects or, of several logs, one line for each."""

    def __init__(self, is_json=False, name=None):
        self.is_json, self.name, self.lines = is_json, name, []

    def line(self, head, /, *words, **members):
        """Writes a line that begins with these words, and is an object with these members."""
        text = " ".join(map(str, (head, *words)))
        if self.is_json:
            self.put_object({"is": head, **members})
        elif self.name is None:
            self.put(text)
        else:
            self.lines.append(text)

    def put_object(self, members):
        head = {} if self.name is None else {"file": self.name}
        self.put(json.dumps({**head, **members}, ensure_ascii=False, separators=(",", ":")))

    def put(self, text):
        with WRITING:
            if PROCESSES.is_over:
                raise Fault("stopped")
            put(text.encode("utf-8", "replace") + b"\n")

    def end(self, status, why=None):
        """Writes what is left to be said: with the status if there are several logs."""
        if self.is_json:
            self.put_object({"is": "status", "status": status, "why": why})
        elif self.name is not None:
            lines = (it for head in DECIDES for it in self.lines if it.startswith(head))
            said = next(lines, why or "") if status < 2 else f"nothing can be said: {why}"
            self.put(f"{quoted(self.name)}: {said.partition(chr(10))[0]}")

    def say_judged(self, program):
        """Writes what lspcheck says about the log."""
        words = ["check", "--json"] if self.is_json else ["check"]
        for line in program.output(*words).decode("utf-8", "replace").splitlines():
            if self.is_json:
                self.put_object(json.loads(line))
            else:
                self.line(line)

    def say_left_out(self, message, members):
        """What a server is not sent of a message. It is a stranger's: no terminal obeys it."""
        members = sorted(members, key=lambda it: is_of_program(*it))
        members = [(".".join(map(str, path)), value) for path, value in members]
        parts = (cut(f"{json.dumps(path)[1:-1]}={value}", 0, MOST_OF_PART)
                 for path, value in members)
        words = (cut(named(message), 0), cut(" ".join(parts), 0, MOST_LEFT_OUT))
        values = {path: json.loads(value) for path, value in members}
        self.line("left-out", *(it.replace("\x7f", "\\u007f") for it in words if it),
                  **members_of(message), members=values)

    def say_without(self, count):
        self.line("without", count, "parts of the log, which may change the result: see "
                  "--with-settings", count=count)

    def say_replayed(self, recording, received, last=None):
        """How much was sent: all that can be replayed, or the messages up to one."""
        bound = [f"before {recording.bound}"] if recording.bound and last is None else []
        sent = sum(it.sent is not None for it in recording.messages[:last])
        self.line("replayed", sent, "editor", received, "server", *bound,
                  editor=sent, server=received, before=recording.bound if bound else None)

    def say_answers(self, recording, answered, silent):
        """Compares how requests were answered with the log."""
        both_times = [it for it in recording.messages if it.answer and it.number in answered]
        changed = {
            f"became-{kind}": [
                it for it in both_times if it.answer != kind and answered[it.number] == kind
            ]
            for kind in ("error", "result")
        }
        counts = {kind: len(requests) for kind, requests in changed.items()}
        same = len(both_times) - sum(counts.values())
        words = [word for count in counts.items() for word in count]
        self.line("answers", len(both_times), "same", same, *words,
                  count=len(both_times), same=same, **counts)
        for kind, requests in {**changed, "unanswered": list(silent.values())}.items():
            for request in requests:
                self.line(kind, named(request), **members_of(request))

    def say_document(self, document, questions):
        counted = [it for it in questions if it.verdict != NOTHING]
        differ = sum(it.verdict == DIFFERS for it in counted)
        uri = json.dumps(document.uri, ensure_ascii=False)
        counts = {"questions": len(counted), "differ": differ}
        words = [word for count in counts.items() for word in count]
        self.line("document", uri, "version", document.version, *words,
                  uri=document.uri, version=document.version, **counts)

    def say_fault(self, fault):
        """What takes whole texts in a wrong way, as fresh servers show."""
        self.line("at-fault", fault.at_fault, who=fault.at_fault)
        self.say_question(fault.key, opened=fault.opened, changed=fault.changed)

    def say_question(self, key, **answers):
        """A question, and two answers to it."""
        overwritten = ["overwritten"] if key.is_overwritten else []
        self.line("question", json.dumps(key.method), *overwritten,
                  method=key.method, overwritten=key.is_overwritten)
        for (who, answer), text in zip(answers.items(), both(*answers.values())):
            self.line(who, text, answer=answer)

    def say_found(self, found):
        """What a search found."""
        message, before = found.message, found.before
        if not found.questions and not found.why:
            self.line("repeated runs disagree after", named(message), **members_of(message))
            return
        what = "text" if any(it.key.method == VIEW for it in found.questions) else "answers"
        verb = "differs" if what == "text" else "differ"
        self.line(f"{what} {verb} after", named(message), **members_of(message))
        if before:
            head = f"{what} same after" if found.is_same_before else "unknown after"
            self.line(head, place(before), **members_of(before))
        if found.why:
            self.line("search ended:", json.dumps(str(found.why)), why=str(found.why))

    def say_needed(self, first, last):
        """The messages that show what was found, after the right texts before them."""
        words = [place(first)] if first == last else [place(first), "to", place(last)]
        self.line("needs", *words, first=members_of(first), last=members_of(last))

    def say_missing(self, number, line):
        """The first line of the right text whose letters the server does not show."""
        self.line("missing line", number, cut(json.dumps(line, ensure_ascii=False), 0),
                  line=number, text=line)

    def say_witness(self, notes, sentences, lines):
        """What lspcheck notes on the message, and what the server wrote since."""
        for it in notes:
            self.line("note", *it.split()[1:], text=it)
        for it in sentences:
            self.line("so", json.dumps(it), sentence=it)
        for it in lines:
            self.line("stderr", cut(json.dumps(it, ensure_ascii=True), 0), text=it)

    def say_questions(self, questions):
        """What differs: where the lines are not overwritten, if it shows there."""
        found = differing(questions)
        plain = [it for it in found if not it.key.is_overwritten]
        for it in plain or found:
            self.say_question(it.key, replayed=it.replayed, fresh=it.fresh)

    def say_crash(self, crash):
        self.line("ends after", named(crash.message), **members_of(crash.message))
        self.line("runs after", place(crash.before), **members_of(crash.before))
        self.line("ended", json.dumps(crash.how), how=crash.how)

    def say_unknown(self, message, why):
        self.line("unknown after", place(message), json.dumps(str(why)),
                  **members_of(message), why=str(why))

    def say_agreed(self, answers, documents):
        self.line("no difference in", answers, "answers about", documents, "documents",
                  answers=answers, documents=documents)

    def say_small(self, path, messages):
        self.line("small", quoted(path), messages, "messages", file=path, messages=messages)

    def say_no_small(self, why):
        self.line("small none:", why, why=why)
