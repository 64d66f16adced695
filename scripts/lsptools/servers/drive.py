"""Runs of a server: the messages of the log again, or the texts at one moment in a fresh one."""

import json
import threading
from concurrent.futures import ThreadPoolExecutor
from functools import lru_cache

from lsptools.base import messages
from lsptools.base.messages import Message, key_of, member
from lsptools.servers.children import Fault
from lsptools.servers.recording import AT_THE_END, encoding_of
from lsptools.servers.replies import Replies
from lsptools.servers.server import Server, TimedOut

# The most requests that a server may leave unanswered, although the log has their answers.
MOST_SILENT = 3
# What a fresh server is sent of the log.
GREETING = (
    "initialize",
    "initialized",
    "workspace/didChangeConfiguration",
    "workspace/didChangeWorkspaceFolders",
)
# A method that no server has. Each answers a request of it, if only with an error.
NOTHING = "lspcheck/nothing"
# How many texts are kept of those that lspcheck has given.
KEPT_TEXTS = 64


class Slots:
    """How many servers may run at a time: each waits until another one has ended."""

    def __init__(self, most):
        self.most, self.running, self.condition = most, 0, threading.Condition()

    def take(self):
        with self.condition:
            self.condition.wait_for(lambda: self.running < self.most)
            self.running += 1

    def give(self):
        with self.condition:
            self.running -= 1
            self.condition.notify_all()


class Setting:
    """What all runs have in common."""

    def __init__(self, program, recording, command, wait, folders, jobs):
        self.program, self.recording, self.command = program, recording, command
        self.wait, self.folders, self.slots = wait, folders, Slots(jobs)
        # The requests that a run has waited for in vain, by their numbers.
        self.silent = {}
        self.text = lru_cache(KEPT_TEXTS)(self.text_of)

    @property
    def jobs(self):
        return self.slots.most

    def start(self, tape=None):
        replies = Replies(self.recording.replies, self.recording.configuration)
        return Server(self.command, replies, self.recording.free_id, tape)

    def goodbye(self):
        """The messages of the log that end a session."""
        found = [it for it in self.recording.messages if it.method in AT_THE_END]
        return {it.method: it.sent for it in found}

    def no_answer(self):
        return f"gave no answer in {self.wait:g} seconds (see --wait) to"

    def text_of(self, number, uri):
        """The text that the server should hold after a message, or None if there is none."""
        done = self.program.run(["text", "--quiet", str(number), uri])
        return done.stdout.decode("utf-8", "replace") if done.returncode == 0 else None


def place(message):
    """Where a message is in the log."""
    return f"editor {message.number} event {message.event}"


def named(message):
    """A message, as `lspcheck explain` names it."""
    kind = f"request {message.id}" if message.is_request else "notification"
    if message.is_response:
        kind = f"{'error' if message.is_error else 'result'} {message.id} to"
    return f"{place(message)} {kind} {json.dumps(message.method or message.asked)}"


class Run:
    """A server that is sent the messages of the log. It is used as a context, which ends it."""

    def __init__(self, setting, tape=None):
        self.setting, self.tape = setting, tape
        self.capabilities, self.name = {}, None
        # The place of the next step; the requests that were sent, and how they were answered, by
        # their numbers; the versions of documents that were sent here, and not in the log.
        self.at, self.sent, self.answered, self.versions = 0, {}, {}, {}
        # The last message of the log that was sent, and when that was, in words.
        self.number, self.when = 0, "before it was sent anything"
        self.folder = setting.folders.of_server()
        setting.slots.take()
        try:
            self.server = setting.start(tape)
        except BaseException:
            setting.slots.give()
            raise

    def __enter__(self):
        return self

    def __exit__(self, *_):
        try:
            self.server.end(self.setting.goodbye())
        finally:
            self.setting.slots.give()
            self.folder.remove()

    def check(self):
        self.server.check_running(self.when)

    def begin(self, number, documents, changed=(), idle=0):
        """Greets the server as the log does up to a message, with its settings, and opens documents
        with their texts: in a `didOpen` or, for the URIs `changed`, in a change without a range
        after one that is empty, and `idle` changes. What follows that message can then be sent."""
        for message in self.setting.recording.messages[:number]:
            if message.method in GREETING:
                self.send(message)
                if message.method == "initialize":
                    self.wait_for(message)
        for document, text in documents:
            is_changed = document.uri in changed
            self.open(document, "" if is_changed else text)
            if is_changed:
                self.idle(document.uri, idle)
                self.change(document.uri, [{"text": text}])
        self.at = self.setting.recording.step_after(number)
        self.check()

    def open(self, document, text):
        """Opens a document."""
        uri, version = self.setting.folders.uri_of(document.uri), document.number
        self.server.send(messages.opened(uri, document.language, version, text))
        self.versions[document.uri] = version
        self.when = f"after didOpen of {json.dumps(uri)}"

    def change(self, uri, changes):
        """Changes a document, whose version then is the next one."""
        self.versions[uri] += 1
        named = self.setting.folders.uri_of(uri)
        self.server.send(messages.changed(named, self.versions[uri], changes))
        self.when = f"after didChange of {json.dumps(named)}"

    def idle(self, uri, count):
        """Sends changes that change nothing."""
        place = {"line": 0, "character": 0}
        for _ in range(count):
            self.change(uri, [{"range": {"start": place, "end": place}, "text": ""}])

    def save(self, uri):
        """Says that a document was saved."""
        self.server.send(messages.saved(self.setting.folders.uri_of(uri)))

    def advance(self, number):
        """Sends all messages up to this one, and waits for the answers that the log has to them."""
        self.send_until(number)
        for request in self.sent.values():
            if request.answer or request.method == "initialize":
                self.wait_for(request)
        self.check()
        documents = self.setting.recording.documents(number)
        self.versions = {uri: document.number for uri, document in documents.items()}

    def send_until(self, number):
        steps = self.setting.recording.steps
        while self.at < len(steps) and not is_after(steps[self.at], number):
            self.take(steps[self.at])
            self.at += 1

    def take(self, step):
        """Sends a message, or puts a snapshot into the log that is written."""
        if not isinstance(step, Message):
            if self.tape:
                self.tape.write([self.setting.folders.snapshot_of(step).encoded()])
            return
        for request in step.answered_before:
            self.wait_for(request)
        if not step.is_response and step.method not in AT_THE_END:
            self.send(step)

    def send(self, message):
        """Sends what is sent of a message of the log."""
        if message.sent is None:
            return
        self.number, self.when = message.number, f"after {place(message)}"
        if message.is_request:
            content = self.folder.put_into(message.sent)
            self.server.ask(message.id, content, message.method == "initialize")
            self.sent[message.number] = message
        else:
            self.server.send(message.sent)

    def wait_for(self, request):
        """Waits for the answer to a request of the log, if it was sent in this run."""
        number, silent = request.number, self.setting.silent
        if number not in self.sent or number in self.answered or number in silent:
            return
        answer = self.server.wait(request.id, self.setting.wait)
        if answer is None:
            self.check()
            if request.method == "initialize":
                raise self.timed_out(named(request))
            silent[number] = request
            if len(silent) >= MOST_SILENT:
                raise self.timed_out(named(request))
            return
        self.answered[number] = "error" if answer.get("error") else "result"
        if request.method == "initialize":
            self.greet(request, answer)

    def timed_out(self, what):
        return self.server.failed(TimedOut, self.setting.no_answer(), what)

    def greet(self, request, answer):
        """Notes what the server offers. The columns of the log must mean the same to it."""
        if "error" in answer:
            said = f"{self.server.name} answers {named(request)} with"
            raise Fault(f"{said} {error_of(answer)}")
        self.capabilities = member(answer, "result", "capabilities") or {}
        self.name = member(answer, "result", "serverInfo", "name")
        now, then = encoding_of(answer), self.setting.recording.encoding
        if then not in (now, None):
            said = f"agrees on {now} columns, and not on {then}, as in the log"
            raise Fault(f"{self.server.name} {said}")

    @property
    def has_ranges(self):
        """Whether the server takes changes of a part of a text."""
        sync = self.capabilities.get("textDocumentSync")
        return 2 in (sync, member(sync, "change")) or self.setting.recording.has_ranges

    def hear_all(self):
        """Waits until the server has heard all that it was sent: until it answers a request."""
        uri = next(iter(self.versions), None)
        if uri is None or self.capabilities.get("documentSymbolProvider") in (None, False):
            self.ask(NOTHING, {})
        else:
            document = {"uri": self.setting.folders.uri_of(uri)}
            self.ask("textDocument/documentSymbol", {"textDocument": document})

    def ask(self, method, params):
        """Asks a question. The answer is the response."""
        return self.answer(self.put(method, params), method)

    def put(self, method, params):
        """Sends a question: its id, as JSON text."""
        id = key_of(next(self.server.ids))
        self.server.ask(id, messages.request(int(id), method, params), True)
        return id

    def answer(self, id, method):
        """Waits for the answer to a question, which the server need not keep."""
        answer = self.server.wait(id, self.setting.wait)
        if answer is None:
            self.check()
            raise self.timed_out(f'the question "{method}"')
        self.server.forget(id)
        return answer


def error_of(answer):
    """The error of a response as text."""
    error = answer.get("error")
    code, said = (error.get(it) if isinstance(error, dict) else None for it in ("code", "message"))
    return f"error {json.dumps(code)} {json.dumps(said, ensure_ascii=False)}"


def is_after(step, number):
    """Whether a step is a message after the one of this number."""
    return isinstance(step, Message) and step.number > number


def at_once(*actions):
    """Does several things at the same time: their results, or the first failure."""
    with ThreadPoolExecutor(len(actions)) as pool:
        return [it.result() for it in [pool.submit(action) for action in actions]]
