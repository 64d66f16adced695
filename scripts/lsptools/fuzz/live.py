"""A server in which many cases are played, each in documents of its own, and compared with
documents that are given the right text."""

import json
import time
from dataclasses import dataclass

from lsptools.base.messages import member, notification
from lsptools.fuzz.cases import Case, Editor, Sent
from lsptools.fuzz.greeting import Journal
from lsptools.servers.asking import Asking, Plan, Told
from lsptools.servers.comparison import CHANGED, OPENED, at_fault
from lsptools.servers.drive import Run, error_of
from lsptools.servers.overwriting import overwriting
from lsptools.servers.questions import SYMBOLS, Key, compared, names_of, params_of, passes

# How many cases are played in one server, and how many bytes the log of that has, roughly.
MOST_PLAYS, MOST_LOG = 600, 1 << 28
# After how many seconds a question is asked again that was answered with an error that passes.
PASSING = (0.05, 0.2, 1)
# Why a server shows nothing.
UNSTEADY = "the server answers otherwise each time"
ERRORS = "the server answers each question with an error"
NO_QUESTIONS = "the server offers none of the questions that the text alone answers"
# The same answers, whichever document they are about.
ANY = "file:///document"


@dataclass(frozen=True)
class Opened:
    """A document, by its name alone."""

    uri: str


def without_uri(answer, uri):
    """An answer that names no document."""
    text = json.dumps({name: answer[name] for name in ("result", "error") if name in answer})
    return json.loads(text.replace(json.dumps(uri)[1:-1], ANY))


def alike(one, other):
    """Whether two answers are the same, or errors of one code."""
    first, second = compared(one), compared(other)
    if first is None and second is None:
        return member(one, "error", "code") == member(other, "error", "code")
    return first == second


def unlike(answers, others):
    """The questions that both answer, but otherwise."""
    return [key for key in answers if key in others and not alike(answers[key], others[key])]


class Live:
    """A server that runs. It is used as a context, which ends it, and checks the log of all that it
    was sent."""

    def __init__(self, greeting, language, form, is_one_by_one=False, is_careful=False):
        self.greeting, self.language, self.form = greeting, language, form
        # Whether a document that is opened is asked about before it is changed.
        self.is_one_by_one, self.is_careful = is_one_by_one, is_careful
        self.editor = Editor(language.name, greeting.encoding)
        self.journal, self.run = Journal(greeting.target), None
        self.opened = self.plays = self.asked = 0
        # The questions whose answers say nothing, since they differ where the texts are the same.
        self.unsteady = set()
        self.verdict = None

    def __enter__(self):
        try:
            self.run = Run(self.greeting.setting, self.journal.tape)
            self.run.begin(len(self.greeting.setting.recording.messages), [])
        except BaseException as why:
            self.__exit__(type(why))
            raise
        return self

    def __exit__(self, kind, *_):
        with self.journal:
            if self.run:
                self.run.__exit__()
            if kind is None:
                self.verdict = self.journal.verdict()

    def is_old(self):
        """Whether a new server should be started instead."""
        return self.plays > MOST_PLAYS or self.journal.size() > MOST_LOG

    def uri(self):
        """The name of a new document."""
        self.opened += 1
        return self.language.uri(self.opened)

    def send(self, sent):
        """Sends a message, and notes the text that it sets."""
        server, value = self.run.server, json.loads(sent.content)
        if "id" in value:
            server.ask(json.dumps(value["id"]), sent.content, False)
        else:
            server.send(sent.content)
        self.run.when = f"after {value['method']}"
        if sent.text is not None:
            self.run.versions[sent.uri] = sent.version
            self.journal.note(sent.uri, sent.version, sent.text)

    def play(self, case, is_slow=False):
        """Plays a case: its first document. A slow one waits after each message for an answer."""
        self.plays += 1
        uris = [self.uri() for _ in case.texts]
        for sent in self.editor.messages(case, uris):
            self.send(sent)
            is_opened = sent.step is None and sent.text is not None
            if self.is_careful if is_opened else is_slow:
                self.run.ask(SYMBOLS, {"textDocument": {"uri": sent.uri}})
        return self.told(uris[0], self.editor.texts[uris[0]])

    def told(self, uri, text):
        """A document with this text, as what asks takes it."""
        written = overwriting(text, self.form, self.greeting.encoding)
        return Told(Opened(uri), text, written, False, self.is_one_by_one)

    def answers(self, documents, pauses=(), overwrites=True, only=None):
        """For each document, the last answer to each question, or to some alone. Then all are
        closed."""
        asking = Asking(self.greeting.setting, documents, Plan())
        found = {it.uri: {} for it in documents}
        keys = [it for it in asking.asked(self.run) if self.is_asked(it, only)]
        self.hear(found, documents, [it for it in keys if not it.is_overwritten], pauses)
        later = [it for it in keys if it.is_overwritten and overwrites]
        if later:
            asking.overwrite(self.run)
            for it in documents:
                self.journal.note(it.uri, self.run.versions[it.uri], it.overwriting.text)
            self.hear(found, documents, later, pauses)
        for it in list(self.editor.texts):
            self.close(it)
        return [found[it.uri] for it in documents]

    def hear(self, found, documents, keys, pauses=()):
        """Asks all questions at once, and once more after each pause."""
        told = {it.uri: it for it in documents}
        for pause in (0, *pauses) if keys else ():
            time.sleep(pause)
            ids = [self.put(key, told[key.uri]) for key in keys]
            for id, key in zip(ids, keys):
                answer = self.lasting_answer(id, key, told[key.uri])
                found[key.uri][key.method, key.is_overwritten] = without_uri(answer, key.uri)
        self.asked += len(keys)

    def lasting_answer(self, id, key, document):
        """The answer to a question, which is asked again as long as it is an error that passes."""
        answer = self.run.answer(id, key.method)
        for pause in PASSING:
            if not passes(answer):
                break
            time.sleep(pause)
            answer = self.run.answer(self.put(key, document), key.method)
        return answer

    def put(self, key, document):
        """Sends a question: its id, as JSON text."""
        text = document.overwriting.text if key.is_overwritten else document.text
        params = params_of(key.method, key.uri, text, self.greeting.encoding)
        return self.run.put(key.method, params)

    def is_asked(self, key, only):
        question = key.method, key.is_overwritten
        return question not in self.unsteady and (only is None or question in only)

    def close(self, uri):
        del self.editor.texts[uri], self.editor.versions[uri], self.run.versions[uri]
        document = {"textDocument": {"uri": uri}}
        self.send(Sent(notification("textDocument/didClose", document), uri))

    def differing(self, case, by_change=False, pauses=(), is_slow=False, only=None):
        """The questions, perhaps of some alone, that a document is answered otherwise, once a case
        was played, than one that is given the right text at once: by a didOpen or by a change."""
        document = self.play(case, is_slow)
        control = self.play(Case((document.text,), (), by_change))
        one, other = self.answers([document, control], pauses, only=only)
        return unlike(one, other)

    def case_at_fault(self, text):
        """The case of a didOpen of this text, or of a change to it without a range, if one of them
        is at fault: documents that got the text in these two ways then answer otherwise."""
        told, other = (self.play(Case((text,), (), it)) for it in (False, True))
        opened, changed = self.answers([told, other])
        differing = unlike(opened, changed)
        if not differing:
            return None
        kinds = {at_fault(Key(told.uri, *it), told, opened[it], changed[it]) for it in differing}
        return Case((text,), (), CHANGED in kinds and OPENED not in kinds)

    def calibrate(self, text):
        """Finds the questions that say nothing, and whether each change that overwrites must be a
        message for the names to show. Why no question is left, or None."""
        documents = [self.play(Case((text,))) for _ in range(2)]
        one, other = self.answers(documents, (0.05, 0.2))
        self.unsteady |= set(unlike(one, other))
        if not self.is_one_by_one and not self.shows_names(documents[0], one):
            self.is_one_by_one = True
            again = self.play(Case((text,)))
            self.is_one_by_one = self.shows_names(again, self.answers([again])[0])
        if any(key not in self.unsteady and compared(one[key]) is not None for key in one):
            return None
        errors = [error_of(answer) for answer in one.values() if "error" in answer]
        if errors and not self.unsteady:
            return f"{ERRORS}, such as {errors[0]}"
        return UNSTEADY if self.unsteady else NO_QUESTIONS

    def shows_names(self, document, answers):
        answer = answers.get((SYMBOLS, True))
        return answer is None or document.overwriting.is_shown(names_of(answer.get("result")))

    def answers_without_text(self, only):
        """What is answered about a document that is not open."""
        uri, found = self.uri(), {}
        document = self.told(uri, "")
        keys = [it for it in Asking(self.greeting.setting, [document], Plan()).asked(self.run)
                if not it.is_overwritten and self.is_asked(it, only)]
        self.hear({uri: found}, [document], keys)
        return found

    def answers_about(self, case, only=None):
        """What is answered about the document of a case, or if there is none about one that is not
        open; without overwriting its lines."""
        if case is None:
            return self.answers_without_text(only)
        answers, = self.answers([self.play(case)], (), False, only)
        return answers
