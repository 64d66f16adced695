"""What one server answers about documents: it is started, told the texts, asked, and ended."""

import time
from dataclasses import dataclass, field

from lsptools.servers import questions
from lsptools.servers.drive import Run
from lsptools.servers.languages import PLAIN
from lsptools.servers.overwriting import overwriting
from lsptools.servers.questions import compared, keys_of, params_of, passes, published_of
from lsptools.servers.server import PUBLISHED, Ended, TimedOut


@dataclass(frozen=True)
class Told:
    """A document that is asked about: the right text, and what overwrites its lines, in one message
    or in many."""

    document: object
    text: str
    overwriting: object
    is_saved: bool = False
    is_one_by_one: bool = False

    @property
    def uri(self):
        return self.document.uri

    @property
    def messages(self):
        """The changes that overwrite the lines, by message."""
        changes = self.overwriting.changes
        return [[it] for it in changes] if self.is_one_by_one else [changes]


def told(setting, number, uri, form=PLAIN, is_one_by_one=False):
    """A document as it should be after a message, or None if it is not open."""
    recording = setting.recording
    document, text = recording.documents(number).get(uri), setting.text(number, uri)
    if document is None or text is None:
        return None
    near, encoding = recording.touched(uri, number), recording.encoding or "utf-16"
    written = overwriting(text, form, encoding, near)
    return Told(document, text, written, recording.is_saved(uri, number), is_one_by_one)


@dataclass(frozen=True)
class Plan:
    """What is asked, and how often: the times in seconds after the first answers; which keys, or
    all; whether diagnostics are, too. If more is sent before, it should change nothing: that a
    document was saved, since some servers answer by the text that was; and as many empty messages
    as overwrite the lines, so that a fault that counts messages meets one of these instead."""

    pauses: tuple = ()
    only: frozenset = None
    has_diagnostics: bool = False
    sends_more: bool = False


def answers_of(setting, feed, documents, plan):
    """The answers of a new server to each question, in the order in which it gave them. If it does
    not answer in time, another one is asked, once."""
    try:
        return Asking(setting, documents, plan).answers(feed)
    except TimedOut:
        return Asking(setting, documents, plan).answers(feed)


@dataclass
class Asking:
    """The questions to one server. What it is told is up to the caller."""

    setting: object
    documents: list
    plan: Plan
    heard: dict = field(default_factory=dict)

    def answers(self, feed):
        with Run(self.setting) as run:
            feed(run)
            asked = self.asked(run)
            try:
                self.save(run)
                self.hear(run, [it for it in asked if not it.is_overwritten])
                later = [it for it in asked if it.is_overwritten]
                if later:
                    self.overwrite(run)
                    self.save(run)
                    self.hear(run, later)
            except Ended:
                # It did not survive a question, or the changes: it answers no more.
                said = {"error": {"code": None, "message": run.server.how_ended()}}
                for key in asked:
                    self.heard.setdefault(key, []).extend([said, said])
        return self.heard

    def asked(self, run):
        """What this server is asked."""
        only = self.plan.only
        keys = (key for it in self.documents
                for key in keys_of(run, it.uri, self.plan.has_diagnostics))
        return [it for it in keys if only is None or it in only]

    def save(self, run):
        for it in self.documents:
            if it.is_saved or self.plan.sends_more:
                run.save(it.uri)

    def overwrite(self, run):
        for it in self.documents:
            run.idle(it.uri, len(it.messages) if self.plan.sends_more else 0)
            run.server.forget_published(run.setting.folders.uri_of(it.uri))
            for changes in it.messages:
                run.change(it.uri, changes)

    def hear(self, run, keys):
        """Asks, and asks again after each pause."""
        last = 0
        for pause in (0, *self.plan.pauses) if keys else ():
            # Counted from the answers, so that a slow server gets the time, too.
            time.sleep(pause - last)
            last = pause
            for key in keys:
                self.heard.setdefault(key, []).append(self.lasting_answer(run, key))

    def lasting_answer(self, run, key):
        """The answer to a question, which is asked again as long as it is an error that passes."""
        answer = self.answer(run, key)
        for pause in questions.PAUSES:
            if not passes(answer):
                break
            time.sleep(pause)
            answer = self.answer(run, key)
        return answer

    def answer(self, run, key):
        """What a server answers to a question now."""
        told = next(it for it in self.documents if it.uri == key.uri)
        if key.method == PUBLISHED:
            return published_of(run, key.uri, run.versions[key.uri])
        text = told.overwriting.text if key.is_overwritten else told.text
        uri, encoding = run.setting.folders.uri_of(key.uri), run.setting.recording.encoding
        return run.ask(key.method, params_of(key.method, uri, text, encoding or "utf-16"))


def last_of(answers):
    """What is compared of the last of some answers."""
    return compared(answers[-1])


def is_settled(answers):
    """Whether the last two answers are the same."""
    return len(answers) > 1 and compared(answers[-2]) == last_of(answers)
