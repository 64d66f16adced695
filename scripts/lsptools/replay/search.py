"""Finds the first message after which the answers about a document differ."""

from dataclasses import dataclass, field

from lsptools.base.messages import Message
from lsptools.servers.children import Fault
from lsptools.servers.comparison import differing
from lsptools.servers.drive import at_once
from lsptools.servers.halving import first_of
from lsptools.servers.questions import SAME
from lsptools.servers.small_case import SmallCase

# A log with more messages takes its time to be replayed.
LONG = 200


@dataclass
class Found:
    """What a search found: the message, what differs after it, and whether it is the same after the
    one before. If it differs there, too, the search went too far. Without questions, repeated runs
    disagreed. `count` is how few messages show the difference, if that is known; and `why` says
    what ended a search too early."""

    uri: str
    message: Message
    before: Message = None
    is_same_before: bool = False
    is_too_far: bool = False
    questions: list = field(default_factory=list)
    count: int = None
    why: Fault = None


class Search:
    """The search for the first message after which the answers about a document differ."""

    def __init__(self, comparison, uri):
        self.comparison, self.setting, self.uri = comparison, comparison.setting, uri
        # The last message after which the answers were the same, and the first after which they
        # were not, as far as is known.
        self.agreed, self.differs = 0, None

    def ask(self, number, is_sure):
        return self.comparison.after(number, [self.uri], is_sure)

    def find(self, agreed, differs, questions):
        """The message, if the answers agree after one and differ after another, to these questions.
        What is known stands, also if a server fails meanwhile."""
        self.agreed, self.differs = agreed, differs
        try:
            found = self.found(agreed, differs, questions)
            if found.questions:
                found.count = SmallCase(self.comparison, self.uri, found.message.number).count()
            return found
        except Fault as why:
            message = self.setting.recording.message
            before = message(self.agreed) if self.agreed else None
            known = differing(questions) if self.differs == differs else []
            return Found(self.uri, message(self.differs), before, bool(before), questions=known,
                         why=why)

    def found(self, agreed, differs, questions):
        messages = self.setting.recording.messages[agreed:differs]
        numbers = [it.number for it in messages if it.is_text_of(self.uri)]
        if not numbers:
            return Found(self.uri, self.setting.recording.message(differs))
        if len(numbers) == 1:
            found = self.repeated(numbers[0], differing(questions))
            return self.before(numbers[0]) if found.is_too_far and agreed else found
        found = self.confirm(self.halve(numbers, False))
        if found.questions:
            return found
        # Answers that are late mislead a search that is short. The rest is asked for at length.
        number = found.message.number
        rest = [it for it in numbers if (it < number if found.is_too_far else it > number)]
        self.agreed, self.differs = agreed, differs
        return self.confirm(self.halve(rest, True)) if rest else found

    def before(self, number):
        """What is found before a message before which the answers differ, too. The names, which
        were all that was asked there, do not show it."""
        numbers = [it.number for it in self.setting.recording.messages[: number - 1]
                   if it.is_text_of(self.uri)]
        self.agreed = 0
        return self.found(0, numbers[-1], self.ask(numbers[-1], True))

    def repeated(self, number, questions):
        """The only message that it can be, if it shows the difference once more, and the one before
        does not."""
        found = self.with_before(number)
        if found.is_too_far:
            return found
        # A late server may need the full time.
        is_shown = any(differing(self.ask(number, is_sure)) for is_sure in (False, True))
        found.questions = questions if is_shown else []
        return found

    def with_before(self, number):
        """A message, without questions, and what the answers after the one before it say."""
        found = Found(self.uri, self.setting.recording.message(number))
        if self.uri in self.setting.recording.documents(number - 1):
            found.before = self.setting.recording.message(number - 1)
            asked = self.ask(number - 1, True)
            found.is_too_far = bool(differing(asked))
            found.is_same_before = any(it.verdict == SAME for it in asked)
        return found

    def halve(self, numbers, is_sure):
        """The first message after which the answers differ, if they do after each that follows, as
        they do after the last."""
        # A text that is sent as a whole is right again, whatever it was before.
        last = len(numbers) - 1
        whole = [it for it in range(1, last) if self.sets_whole_text(numbers[it])]
        is_wide = self.setting.jobs > 3 and len(self.setting.recording.messages) > LONG
        is_so = lambda it: self.differs_after(numbers[it], is_sure)
        return numbers[first_of(0, last, is_so, whole[-1] if whole else None, is_wide)]

    def differs_after(self, number, is_sure):
        is_so = bool(differing(self.ask(number, is_sure)))
        if is_so:
            self.differs = min(self.differs, number)
        else:
            self.agreed = max(self.agreed, number)
        return is_so

    def sets_whole_text(self, number):
        """Whether a message gives a document a text of its own, whatever it was before."""
        return self.setting.recording.message(number).has_whole_text

    def confirm(self, number):
        """Asks again after the message, and after the one before."""
        after, found = at_once(lambda: self.ask(number, True), lambda: self.with_before(number))
        found.questions = [] if found.is_too_far else differing(after)
        return found
