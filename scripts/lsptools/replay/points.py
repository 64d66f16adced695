"""The messages after which documents are asked about: the last one, and those in between."""

from concurrent.futures import ThreadPoolExecutor

from lsptools.servers.children import Fault
from lsptools.servers.comparison import CHANGED, differing
from lsptools.servers.questions import NOTHING

# A log with at most this many changes is asked after each of them, if nothing else is said.
FEW_CHANGES = 200
# After how many faults nothing more is asked in between.
MOST_FAULTS = 2


def has_answers(questions):
    """Whether one of these questions counts."""
    return any(it.verdict != NOTHING for it in questions)


class Asked:
    """What a server was asked about the documents of a log."""

    def __init__(self, comparison, every):
        self.comparison, self.recording = comparison, comparison.setting.recording
        changes = sum(it.method == "textDocument/didChange" for it in self.recording.messages)
        self.every = every or (1 if changes <= FEW_CHANGES else None)
        self.last = self.recording.last()
        # For each document, as it was when it was last asked about, the questions; the message
        # after which it last agreed, and the first after which it differed, with the questions.
        self.documents, self.questions, self.agreed, self.differs = {}, {}, {}, {}
        # What takes the whole text of a document in a wrong way; and the messages after which a
        # server failed, each with its fault.
        self.faults, self.unknown = {}, []

    def ask(self):
        """Asks at the end and in between. What is known stands, also if a server fails."""
        self.ask_at_the_end()
        points = self.points()
        with ThreadPoolExecutor(max(1, self.comparison.setting.jobs)) as pool:
            for (number, uri), questions in zip(points, pool.map(self.ask_between, points)):
                self.take(number, uri, questions)

    def ask_at_the_end(self):
        uris = list(self.recording.documents(self.last))
        self.ask_about(uris)
        # A fresh server that fails with all of them may answer about one alone.
        silent = [it for it in uris if not has_answers(self.questions.get(it, ()))]
        for uri in silent if len(uris) > 1 else ():
            self.ask_about([uri])

    def ask_about(self, uris):
        """Asks about documents after the last message, and notes what differs or is at fault."""
        try:
            asked, faults = self.comparison.with_faults(self.last, uris)
        except Fault as why:
            self.unknown.append((self.recording.message(self.last), why))
            return
        self.faults.update(faults)
        for uri in uris:
            mine = [it for it in asked if it.key.uri == uri]
            self.note(self.last, uri, mine)
            if differing(mine):
                self.differs[uri] = self.last, mine

    def note(self, number, uri, questions):
        self.documents[uri] = self.recording.documents(number)[uri]
        self.questions[uri] = questions

    def points(self):
        """The messages after which a document is asked about, before the last one."""
        counts, found = {}, []
        for message in self.recording.messages[: self.last - 1] if self.every else []:
            if not message.is_text_of(message.uri):
                continue
            count = counts[message.uri] = counts.get(message.uri, -1) + 1
            if count % self.every == 0 and message.uri in self.recording.documents(message.number):
                found.append((message.number, message.uri))
        # After the last of a document, the text is that at the end.
        last = {it.uri: it.number for it in self.recording.messages if it.is_text_of(it.uri)}
        asked = self.recording.documents(self.last)
        return [it for it in found if it[1] not in asked or last[it[1]] != it[0]]

    def ask_between(self, point):
        """The questions after a message, or None if they are no longer needed or a server fails."""
        number, uri = point
        earlier = self.differs.get(uri)
        is_found = earlier is not None and earlier[0] < number
        if is_found or len(self.unknown) >= MOST_FAULTS:
            return None
        try:
            asked = self.asked_between(number, uri)
        except Fault as why:
            self.unknown.append((self.recording.message(number), why))
            return None
        if differing(asked) and (uri not in self.differs or number < self.differs[uri][0]):
            self.differs[uri] = number, asked
        return asked

    def asked_between(self, number, uri):
        if self.recording.message(number).method == "textDocument/didOpen":
            # What is at fault may not show later.
            asked, faults = self.comparison.with_faults(number, [uri])
            self.faults = {**faults, **self.faults}
            return asked
        right = self.comparison.seen_right(number, uri)
        return [right] if right else self.comparison.after(number, [uri])

    def take(self, number, uri, questions):
        """Takes what was asked in between, in the order of the log."""
        if questions is None:
            return
        if uri not in self.recording.documents(self.last):
            self.note(number, uri, questions)
        is_before = uri not in self.differs or number < self.differs[uri][0]
        if is_before and has_answers(questions):
            self.agreed[uri] = number

    def faults_of_log(self):
        """What is at fault and was sent in this session."""
        return [it for it in self.faults.values() if it.at_fault != CHANGED]
