"""Shows a case again to fresh servers, as lspcheck-replay does: only what they show counts."""

from contextlib import suppress
from dataclasses import dataclass, replace

from lsptools.fuzz.cases import Case, Editor
from lsptools.servers.comparison import CHANGED, Comparison, differing
from lsptools.servers.crashes import CrashSearch
from lsptools.servers.drive import Run
from lsptools.servers.server import Ended
from lsptools.servers.small_case import Transcript, verdict_of

# When fresh servers are asked again, in seconds after their first answers.
PAUSES = (0.5, 1, 2)


@dataclass(frozen=True)
class Shown:
    """A case that fresh servers have shown: its messages, the log of a session with it, and how
    many messages the editor sends there."""

    case: Case
    sent: list
    log: bytes
    messages: int


class Confirming:
    """Fresh servers that are shown cases."""

    def __init__(self, greeting, language):
        self.greeting, self.language = greeting, language

    def session(self, case):
        """The messages of a case in documents of their own, and what replays them."""
        uris, sent = self.messages(case)
        return uris[0], sent, self.greeting.setting_of(sent)

    def messages(self, case):
        editor = Editor(self.language.name, self.greeting.encoding)
        uris = [self.language.uri(it + 1) for it in range(len(case.texts))]
        return uris, list(editor.messages(case, uris))

    def shown(self, case):
        """The case as fresh servers show it, or None if they don't."""
        uri, sent, setting = self.session(case)
        comparison, last = Comparison(setting, PAUSES, False), len(setting.recording.messages)
        questions, faults = comparison.with_faults(last, [uri])
        fault = faults.get(uri)
        if fault and fault.at_fault == CHANGED and not differing(questions) and not case.by_change:
            # What is at fault is the change that the other fresh server got.
            return self.shown(replace(case, by_change=True))
        return self.made(case, sent, setting) if fault or differing(questions) else None

    def ends(self, case):
        """Whether a fresh server ends at a case."""
        _, _, setting = self.session(case)
        return CrashSearch(setting).how(len(setting.recording.messages)) is not None

    def made(self, case, sent, setting, ends=False):
        """The log of a session with a case, at which the server may end."""
        transcript = Transcript()
        with Run(setting, transcript) as run, suppress(Ended):
            run.advance(len(setting.recording.messages))
            if ends:
                run.server.has_ended(setting.wait)
        log, messages = transcript.log()
        if verdict_of(setting, log) != "yes":
            # The server breaks a rule itself: its answers are left out.
            log, messages = self.greeting.log(sent), len(sent) + 2
        return Shown(case, sent, log, messages)

    def unfinished(self, case):
        """The log of a case that no fresh server has shown yet."""
        _, sent = self.messages(case)
        return self.greeting.log(sent)
