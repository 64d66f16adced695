"""The hunt: session after session, until the time is over."""

import time
from collections import Counter
from dataclasses import dataclass

from lsptools.base.program import Failed
from lsptools.fuzz.cases import edits_of, text_before
from lsptools.fuzz.causes import CRASH, Cause, Explaining
from lsptools.fuzz.confirming import Confirming, Shown
from lsptools.fuzz.editing import CaseGenerator
from lsptools.fuzz.features import OPENING, PLAIN, features_of
from lsptools.fuzz.greeting import Greeting
from lsptools.fuzz.live import Live
from lsptools.fuzz.shrinking import Shrinking
from lsptools.servers.children import Fault
from lsptools.servers.comparison import Comparison
from lsptools.servers.languages import forms_of
from lsptools.servers.questions import SYMBOLS
from lsptools.servers.recording import Document
from lsptools.servers.server import Ended, TimedOut

# How often servers may fail one after the other, and how many of these failures are told; how many
# cases are tried to cut down what ends a server, each in a new one.
MOST_FAULTS, MOST_TOLD, MOST_ENDED = 3, 5, 30
# For how many seconds a case is cut down, and for how many its cause is looked for, at most.
CUTTING, EXPLAINING = 300, 300
# How often fresh servers are shown what they did not show.
MOST_UNCONFIRMED = 2
# What is asked again before a difference is looked into, after this many seconds.
AGAIN = (0.05, 0.3)
# The other encodings that are offered first.
OFFERED = (["utf-8", "utf-16"], ["utf-32", "utf-16"])
UTF_16 = "utf-16"


@dataclass(frozen=True)
class Found:
    """A drift: the feature that shows it, why, the smallest case of it, and where it was found: the
    session, and how many edits were made until then."""

    feature: str
    cause: Cause
    shown: Shown
    session: int
    edits: int


def form_in(greeting, language):
    """How names are declared in a language. One that is not known is tried with the server."""
    forms = forms_of(language.name)
    if len(forms) == 1:
        return forms[0]
    document = Document(language.uri(0), language.name, 1)
    return Comparison(greeting.setting).tried(document, forms)


class Hunt:
    """Sends sessions of random edits to a server, and looks into what differs."""

    def __init__(self, target, language, schedule, start=None):
        self.target, self.language, self.schedule, self.start = target, language, schedule, start
        # The drifts, what is known of each, and what fresh servers did not show, with how often.
        self.found, self.known, self.unconfirmed = [], set(), Counter()
        self.sessions = self.edits = self.questions = self.faults = 0
        # How often the server failed otherwise than by a drift, and how it first did.
        self.failed, self.failures = 0, []
        # The verdict about a rule that the server itself breaks.
        self.verdict = None
        # The smallest case so far of what is looked into, and who can write its log.
        self.best = None
        # Whether a change without a range gives a document the right text.
        self.is_change_right = True
        self.greetings, self.is_one_by_one, self.live = {}, False, None
        # Whether the server once gave no answer in time: some hang if a new document is changed.
        self.has_hung = False
        self.form = None

    def run(self, seconds, note, note_progress):
        """Hunts for some seconds, and notes each drift."""
        end = time.monotonic() + seconds
        self.greetings[UTF_16] = first = Greeting(self.target, [UTF_16])
        self.form = form_in(first, self.language)
        try:
            while time.monotonic() < end and not self.schedule.is_over():
                self.attempt(note)
                note_progress()
        except BaseException as why:
            self.stop(why)
            raise
        self.stop()

    def attempt(self, note):
        """One session. A server that fails is replaced, a few times."""
        try:
            self.session(note)
            self.faults = 0
        except Fault as why:
            self.note_failure(why)

    def note_failure(self, why):
        """Ends a server that has failed, and the hunt if the last ones have, too."""
        self.stop(why)
        self.best = None
        self.has_hung = self.has_hung or isinstance(why, TimedOut)
        self.faults += 1
        self.tell_failure(why)
        if self.faults >= MOST_FAULTS:
            raise Failed(str(why), 2) from why

    def tell_failure(self, why):
        self.failed += 1
        self.failures = [*self.failures, str(why)][:MOST_TOLD]

    def stop(self, why=None):
        """Ends the server, and checks the log of its sessions, unless it has failed."""
        live, self.live = self.live, None
        if live is None:
            return
        self.questions += live.asked
        live.__exit__(why and type(why), why, None)
        if live.verdict not in (None, "yes"):
            self.verdict = live.verdict

    def session(self, note):
        features = self.schedule.next()
        greeting = self.greeting_for(features)
        if greeting is None:
            return
        self.sessions += 1
        number, seed = self.sessions, f"{self.schedule.seed} session {self.sessions}"
        made = CaseGenerator(seed, features, self.form, self.start, greeting.takes_ranges)
        case = made.case()
        # The right text comes in a didOpen or in a change, in turns; and in some sessions the
        # server gets the time to work on each message.
        by_change = number % 2 == 1 and self.is_change_right
        is_slow = number % 5 == 4 and "bursts" not in features
        live = self.live_with(greeting)
        self.edits += edits_of(case)
        try:
            differing = live.differing(case, by_change, is_slow=is_slow)
            differing = differing and live.differing(case, by_change, AGAIN, only=differing)
            if differing:
                self.look_into(case, by_change, differing, number, note)
        except Ended as why:
            self.stop(why)
            self.look_into_end(greeting, case, number, note, why)

    def greeting_for(self, features):
        """The greeting of a session; None if it needs an encoding that the server does not take."""
        if "encodings" not in features:
            return self.greetings[UTF_16]
        others = [it for it in self.greetings if it != UTF_16]
        if not others:
            made = [Greeting(self.target, it) for it in OFFERED]
            self.greetings.update((it.encoding, it) for it in made if it.encoding != UTF_16)
            others = [it for it in self.greetings if it != UTF_16]
        if not others:
            self.schedule.leave_out("encodings")
            return None
        return self.greetings[others[self.sessions % len(others)]]

    def live_with(self, greeting):
        """The server that runs, or a new one."""
        if self.live and (self.live.greeting is not greeting or self.live.is_old()):
            self.stop()
        if self.live is None:
            live = Live(greeting, self.language, self.form, self.is_one_by_one, self.has_hung)
            self.live = live.__enter__()
            text = CaseGenerator(self.schedule.seed, PLAIN, self.form, self.start).text()
            if why := live.calibrate(text):
                raise Failed(why, 2)
            self.is_one_by_one = live.is_one_by_one
        return self.live

    def look_into(self, whole, by_change, differing, number, note):
        """Cuts a case down, explains it, and shows it to fresh servers."""
        live, greeting = self.live, self.live.greeting
        confirming = Confirming(greeting, self.language)
        text = text_before(whole, None)
        at_fault = live.case_at_fault(text) if self.is_change_right else None
        if at_fault:
            whole, by_change, differing = at_fault, not at_fault.by_change, None
        # The names see most, so that no more need be asked.
        only = [it for it in differing or () if it == (SYMBOLS, True)] or differing
        case = self.cut_down(
            whole, lambda it: live.differing(it, by_change, only=only), confirming
        )
        feature, way = self.feature_of(case, greeting), bool(at_fault) and by_change
        cause = self.cause_of(Explaining(live, way, time.monotonic() + EXPLAINING), case, whole)
        drift = feature, cause
        if drift not in self.known and self.unconfirmed[drift] < MOST_UNCONFIRMED:
            shown = confirming.shown(case) or (case != whole and confirming.shown(whole))
            if shown:
                self.take(Found(feature, cause, shown, number, self.edits), note)
            else:
                self.unconfirmed[drift] += 1
        self.best = None

    def cause_of(self, explaining, case, whole):
        """The cause of a case; none if the server ends while it is looked for."""
        try:
            return explaining.cause(case, whole)
        except Ended as why:
            self.stop(why)
            return Cause(())

    def cut_down(self, whole, is_shown, confirming, **limits):
        """The smallest case, which is kept as it gets smaller."""
        def keep(case):
            self.best = confirming, case

        keep(whole)
        return Shrinking(whole, is_shown, keep, time.monotonic() + CUTTING, **limits).smallest()

    def look_into_end(self, greeting, whole, number, note, why):
        """The same with a case that ends the server, which has failed if no fresh one ends."""
        confirming, self.best = Confirming(greeting, self.language), None
        if not confirming.ends(whole):
            self.tell_failure(why)
            return
        case = self.cut_down(whole, confirming.ends, confirming, most=MOST_ENDED)
        _, sent, setting = confirming.session(case)
        shown = confirming.made(case, sent, setting, True)
        found = Found(self.feature_of(case, greeting), Cause((CRASH,)), shown, number, self.edits)
        if (found.feature, found.cause) not in self.known:
            self.take(found, note)
        self.best = None

    def feature_of(self, case, greeting):
        """The feature that names a drift."""
        first = features_of(case)[0]
        is_of_encoding = greeting.encoding != UTF_16 and first in ("astral", "combining")
        return "encodings" if is_of_encoding else first

    def take(self, found, note):
        """Takes a drift: what follows leaves its feature out. What a plain feature shows is in
        every session."""
        self.found.append(found)
        self.is_change_right = self.is_change_right and not found.shown.case.by_change
        self.known.add((found.feature, found.cause))
        is_everywhere = found.feature in (*PLAIN, OPENING)
        for feature in list(self.schedule.chosen) if is_everywhere else [found.feature]:
            self.schedule.leave_out(feature)
        note(found)
