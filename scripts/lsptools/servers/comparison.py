"""Compares what a server answers that was sent the log with what fresh ones answer."""

import re
from dataclasses import dataclass, replace

from lsptools.base.messages import member
from lsptools.servers.asking import Plan, answers_of, is_settled, last_of, told
from lsptools.servers.drive import Run, at_once
from lsptools.servers.languages import PLAIN, forms_of
from lsptools.servers.overwriting import overwriting
from lsptools.servers.questions import (
    DIAGNOSTICS,
    DIFFERS,
    NOTHING,
    PAUSES,
    SAME,
    SHORT_PAUSES,
    SYMBOLS,
    Key,
    names_of,
    offered,
    params_of,
    passes,
    strings_of,
)
from lsptools.servers.server import PUBLISHED

LINE_END = re.compile("\r\n|\r|\n")
OPENED, CHANGED, EITHER = "didOpen", "whole-change", "didOpen-or-whole-change"


@dataclass
class Question:
    """A question, the last answers of the server that was sent the log and of a fresh one, and what
    they say."""

    key: Key
    replayed: dict
    fresh: dict
    verdict: str


@dataclass
class Fault:
    """What takes a whole text in a wrong way: a `didOpen`, a change without a range, or one of the
    two; and the answers after each."""

    at_fault: str
    key: Key = None
    opened: dict = None
    changed: dict = None


def verdict_of(key, replayed, fresh, control=None):
    """What the answers to a question say, each a list in the order of time. If the answers change
    without end, that says nothing."""
    others = [fresh] if control is None else [fresh, control]
    if last_of(fresh) is None or any(last_of(it) != last_of(fresh) for it in others):
        return NOTHING
    is_empty = key.method in DIAGNOSTICS and not any(strings_of(fresh[-1].get("result")))
    if last_of(replayed) == last_of(fresh):
        return NOTHING if is_empty else SAME
    if key.method == PUBLISHED and last_of(replayed) is None:
        return NOTHING
    return DIFFERS if all(map(is_settled, [replayed, *others])) else NOTHING


def replaying(number, start=0, opened=()):
    """What a server is told: the log up to a message or, from the texts after the message `start`
    on, what follows it."""
    def feed(run):
        if start:
            run.begin(start, opened)
        run.advance(number)

    return feed


def telling(number, documents, changed=(), idle=0):
    """What a fresh server is told: the right texts, in one `didOpen` each, and those of the URIs
    `changed` in a change without a range, after this many that change nothing."""
    def feed(run):
        run.begin(number, [(it.document, it.text) for it in documents], changed, idle)

    return feed


class Comparison:
    """Compares answers after messages of the log. To be sure, it asks again after some pauses."""

    def __init__(self, setting, pauses=PAUSES, has_diagnostics=True):
        self.setting, self.pauses, self.has_diagnostics = setting, pauses, has_diagnostics
        # The documents whose `didOpen` is at fault. A fresh server gets these in a change without a
        # range, so that it does not share the fault.
        self.changed = set()
        # How names are declared in a language, and the documents whose symbols don't show them.
        self.forms, self.hidden = {}, set()
        # Whether each change of those that overwrite is a message, since the server takes several
        # changes of one message otherwise; and whether that was tried.
        self.is_one_by_one = self.has_tried = False

    def told(self, number, uris, is_one_by_one=False):
        how = is_one_by_one or self.is_one_by_one
        found = (told(self.setting, number, uri, self.form(number, uri), how) for uri in uris)
        return [it for it in found if it is not None]

    def hear(self, documents, *askings):
        """The answers of several servers, each given with what it is told and asked."""
        return at_once(*(
            lambda it=it: answers_of(self.setting, it[0], documents, it[1]) for it in askings
        ))

    def form(self, number, uri):
        """How a language declares a name. One that is not in the table is tried."""
        document = self.setting.recording.documents(number).get(uri)
        language = document.language if document else None
        if not isinstance(language, str):
            return PLAIN
        if language not in self.forms:
            forms = forms_of(language)
            self.forms[language] = forms[0] if len(forms) == 1 else self.tried(document, forms)
        return self.forms[language]

    def tried(self, document, forms):
        """The first form that the symbols of a server show."""
        with Run(self.setting) as run:
            run.begin(len(self.setting.recording.messages), [])
            run.open(document, "")
            uri = self.setting.folders.uri_of(document.uri)
            for form in forms if offered(run, SYMBOLS) else ():
                written = overwriting("a\nb", form)
                run.change(document.uri, [{"text": written.text}])
                answer = run.ask(SYMBOLS, params_of(SYMBOLS, uri, written.text, "utf-16"))
                if written.is_shown(names_of(answer.get("result"))):
                    return form
        return PLAIN

    def after(self, number, uris, is_sure=True, has_diagnostics=True, start=0):
        """What is asked about documents after a message. The replay begins with the log or, if
        `start` is a message, with the texts after it. To be sure takes longer."""
        documents = self.told(number, uris)
        opened = texts_after(self.setting, start, uris_from(self.setting, start, number, uris))
        replay = replaying(number, start, opened if start else ())
        fresh, plan = telling(number, documents, self.changed), Plan((), None, has_diagnostics)
        if not documents:
            return []
        heard = self.hear(documents, (replay, plan), (fresh, plan))
        open_keys = frozenset(it for it in both(*heard) if not is_same(it, *heard))
        again = self.again(documents, replay, fresh, open_keys, is_sure) if open_keys else {}
        for key in () if is_sure else again:
            # As in `sure`: what overwrites may have been lost by one server of a pair.
            one, other = again[key].replayed, again[key].fresh
            pairs = (one, heard[1][key][-1]), (heard[0][key][-1], other)
            if key.is_overwritten and any(last_of([it]) == last_of([its]) for it, its in pairs):
                again[key].verdict = SAME
        wrong = {key.uri for key, it in again.items() if it.verdict == DIFFERS}
        return [again.get(it) or question(it, *heard, it.uri in wrong) for it in both(*heard)]

    def again(self, documents, replay, fresh, keys, is_sure):
        """The same once more, or at length: of the questions that are left, those about names alone
        if these are among them, since more would only take longer."""
        keys = frozenset(it for it in keys if it.is_overwritten and it.method == SYMBOLS) or keys
        if not is_sure:
            plan = Plan(SHORT_PAUSES, keys, True, True)
            heard = self.hear(documents, (replay, plan), (fresh, plan))
            return {it: question(it, *heard) for it in both(*heard)}
        plan, more = self.plans(keys)
        *replays, first, second, spared = heard = self.hear(
            documents, (replay, plan), (replay, more), (fresh, plan), (fresh, plan), (fresh, more)
        )
        return {it: sure(it, replays, first, second, spared) for it in both(*heard)}

    def plans(self, keys):
        """What is asked at length, without what more is sent, and with it."""
        plan = Plan(self.pauses, keys, self.has_diagnostics)
        return plan, replace(plan, sends_more=True)

    def with_faults(self, number, uris):
        """The same, and what is at fault in each document about which two fresh servers disagree:
        one that gets the text in a `didOpen`, and one that gets it in a change without a range."""
        documents = self.told(number, uris)
        if not documents:
            return [], {}
        plan = Plan((), None, self.has_diagnostics)
        replay, opening, changing = feeds = [
            replaying(number), telling(number, documents), telling(number, documents, uris)
        ]
        heard = self.hear(documents, *((it, plan) for it in feeds))
        if self.takes_one_by_one(number, documents, *heard[1:]):
            documents = self.told(number, uris)
            heard = self.hear(documents, *((it, plan) for it in feeds))
        keys = both(*heard)
        open_keys = frozenset(
            it for it in keys if not (is_same(it, *heard[:2]) and is_same(it, *heard[1:]))
        )
        faults, asked = {}, {it: question(it, *heard[:2]) for it in keys}
        if open_keys:
            plan, more = self.plans(open_keys)
            late = telling(number, documents, uris, 1)
            *replays, opened, again, spared, changed, spared_change = heard = self.hear(
                documents, (replay, plan), (replay, more), (opening, plan), (opening, plan),
                (opening, more), (changing, plan), (late, more)
            )
            keys = both(*heard)
            faults = faults_of(documents, keys, (opened, again, spared), (changed, spared_change))
            self.changed |= {uri for uri, it in faults.items() if it.at_fault == OPENED}
            for key in keys:
                is_by_change = key.uri in self.changed
                kind = (changed, spared_change) if is_by_change else (opened, again)
                asked[key] = sure(key, replays, *kind, kind[1] if is_by_change else spared)
        self.note_hidden(documents, asked)
        return list(asked.values()), faults

    def takes_one_by_one(self, number, documents, *fresh):
        """Whether fresh servers show the names, but only if each change is a message. This is tried
        once."""
        if self.has_tried:
            return False
        self.has_tried = True
        keys = {Key(it.uri, SYMBOLS, True): it for it in documents}
        hidden = [(it, key) for key, it in keys.items()
                  if not any(is_shown(it, one.get(key)) for one in fresh)]
        if not hidden or not all(key in it for _, key in hidden for it in fresh):
            return False
        uris = [it.uri for it, _ in hidden]
        again, plan = self.told(number, uris, True), Plan((), frozenset(key for _, key in hidden))
        heard, = self.hear(again, (telling(number, again, uris), plan))
        self.is_one_by_one = any(is_shown(it, heard.get(key)) for it, key in hidden)
        return self.is_one_by_one

    def note_hidden(self, documents, asked):
        """Notes whose symbols don't show the names, also where the text is right."""
        for it in documents:
            question = asked.get(Key(it.uri, SYMBOLS, True))
            if not is_shown(it, [question.fresh] if question else None):
                self.hidden.add(it.uri)

    def seen_right(self, number, uri):
        """The question that shows that a document has the right text after a message, without a
        fresh server, since the names are known; None if it does not show that."""
        documents, key = self.told(number, [uri]), Key(uri, SYMBOLS, True)
        if uri in self.hidden or not documents:
            return None
        plan = Plan((), frozenset([key]))
        answers = answers_of(self.setting, replaying(number), documents, plan).get(key)
        if is_shown(documents[0], answers):
            return Question(key, answers[-1], answers[-1], SAME)
        return None


def faults_of(documents, keys, opened, changed):
    """For each document, what is at fault if fresh servers disagree: each of some that it was
    opened in, and each of some where it was changed."""
    told, found = {it.uri: it for it in documents}, {}
    for key in keys:
        fault = fault_of(key, told[key.uri], opened, changed)
        if fault and (key.uri not in found or found[key.uri].at_fault == EITHER):
            found[key.uri] = fault
    return found


def fault_of(key, told, opened, changed):
    """What the answers to a question say is at fault, or None."""
    kinds = [[one[key] for one in some] for some in (opened, changed)]
    one, other = (kind[0] for kind in kinds)
    if not all(map(is_steady, kinds)) or last_of(one) == last_of(other):
        return None
    who = at_fault(key, told, one[-1], other[-1])
    # What overwrites the lines may itself be lost. That it was not, the names tell.
    is_sent = not key.is_overwritten or all(shows(key, told, it) for it in (one, other))
    return None if who == EITHER and not is_sent else Fault(who, key, one[-1], other[-1])


def texts_after(setting, number, uris):
    """These documents, as they are after a message, each with its text."""
    documents = setting.recording.documents(number) if number else {}
    found = [(documents[uri], setting.text(number, uri)) for uri in uris if uri in documents]
    return [(document, text) for document, text in found if text is not None]


def uris_from(setting, start, number, uris):
    """The documents that are asked about, and those that messages between these two name."""
    between = setting.recording.messages[start:number]
    return list(dict.fromkeys([*uris, *(it.uri for it in between if it.uri)]))


def both(first, *others):
    """The questions that each server was asked."""
    return [key for key in first if all(key in it for it in others)]


def is_steady(kind):
    """Whether servers of one kind answered the same in the end, and had settled."""
    return all(map(is_settled, kind)) and all(last_of(it) == last_of(kind[0]) for it in kind)


def is_same(key, one, other):
    """Whether two servers answered the same at once: also the same error, unless it may pass."""
    first, second = one[key][-1], other[key][-1]
    if last_of(one[key]) is None and last_of(other[key]) is None:
        return not passes(first) and member(first, "error") == member(second, "error")
    return last_of(one[key]) == last_of(other[key])


def question(key, replayed, fresh, is_wrong=False):
    """A question that was asked with no more care than this. If another one shows that the text is
    wrong, each answer that differs does."""
    verdict = verdict_of(key, replayed[key], fresh[key])
    if is_wrong and last_of(fresh[key]) not in (None, last_of(replayed[key])):
        verdict = DIFFERS
    return Question(key, replayed[key][-1], fresh[key][-1], verdict)


def sure(key, replays, fresh, control, spared):
    """A question where more than one server of each kind was asked. The second replay and `spared`
    were sent more: a difference must show there, too. What overwrites the lines may itself be lost
    by one server of a pair, so then none may answer as one of the others."""
    verdicts = [
        verdict_of(key, replays[0][key], fresh[key], control[key]),
        verdict_of(key, replays[1][key], spared[key]),
    ]
    if key.is_overwritten:
        pairs = (replays[0], spared), (replays[1], fresh)
        verdicts += [verdict_of(key, one[key], other[key]) for one, other in pairs]
    verdict = verdicts[0] if verdicts[0] != DIFFERS else next(
        it for it in (SAME, NOTHING, DIFFERS) if it in verdicts
    )
    return Question(key, replays[0][key][-1], fresh[key][-1], verdict)


def is_shown(told, answers):
    """Whether the last of these answers about symbols has the names of a document, if there is
    one."""
    return bool(answers) and told.overwriting.is_shown(names_of(answers[-1].get("result")))


def shows(key, told, answers):
    """Whether a question is about the names of a document, and its last answer has them."""
    return key.is_overwritten and key.method == SYMBOLS and is_shown(told, answers)


def at_fault(key, told, opened, changed):
    """Which of two fresh servers has the wrong text: the one whose answer does not have what the
    right text has."""
    text = told.overwriting.text if key.is_overwritten else told.text

    def is_right(answer):
        return shows(key, told, [answer]) or bool(text) and text in strings_of(answer.get("result"))

    def has_its_ends(answer):
        found = {end for it in strings_of(answer.get("result")) for end in LINE_END.findall(it)}
        return found <= set(LINE_END.findall(text))

    answers = (opened, changed)
    for is_so in (is_right, lambda it: last_of([it]) is not None, has_its_ends):
        one, other = map(is_so, answers)
        if one != other:
            return CHANGED if one else OPENED
    return EITHER


def differing(questions):
    return [it for it in questions if it.verdict == DIFFERS]
