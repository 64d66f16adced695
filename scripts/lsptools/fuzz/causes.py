"""Which wrong store explains what a server answers: fresh documents are given the texts that each
store would hold, and asked the same."""

import math
import time
from dataclasses import dataclass, replace

from lsptools.base.messages import changed
from lsptools.fuzz.cases import LINE_END, Case, Edit, Editor, Step, one_by_one, text_before
from lsptools.fuzz.features import SEPARATORS
from lsptools.fuzz.live import unlike
from lsptools.fuzz.stores import ANYTHING, KINDS, held
from lsptools.servers.questions import SELECTION, SYMBOLS

# How many texts are tried of each kind of stores, and how long one is that is typed.
MOST_TEXTS, MOST_TYPED = 24, 200
# How the documents of a case are called where no server gets it.
NAMES = ("file:///one", "file:///two")
CRASH = "server ends"


@dataclass(frozen=True)
class Cause:
    """The names of what explains a drift: one, or two if nothing tells them apart, or none."""

    names: tuple

    def __str__(self):
        return " or ".join(self.names) if self.names else "unexplained"


class Explaining:
    """The search for the store that explains a case, in a server that runs. If the server takes a
    didOpen in a wrong way, the texts are given by changes. After the moment `end` no store is
    tried, and none explains the case."""

    def __init__(self, live, by_change=False, end=math.inf):
        self.live, self.by_change, self.end = live, by_change, end

    def is_over(self):
        return time.monotonic() > self.end

    def cause(self, case, whole):
        """The cause of a case that was cut down from a whole one. What explains it is told apart by
        other cases."""
        found = self.stores_for(case)
        for other in (whole, wide(case), further(case)):
            if len(names_of(found)) > 1 and other != case:
                found = self.explaining(other, found) or found
        names = names_of(found)
        if len(names) == 1 and names[0] in SEPARATING:
            names = (self.separators(case, names[0]),)
        return Cause(names[:2])

    def stores_for(self, case):
        """The stores of the first kind that explain a case and, unless they explain anything, what
        the server answers in plainer ones, and about the right text."""
        others = [*plainer_cases(case), self.control(case)]
        for kind in KINDS:
            found = self.explaining(case, kind)
            for other in others if kind is not ANYTHING else ():
                found = found and self.explaining(other, found, True)
            if found:
                return found
        return []

    def control(self, case):
        """The case of a document that is given the right text at once."""
        return Case((text_before(case, None),), (), self.by_change)

    def explaining(self, case, stores, may_be_right=False):
        """The stores with which a document would answer as the server does. Unless they may be
        right, they hold a wrong text, or would if the right one were given at once."""
        ways = {} if self.is_over() else self.ways_of(case, stores, may_be_right)
        if not ways:
            return []
        answers, = self.live.answers([self.live.play(case)])
        # These are asked for at the ends of lines, and the texts have other lines.
        answers.pop((SELECTION, False), None)
        found = []
        for way in list(ways)[:MOST_TEXTS]:
            if self.is_over():
                return []
            if self.is_same(answers, way):
                found += ways[way]
        return sorted(found, key=stores.index)

    def ways_of(self, case, stores, may_be_right):
        """How a document gets the texts that stores would hold, before the lines are overwritten
        and after, each with its stores."""
        document = self.live.told(NAMES[0], text_before(case, None))
        right, found = (document.text, document.overwriting.text), {}
        more = [changed(document.uri, 0, it) for it in document.messages]
        scripts = [self.contents(it) for it in (case, self.control(case))]
        for store in stores:
            texts, others = (self.held(store, it, more) for it in scripts)
            if may_be_right or right != texts or right != others:
                way = tuple(self.way_to(store, it) for it in texts)
                found.setdefault(way, []).append(store)
        return found

    def contents(self, case):
        """The messages of a case."""
        editor = Editor(self.live.language.name, self.live.greeting.encoding)
        return [it.content for it in editor.messages(case, NAMES)]

    def held(self, store, contents, more=()):
        return held(store, contents, self.live.greeting.encoding, NAMES[0], more)

    def way_to(self, store, text):
        """The case that gives a document a text in a server with this store: at once or, if the
        store would change it, typed; None if there is no text."""
        if text is None:
            return None
        at_once = Case((text,), (), self.by_change)
        if not store.changes_texts or len(text) > MOST_TYPED:
            return at_once
        cases = (at_once, typed(text))
        found = (it for it in cases if self.held(store, self.contents(it))[0] == text)
        return next(found, at_once)

    def is_same(self, answers, way):
        """Whether a document that gets its text in this way is answered the same. The symbols are
        asked first: they tell most texts apart, and other answers may take long. A document that is
        not open, at which some servers end, is asked about only if an answer may be of one."""
        if any(case is None and not is_empty(answers[key])
               for key in answers for case in [way[key[1]]]):
            return False
        asked = ([(SYMBOLS, False)], None)
        return all(not unlike(answers, self.answers_about(way, it)) for it in asked)

    def answers_about(self, way, only):
        """What is answered about a document before its lines are overwritten, and after: two cases
        that give it the text, or None if it has none."""
        before, after = (self.live.answers_about(it, only) for it in way)
        late = {(method, True): answer for (method, _), answer in after.items()}
        return {**before, **late}

    def separators(self, case, name):
        """Each character that ends a line, if the one in this case does."""
        own = SEPARATING[name]

        def ends(other):
            after = Case((f"a{other}b\n",), (Step(0, (Edit(3, 3, "x"),)),))
            cases = case.mapped(lambda it: it.replace(own, other)), after
            return any(map(self.live.differing, cases))

        found = [SEPARATORS[it] for it in SEPARATORS if it == own or ends(it)]
        return f"{', '.join(found)} {'end' if found[1:] else 'ends'} a line"


def is_empty(answer):
    """Whether an answer says nothing of a text."""
    return "error" in answer or not answer.get("result")


def typed(text):
    """The case in which a text is typed, the last character first."""
    return Case(("",), tuple(Step(0, (Edit(0, 0, it),)) for it in reversed(text)))


SEPARATING = {f"{name} ends a line": it for it, name in SEPARATORS.items()}


def plainer_cases(case):
    """Cases that have less: what is wrong for their sake may be right there."""
    texts = (case.mapped(it) for it in (in_ascii, in_letters, in_lines))
    return [it for it in (*texts, within_lines(case), one_by_one(case)) if it != case]


def in_ascii(text):
    """A text in which each character that is not plain ASCII is an x."""
    return "".join(it if it in "\t\r\n" or " " <= it < "\x7f" else "x" for it in text)


def in_letters(text):
    """A text with a letter of as many bytes for each character that may end a line elsewhere."""
    return "".join("yéम"[len(it.encode()) - 1] if it in SEPARATORS else it for it in text)


def in_lines(text):
    """A text whose lines end with LF."""
    return LINE_END.sub("\n", text)


def placed(case, change):
    """A case whose edits are changed."""
    steps = tuple(replace(it, edits=tuple(map(change, it.edits))) for it in case.steps)
    return replace(case, steps=steps)


def within_lines(case):
    """A case none of whose positions is past an end."""
    return placed(case, lambda it: replace(it, past=0, lines=0))


def further(case):
    """A case whose columns are further past the ends of their lines, and whose first text has a
    line more."""
    text = case.texts[0]
    end = (LINE_END.findall(text) or ["\n"])[-1]
    text += (end if text and not text.endswith(end) else "") + f"further on{end}"
    wider_case = replace(case, texts=(text, *case.texts[1:]))
    return placed(wider_case, lambda it: replace(it, past=2 * it.past))


def wide(case):
    """A case in which each character that is not ASCII counts otherwise in each encoding, and in
    whose first text no column is past the end of its line, however it is counted."""
    text, wider = case.texts[0], 4 * max(map(len, case.texts))
    ends = [it.start() for it in LINE_END.finditer(text)]

    def moved(at):
        return None if at is None else at + wider * sum(end < at for end in ends)

    text = LINE_END.sub(lambda end: "x" * wider + end[0], text)
    wider_case = placed(
        replace(case, texts=(text, *case.texts[1:])),
        lambda it: replace(it, start=moved(it.start), end=moved(it.end)),
    )
    return wider_case.mapped(lambda it: "".join(it if it.isascii() else "😀" for it in it))


def names_of(stores):
    return tuple(dict.fromkeys(it.name for it in stores))
