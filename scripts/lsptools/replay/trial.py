"""One trial of a server: the log, its replay, the questions, the search and the small case."""

import contextlib
import os
import tempfile

from lsptools.base.program import Failed
from lsptools.base.script import quoted, write
from lsptools.replay.points import Asked, has_answers
from lsptools.replay.search import Search
from lsptools.servers import children
from lsptools.servers.comparison import Comparison
from lsptools.servers.crashes import CrashSearch
from lsptools.servers.drive import Run, Setting
from lsptools.servers.overwriting import lines_of
from lsptools.servers.questions import DIAGNOSTICS, NOTHING, SYMBOLS, compared, names_of
from lsptools.servers.recording import read
from lsptools.servers.report import shown
from lsptools.servers.sending import choose
from lsptools.servers.server import Ended, Tape, TimedOut
from lsptools.servers.small_case import log_of, verdict_of
from lsptools.servers.witness import notes_on, said_after, sentences_on

# Where one server holds more, in bytes, servers run one after the other.
MUCH_MEMORY = 500 * 1_000_000
# How many servers run at a time, if there are as many processors.
MOST_JOBS = 4

# Files that are not finished yet.
unfinished = set()


def forget():
    """Removes the files that are not finished."""
    for name in list(unfinished):
        with contextlib.suppress(OSError):
            os.unlink(name)


def run(program, log, command, given, folders, report):
    """Does the trial, and writes its lines. The status of the script."""
    recording = read(program)
    log.check_unchanged()
    report.say_judged(program)
    if not any(it.method == "initialize" for it in recording.messages):
        raise Failed(f"{log.shown}: there is nothing to replay", 2)
    left_out = choose(recording, folders, given.with_settings)
    for message, members in left_out:
        report.say_left_out(message, members)
    if folders.pairs and not folders.has_found:
        raise Failed(f"--map: {folders.pairs[0][0]} is in no message of the log", 2)
    jobs = given.jobs or min(MOST_JOBS, len(os.sched_getaffinity(0)))
    setting = Setting(program, recording, command, given.wait, folders, jobs)
    try:
        return Trial(setting, given, report).status()
    finally:
        if left_out:
            report.say_without(len(left_out))


def begin_file(folder, name):
    """A file that has no name of its own yet."""
    file = tempfile.NamedTemporaryFile(dir=folder, prefix=f".{name}-", delete=False)
    unfinished.add(file.name)
    return file


def end_file(file, path, is_good):
    """Gives a file its name, or removes it."""
    os.replace(file.name, path) if is_good else os.unlink(file.name)
    unfinished.discard(file.name)


@contextlib.contextmanager
def written(path):
    """The log that is written to a file; None without one. It gets its name in the end."""
    if path is None:
        yield None
        return
    folder, name = os.path.split(os.path.abspath(path))
    try:
        with children.PROCESSES.unless_over(lambda: begin_file(folder, name)) as file:
            tape = Tape(file)
            try:
                yield tape
            finally:
                file.close()
                children.PROCESSES.unless_over(lambda: end_file(file, path, tape.error is None))
            if tape.error:
                raise tape.error
    except OSError as error:
        raise Failed(f"{quoted(path)}: {error.strerror}", 3) from error


class Trial:
    """What is done with one log, after it was read."""

    def __init__(self, setting, given, report):
        self.setting, self.given, self.report = setting, given, report
        self.comparison, self.crash = Comparison(setting), None

    def status(self):
        try:
            self.replay()
        except TimedOut:
            self.setting.silent.clear()
            self.replay()
        asked = Asked(self.comparison, self.given.every)
        asked.ask()
        found = self.conclude(asked)
        named = [it for it in found if it.questions and not it.why]
        if named and not self.crash:
            first = min(named, key=lambda it: it.message.number)
            self.write_small(first.message.number, first.count, [first.uri])
        return 1 if found or asked.faults_of_log() or self.crash else self.agreed(asked)

    def replay(self):
        """Sends the whole log once. If that ends the server, what precedes is asked about."""
        try:
            with written(self.given.write) as tape, Run(self.setting, tape) as run:
                run.advance(len(self.setting.recording.messages))
                if self.given.jobs is None and run.server.memory() > MUCH_MEMORY:
                    self.setting.slots.most = 1
            if run.server.is_lost and self.find_crash(run):
                return
            self.report.say_replayed(self.setting.recording, run.server.received)
            self.report.say_answers(self.setting.recording, run.answered, self.setting.silent)
        except Ended:
            if not self.find_crash(run):
                raise

    def find_crash(self, run):
        """Finds the message that ended a server, if it ends the next one, too. What precedes it is
        asked about."""
        self.crash = crash = CrashSearch(self.setting).find(max(run.number, 1))
        if crash is None:
            return False
        recording, number = self.setting.recording, crash.message.number
        self.report.say_replayed(recording, run.server.received, number)
        self.report.say_crash(crash)
        self.say_more(crash.message, crash.count, crash.words)
        self.write_small(number, crash.count, [], True)
        recording.end_before(number)
        return True

    def say_more(self, message, count, lines):
        """Which messages show what was found, and what others say about the last of them."""
        if count:
            first = self.setting.recording.message(message.number - count + 1)
            self.report.say_needed(first, message)
        notes = notes_on(self.setting.program, message)
        self.report.say_witness(notes, sentences_on(notes), lines)

    def conclude(self, asked):
        """Says what was found about each document."""
        found = []
        for uri, document in asked.documents.items():
            self.report.say_document(document, asked.questions[uri])
            if uri in asked.faults:
                self.report.say_fault(asked.faults[uri])
            if uri in asked.differs:
                found.append(self.search(asked, uri))
        for message, why in asked.unknown:
            self.report.say_unknown(message, why)
        return found

    def search(self, asked, uri):
        """Searches for the message, and says what is found."""
        differs, questions = asked.differs[uri]
        search = Search(self.comparison, uri)
        found = search.find(asked.agreed.get(uri, 0), differs, questions)
        self.report.say_found(found)
        if found.questions:
            with contextlib.suppress(children.Fault):
                self.say_missing(found)
                lines = said_after(self.setting, found.message.number)
                self.say_more(found.message, found.count, lines)
            self.report.say_questions(found.questions)
        return found

    def say_missing(self, found):
        """The first line that the symbols do not show, where they show the lines."""
        for it in found.questions:
            if it.key.is_overwritten and it.key.method == SYMBOLS and "result" in it.replayed:
                told, = self.comparison.told(found.message.number, [found.uri])
                line = told.overwriting.first_wrong(names_of(it.replayed["result"]))
                if line is not None:
                    self.report.say_missing(line, lines_of(told.text)[line][0])

    def agreed(self, asked):
        """Says that there is no difference, if each document was asked about."""
        questions = {uri: [it for it in mine if it.verdict != NOTHING]
                     for uri, mine in asked.questions.items()}
        if asked.unknown:
            raise asked.unknown[0][1]
        if not questions or not all(questions.values()):
            raise Failed(why_nothing(asked, bool(self.setting.folders.pairs)), 2)
        self.report.say_agreed(sum(map(len, questions.values())), len(questions))
        return 0

    def write_small(self, last, count, uris, ends=False):
        """Writes the small case, if lspcheck finds nothing wrong with it: this many messages up to
        the last one."""
        if not self.given.small:
            return
        if count is None:
            self.report.say_no_small("repeated runs disagree")
            return
        log, messages = log_of(self.setting, last - count, last, uris, ends)
        verdict = verdict_of(self.setting, log)
        if verdict != "yes":
            self.report.say_no_small(f"lspcheck says {verdict}")
            return
        children.PROCESSES.unless_over(lambda: write(self.given.small, log))
        self.report.say_small(self.given.small, messages)


def why_nothing(asked, has_folders):
    """Why nothing can be said, although the server answers, perhaps without a project's folders."""
    if not asked.documents:
        return "the log opens no document, so there is nothing to ask about"
    for uri, questions in asked.questions.items():
        if has_answers(questions):
            continue
        questions = [it for it in questions if it.key.method not in DIAGNOSTICS]
        if not questions:
            return "the server offers none of the questions that the text alone answers"
        for it in questions:
            if compared(it.fresh) is None:
                hint = "" if has_folders else "; if it needs the files of a project, see --map"
                what = f"a fresh server fails at {it.key.method}: {shown(it.fresh)}"
                return f"no answer counts: {what}{hint}"
        return "no answer counts: fresh servers answer otherwise each time"
    return None
