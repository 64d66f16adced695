"""That the tests of the scripts notice what is broken on purpose: page/run, replay/run, fuzz/run,
tests/shrink/run and tests/proxy/run, and tests/scripts."""

import compileall
import contextlib
import re
import shutil
import subprocess
import tempfile
from pathlib import Path

TOP = Path(__file__).resolve().parent.parent
PIPES = {"stdin": subprocess.PIPE, "stdout": subprocess.PIPE, "text": True}

# What is broken in a copy of lspcheck-page, each as a file, a text and its replacement, and the test of
# page/run that must notice.
BROKEN_PAGES = [
    ("page/wording.py", "html.escape(", "str(", "keeps_hostile_contents_in_data"),
    ("page/document.py", "{hash_of(script)}", "'unsafe-inline'", "keeps_hostile_contents_in_data"),
    ("page/reading.py", '"--by-messages"', '"--in-editor"', "has_both_texts"),
    ("page/reading.py", "return file.read(MOST_OF_EXIT).splitlines()", "return []", "shows_how_the_server_ended"),
    ("page/reading.py", '{self.said[0].get("code")}', "set()", "shows_bad_logs"),
    ("page/session.py", "self.rows.joins[column][row] = event.event", "pass", "joins_requests"),
    ("base/listing.py", "self.violations.append(violation)", "pass", "has_what_was_written"),
    ("page/blocks.py", "self.block.append(", "self.block.insert(0, ", "has_what_was_written"),
    ("page/cuts.py", "centres = [", "centres = [] and [", "cuts_long_logs"),
    ("page/cuts.py", "if end + 1 < start", "if False", "cuts_long_logs"),
    ("base/files.py", "if is_chosen and start != MARK", "if False", "keeps_other_files"),
    ("base/files.py", "if (found.st_ino, found.st_dev) == log.state[2:]", "if False", "keeps_logs"),
    ("base/files.py", "if start.startswith(LOG_MARK)", "if False", "keeps_logs"),
    ("base/files.py", "not stat.S_ISREG(found.st_mode)", "False", "writes_to_what_is_no_plain_file"),
    ("base/files.py", "        os.unlink(file.name)\n", "", "leaves_no_file_when_it_is_stopped"),
    ("page/parallel.py", "            run.close()\n", "            pass\n", "leaves_no_file_when_it_is_stopped"),
    ("base/script.py", "sys.exit(64)", "sys.exit(2)", "says_what_is_wrong_with_words"),
    ("base/script.py", "{printable(message)}", "{message}", "says_what_is_wrong_with_words"),
    ("page/command.py", '"--most-bytes"', '"--bytes"', "has_a_manual_page"),
    ("base/program.py", "if os.access(near, os.X_OK)", "if False", "finds_the_program"),
    ("base/program.py", "if status in ANSWERS", "if True", "says_what_is_wrong_with_the_program"),
    ("base/program.py", "if status == BAD_WORDS", "if False", "says_what_is_wrong_with_the_objects"),
    ("base/listing.py", "except NoObject", "except LookupError", "says_what_is_wrong_with_the_objects"),
    ("page/reading.py", "if not listing.ending", "if False", "says_what_is_wrong_with_the_objects"),
    ("base/report_lines.py", "isinstance(found, dict) and ", "",
     "says_what_is_wrong_with_the_objects"),
    ("base/report_lines.py", '{"codes": "end"}', "{}", "has_what_was_written"),
    ("base/report_lines.py", 'if is_quoted or key == "id"', 'if key == "id"',
     "has_what_was_written"),
    ("page/js/texts.mjs", 'if (encoding === "utf-16") {\n    return Math', "if (true) {\n    return Math",
     "texts_are_those_of_lspcheck"),
    ("page/js/texts.mjs", "Math.max(start.line - 1, 0)", "start.line", "texts_are_those_of_lspcheck"),
    ("page/js/summaries.mjs", "? it + 1 :", "? it :", "contents_are_those_of_lspcheck"),
    ("page/js/data.mjs", "String.fromCharCode(0xdc00 + bytes[at])", '"?"', "contents_are_those_of_lspcheck"),
    ("page/js/documents.mjs", "it.to === gap.to", "false", "texts_after_a_gap"),
    ("page/js/difference.mjs", "left < above", "left > above", "differences_lead_from_one_text_to_the_other"),
    ("page/smallest.py", "NOTHING = (1, 2)", "NOTHING = (1,)", "has_the_smallest_session"),
    ("page/smallest.py", ', "--lit")', ")", "has_the_smallest_session"),
    ("page/reading.py", "self.case = case_of(runs, self.said[0], given.shrink)", "pass", "has_the_smallest_log"),
    ("page/document.py", "number_of_events(case)", "1", "has_the_smallest_log"),
    ("page/rules.py", "section=heading", 'section=""', "has_what_was_written"),
    ("page/in_markdown.py", "max(2, *map(longest_run, lines)) + 1", "3", "stays_text"),
    ("page/in_markdown.py", "notes[:MOST_NOTES]", "notes[1:MOST_NOTES]", "says_what_lspcheck_says"),
    ("page/in_markdown.py", "kept.get(verdict.get(\"event\"))", "None", "shows_the_message"),
    ("page/hunks.py", "CONTEXT = 3", "CONTEXT = 2", "differs_as_diff_says"),
    ("page/hunks.py", "return one, both - one", "return both - one, one", "hunks_lead_from_one_text_to_the_other"),
    ("page/columns.py", "code > 0xFFFF", "code > 0xFFFFF", "tables_have_the_columns_of_each_character"),
    ("page/columns.py", "for change in earlier:", "for change in []:", "tables_have_the_columns_of_each_character"),
    ("page/summary.py", '.replace("|", BAR)', "", "sums_up_several_logs"),
    ("page/folder.py", "plain(visible(cut(text, LONGEST)))", "text", "keeps_hostile_contents_text"),
    ("page/folder.py", "while name.lower() in used", "while name in used", "stays_in_its_folder"),
    ("page/folder.py", 'OTHERS.sub("-", name)', "name", "stays_in_its_folder"),
    ("page/folder.py", "is_page = file.read(len(MARK)) == MARK", "pass", "keeps_files_that_are_no_pages"),
    ("page/folder.py", '(number + 1, "next"', '(number + 2, "next"', "has_a_page_for_each_log"),
    ("page/folder.py", '"bytes": index["bytes"]', '"bytes": index["events"]', "has_a_row_for_each_log"),
    ("page/batch.py", 'self.status = max(self.status, found["status"])', "pass", "says_which_logs_cannot_be_read"),
    ("page/batch.py", "self.folder.write_failed(number, found)", "pass", "says_which_logs_cannot_be_read"),
    ("page/many.py", "found = self.told.get(number) if status == 0 else None", "found = {}", "has_a_row_for_each_log"),
    ("page/many.py", "len(jobs.running) < most", "len(jobs.running) < 1", "reads_several_at_once"),
    ("page/many.py", "os.kill(process, signal.SIGTERM)", "pass", "ends_all_when_it_is_stopped"),
    ("page/js/smallest.mjs", ": escapedJson(it)", ": it", "smallest_sessions_mean_the_same"),
    ("page/js/smallest.mjs", 'padStart(4, "0")', 'padStart(5, "0")', "smallest_sessions_mean_the_same"),
]

# What is false on a page, each as before, and the test in a browser that must notice.
LYING_PAGES = [
    ("page/js/differing.mjs", "return [linesOf(session.texts.messages), linesOf(session.texts.editor), ",
     "return [linesOf(session.texts.editor), linesOf(session.texts.messages), ", "shows_both_texts"),
    ("page/js/rows.mjs", "`v${row.version}`", "`v${row.version + 1}`", "shows_each_event differs"),
    ("page/js/words.mjs", "`version ${it.version}, set by `", "`version ${it.version + 1}, set by `",
     "explains_each_violation differs"),
    ("page/js/words.mjs", "return [shownJson(it)];", "return [];", "shows_objects_that_are_not_known"),
    ("page/js/overview.mjs", "[editor, server, snapshots] = session.sides",
     "[editor, server, snapshots] = [0, 1, 2].map((side) => rows.filter((it) => it.side === side).length)",
     "shows_the_head cut"),
    ("page/reading.py", '"--all", "--notes"', '"--all"', "says_each_note wrong-column"),
    ("page/js/rows.mjs", 'row.notes.length > 0 && ["note", "note"]', "false", "shows_each_event noted"),
    ("page/js/details.mjs", "[soPart(row.violation), ", "[", "explains_each_violation wrong-column"),
    ("page/js/overview.mjs", "sentence = sentenceOfVerdict()", "sentence = undefined", "shows_the_head wrong-column"),
    ("page/js/joins.mjs", "by `, eventLink(row.partner)", "by `, eventLink(row.partner + 1)", "shows_each_event joined"),
    ("page/js/rows.mjs", "if (ending) {\n      active", "if (false) {\n      active", "shows_each_event differs"),
    ("page/js/joins.mjs", "if (row.broken) {", "if (false) {", "shows_each_event unanswered"),
    ("page/js/commands.mjs", "`'${text.replaceAll(\"'\", \"'\\\\''\")}'`", "`'${text}'`", "shows_commands_that_work"),
    ("page/js/columns.mjs", "`Line ${line + 1} before", "`Line ${line} before", "shows_the_columns"),
    ("page/js/overview.mjs", "const version = row.version === null", "const version = row.version === 1", "shows_documents"),
    ("page/js/versions.mjs", "choices[1].selectedIndex = second", "choices[1].selectedIndex = second - 1", "compares_versions"),
    ("page/js/lanes.mjs", "if (this.isPrinting) {", "if (false) {", "says_what_is_not_printed"),
    ("page/js/lanes.mjs", "this.place(placesFrom(first, last), ", "this.place([first], ", "prints_each_row"),
    ("page/js/lanes.mjs", '?.querySelector(".say, .wide")?.focus({ preventScroll: true })', "", "says_what_is_selected"),
    ("page/js/smallest.mjs", "=== \"---\").length + 1", "=== \"---\").length", "has_the_smallest_session small"),
]


def has_browser():
    """Whether the tests of page/run in a browser can be run here."""
    python = ["/usr/bin/python3", "-c", "import selenium"]
    needed = all(map(shutil.which, ("chromium", "chromedriver", "pdftotext")))
    return needed and subprocess.run(python, stderr=subprocess.DEVNULL).returncode == 0


# The same for the alarm of the proxy and tests/proxy/run.
BROKEN_ALARMS = [
    ("proxy/alarm.py", '[-1]["is"] in ("usually", "so")', '[-1]["is"] != ""', "check: in pieces"),
    ("proxy/alarm.py", "if not self.has_stopped", "if True", "check: lspcheck ends"),
    ("proxy/alarm.py", 'it["is"] == "ends" for', "True for", "check: notes"),
    ("proxy/alarm.py", "status == BAD_WORDS", "False", "check: an older lspcheck"),
]


# The same for lspcheck-replay and replay/run.
BROKEN_REPLAYS = [
    ("servers/asking.py", "    except TimedOut:\n        return Asking(setting, documents, plan).answers(feed)\n", "    finally:\n        pass\n",
     "keeps_what_it_found_when_a_server_is_busy"),
    ("servers/comparison.py", "        return NOTHING if is_empty else SAME", "        return SAME", "says_why_nothing_can_be_said"),
    ("servers/comparison.py", " or all(shows(key, told, it) for it in (one, other))", "", "sees_a_line_too_many_at_the_end"),
    ("servers/languages.py", ', last=" void q() {\\n"', "", "sees_a_line_too_many_at_the_end"),
    ("servers/comparison.py", "    if last_of(replayed) == last_of(fresh):", "    if True:", "cuts_long_answers"),
    ("servers/comparison.py", "any(last_of(it) != last_of(fresh) for it in others)", "False", "says_nothing_of_answers_that_change"),
    ("servers/asking.py", "if not passes(answer)", "if True", "asks_again_after_an_error_that_passes"),
    ("servers/comparison.py", "        pairs = (replays[0], spared), (replays[1], fresh)", "        pairs = ()", "accuses_no_right_text_for_what_it_sends"),
    ("servers/asking.py", "len(it.messages) if self.plan.sends_more else 0", "int(self.plan.sends_more)", "accuses_no_right_text_for_what_it_sends"),
    ("servers/comparison.py", "(opened, again, spared)", "(opened, again)", "accuses_no_right_text_for_what_it_sends"),
    ("servers/crashes.py", "        self.asks = False\n", "", "finds_the_message_that_ends_the_server"),
    ("servers/drive.py", "for request in step.answered_before:", "for request in ():", "writes_the_session"),
    ("servers/drive.py", "self.running < self.most", "True", "runs_as_many_servers_as_it_says"),
    ("servers/folders.py", '".." not in parts and ', "", "gets_no_folder_but_those_of_map"),
    ("servers/folders.py", 'path.startswith(old + "/")', "path.startswith(old)", "puts_other_folders"),
    ("servers/folders.py", "item if name in TEXTS else ", "", "puts_other_folders"),
    ("servers/overwriting.py", "return Overwriting(changes, ", "return Overwriting([], ", "names_what_shows_in_no_answer"),
    ("replay/points.py", "for uri in silent if len(uris) > 1 else ()", "for uri in ()", "names_a_lost_open"),
    ("replay/points.py", "count % self.every == 0", "count % self.every == 2", "every_finds_it_in_a_closed_document"),
    ("servers/questions.py", "        run.hear_all()\n", "        pass\n", "sees_what_diagnostics_alone_show"),
    ("servers/recording.py", "int(no[1]) - 1", "int(no[1])", "replays_as_far_as_it_goes"),
    ("servers/replies.py", "left.popleft() if left else ", "", "writes_the_session"),
    ("servers/report.py", "max(first - BEFORE, 0)", "0", "cuts_long_answers"),
    ("servers/report.py", "        with WRITING:\n            if PROCESSES.is_over:", "        if True:\n            if False:",
     "says_nothing_of_servers_that_it_killed"),
    ("servers/report.py", "members = sorted(members, key=lambda it: is_of_program(*it))", "", "lists_what_is_left_out"),
    ("servers/comparison.py", "        if start:\n", "        if False:\n", "names_a_document_opened_again"),
    ("replay/search.py", "if found.is_too_far and agreed else found", "if False else found",
     "names_the_first_where_names_show_nothing"),
    ("servers/sending.py", "message.asked not in shapes.ANSWERS", "False", "runs_nothing_that_a_log_says"),
    ("servers/sending.py", "found == value and not is_repeated", "True", "runs_nothing_that_a_log_says"),
    ("servers/shapes.py", "any(map(OBEYED.search, (value, unquote(value))))", "False", "runs_nothing_that_a_log_says"),
]


# The same for lspcheck-fuzz and fuzz/run.
BROKEN_HUNTS = [
    ("fuzz/cases.py", "if edit.past and is_line_end(text, at)", "if edit.past", "sessions_are_legal"),
    ("fuzz/cases.py", "return at - 1 if text[at - 1 : at + 1] == ", "return at if text == ", "sessions_are_legal"),
    ("fuzz/cases.py", "+= 1 + skipped", "+= skipped", "sessions_are_legal"),
    ("fuzz/stores.py", "        start = end.end()\n", "        start = end.start()\n", "right_store_holds_the_right_text"),
    ("fuzz/causes.py", "if self.is_same(answers, way)", "if not self.is_same(answers, way)", "writes_each_value"),
    ("fuzz/confirming.py", "if fault or differing(questions) else None", "if True else None", "counts_only_what_fresh_servers_show"),
    ("fuzz/editing.py", "if feature_with(it) in kinds", "if True", "sessions_begin_with_the_text_that_is_given"),
    ("fuzz/greeting.py", "if own or not verdicts:", "if False:", "says_that_a_session_is_not_legal"),
    ("servers/server.py", "self.fault = TOO_DEEP", "pass", "answers_values_that_are_nested_too_deep"),
    ("fuzz/schedule.py", "- set(ASKED_FOR)", "", "leaves_out_what_it_is_told"),
    ("fuzz/schedule.py", "named - set(without)", "named", "leaves_out_what_it_is_told"),
    ("fuzz/shrinking.py", "                self.drop_text(number)\n", "                pass\n", "writes_each_value"),
    ("fuzz/shrinking.py", "or time.monotonic() > self.end", "", "tries_nothing_when_the_time_is_over"),
    ("fuzz/stores.py", 'encoding="utf-32"),', 'encoding="utf-8"),', "writes_each_value"),
    ("fuzz/telling.py", "path if number == 1 else", "path if number else", "finds_one_behind_the_other"),
]


# The same for recorders/shrink and tests/shrink/run.
BROKEN_SHRINKS = [
    ("shrink/command.py", "range(201, 703)", "range(101, 703)", "says_why_nothing_is_shrunk"),
    ("shrink/command.py", "        except Stopped as signalled:\n            stopped = signalled\n        finally", "        finally",
     "writes_the_smallest_so_far"),
    ("shrink/case.py", '" ".join(it.split()) for it', "it for it", "writes_the_messages_for_clangd"),
    ("shrink/events.py", "for it in about if it.event.event >= base", "for it in () if base", "leaves_out_changes_of_other_lines"),
    ("shrink/events.py", "if not self.is_older(it) or it is last", "", "shortens_a_late_702"),
    ("shrink/judge.py", "self.words == found", "self.words[0] == found[0]", "shortens_a_702"),
    ("shrink/judge.py", "not is_quiet and ", "", "tells_a_terminal_how_far_it_is"),
    ("shrink/lines.py", 'place["line"] - above', 'place["line"]', "shortens_a_702"),
    ("shrink/lines.py", "[it for it in groups if not it & fixed]", "groups", "leaves_out_changes_of_other_lines"),
    ("shrink/lit.py", "---", "", "writes_the_messages_for_clangd"),
    ("shrink/members.py", "path[:-1] == ELEMENTS.get(item.event.rule)", "False", "shortens_what_breaks_rules_of_changes"),
    ("shrink/members.py", "is_compared = any(", "is_compared = False and any(", "keeps_texts_that_are_compared"),
    ("shrink/names.py", "if is_spelling:", "if False:", "keeps_how_names_are_spelled"),
]


def copied(top):
    """Copies what these scripts are made of. Each row starts many of them, so their bytecode is kept."""
    for folder in ["fuzz", "page", "replay", "recorders", "scripts", "tests", "examples", "docs"]:
        shutil.copytree(TOP / folder, top / folder)
        compileall.compile_dir(top / folder, quiet=1)
    return top


@contextlib.contextmanager
def planted(path, old, new):
    """Replaces a text in a file, for a while. Gives whether it is there."""
    text = path.read_text()
    path.write_text(text.replace(old, new))
    yield old in text
    path.write_text(text)


def on_script(program, runner, broken):
    """What runs a script, with that as it is, and with one thing broken."""
    with tempfile.TemporaryDirectory() as name:
        top = copied(Path(name))
        tests = sorted({test for *_, test in broken})
        whole = subprocess.run([top / runner, program, *tests], capture_output=True)
        yield f"{runner}: nothing is broken", whole.returncode == 0
        for file, old, new, test in broken:
            with planted(top / "scripts/lsptools" / file, old, new) as is_there:
                done = subprocess.run([top / runner, program, test], capture_output=True)
            yield f"{runner}: {file} without {old}", is_there and b"FAILED " in done.stdout


def counts_of(browser, test):
    """How many tests of this name passed and failed in a browser: none if it has ended."""
    with contextlib.suppress(OSError):
        browser.stdin.write(f"{test}\n")
        browser.stdin.flush()
        for line in browser.stdout:
            if counts := re.fullmatch(r"(\d+) (\d+)\n", line):
                return int(counts[1]), int(counts[2])
    return 0, 0


def on_browser(program):
    """What is false on a page. One browser tries each test with it, and then as it is."""
    passed, failed = [], []
    with tempfile.TemporaryDirectory() as name:
        top = copied(Path(name))
        with subprocess.Popen([top / "page/run", "--asked", program], **PIPES) as browser:
            for file, old, new, test in LYING_PAGES:
                with planted(top / "scripts/lsptools" / file, old, new) as is_there:
                    _, is_seen = counts_of(browser, test)
                yield f"page/run: {file} without {old}", is_there and is_seen > 0
                found = counts_of(browser, test)
                passed, failed = [*passed, found[0]], [*failed, found[1]]
            browser.stdin.close()
    yield "page/run: nothing is broken in a browser", min(passed) > 0 and max(failed) == 0


# What is wrong with the package, each as a module, a text and its replacement, and the words for it.
MISPLACED = {
    "a part imports another": (
        "page/hunks.py", "import cut", "import cut as it, cut\nfrom lsptools.shrink.case import CHANGE", "page imports shrink"),
    "a shared part imports one above it": (
        "base/lines.py", "import re\n", "import re\nfrom lsptools.page import hunks\n", "base imports page"),
    "a part imports one above it": (
        "servers/shapes.py", "import re\n", "import re\nfrom lsptools.fuzz import cases\n", "servers imports fuzz"),
    "a relative name": ("page/hunks.py", "from lsptools.page.wording", "from .wording", "page imports wording"),
    "the package as a whole": ("base/lines.py", "import re\n", "import re\nimport lsptools\n", "base imports the package"),
    "what one part uses is in a shared one": (
        "shrink/lines.py", "from lsptools.base.lines import LINE", "LINE = 1", "in base, but used by page alone"),
    "a long file": ("base/lines.py", "import re\n", "import re\n" + "\n" * 500, "more than 500 lines"),
    "a long style": ("page/page.css", "\n", "\n" * 500, "more than 500 lines"),
}
UNUSED = {"an import without a use": ("base/lines.py", "import re\n", "import re\nimport os\n", "'os' imported but unused")}


def on_package():
    """tests/scripts, over the package with one thing broken."""
    broken = {**MISPLACED, **(UNUSED if shutil.which("pyflakes3") else {})}
    with tempfile.TemporaryDirectory() as name:
        top = Path(name)
        shutil.copytree(TOP / "scripts", top / "scripts")

        def said():
            done = subprocess.run([TOP / "tests/scripts", top], capture_output=True, text=True)
            return done.returncode, done.stdout

        yield "tests/scripts: nothing is broken", said()[0] == 0
        for what, (file, old, new, words) in broken.items():
            path = top / "scripts/lsptools" / file
            text = path.read_text()
            path.write_text(text.replace(old, new, 1))
            status, shown = said()
            yield f"tests/scripts: {what}", status == 1 and f": {words}\n" in shown
            path.write_text(text)


def parts(program):
    """The parts, each of which yields the name of a check and whether it noticed what was broken."""
    yield from [on_browser(program)] if has_browser() else []
    for runner, broken in [
        ("page/run", BROKEN_PAGES), ("replay/run", BROKEN_REPLAYS), ("fuzz/run", BROKEN_HUNTS),
        ("tests/shrink/run", BROKEN_SHRINKS), ("tests/proxy/run", BROKEN_ALARMS),
    ]:
        yield on_script(program, runner, broken)
    yield on_package()
