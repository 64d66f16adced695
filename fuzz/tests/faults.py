"""Each fault of a server is found, with its feature and its cause; and the small case shows it again."""

from hunts import SERVER, check, drifts, objects_of, replayed, run_longer, side_by_side, until_found
from lsptools.fuzz import cases, causes, greeting, live
from lsptools.servers import folders, languages
from processes import SECONDS

# The faults of the server; the features of which one names the drift; and its cause.
FAULTS = [
    (["characters"], ["astral"], "counts characters"),
    (["bytes"], ["astral", "combining"], "counts bytes"),
    (["utf-8", "units"], ["encodings"], "counts UTF-16 units"),
    (["utf-32", "units"], ["encodings"], "counts UTF-16 units"),
    (["cr"], ["cr"], "a lone CR ends no line"),
    (["crlf"], ["crlf"], "CR LF ends two lines"),
    (["formfeed"], ["separators"], "form feed ends a line"),
    (["separators"], ["separators"], "vertical tab, form feed, U+001C, U+001D, U+001E, U+0085, U+2028, U+2029 end a line"),
    (["past=next"], ["past-end"], "runs into the next line"),
    (["past=after"], ["past-end"], "stands after the line end"),
    (["past=ignored"], ["past-end"], "change ignored"),
    (["past=dropped"], ["past-end"], "document dropped"),
    (["beyond"], ["past-last"], "change ignored"),
    (["disk"], ["opening"], "text of didOpen ignored"),
    (["ignores=😀"], ["astral"], "change ignored"),
    (["drops=é"], ["combining"], "document dropped"),
    (["dies=😀"], ["astral"], "server ends"),
    (["backwards"], ["several"], "changes of a message made backwards"),
    (["first"], ["several"], "only the first change of a message made"),
    (["final"], ["several"], "only the last change of a message made"),
    (["together"], ["several"], "all ranges of a message mean the text before it"),
    (["whole"], ["whole"], "changes without a range ignored"),
    (["gaps"], ["versions"], "a change whose version leaves some out is ignored"),
    (["keeps"], ["reopening"], "text before didClose kept"),
    (["lf", "formats"], ["crlf"], "CR LF becomes LF"),
    (["nfc"], ["combining"], "text is composed (NFC)"),
    (["newline", "formats"], ["no-last-end"], "last line gets a line end"),
    (["length"], ["range-length"], "change ignored"),
    (["busy"], ["requests"], "change ignored"),
    (["closed"], ["deleting"], "end of a range belongs to it"),
    (["narrow"], ["long"], "columns have 8 bits"),
    (["ignores=😀", "strict"], ["astral"], "change ignored"),
    (["cr", "past=dropped"], ["cr", "past-end"], None),
]
# The features whose small cases are replayed, even where the hunt has them alone.
REPLAYED = ("astral", "cr", "opening", "past-end", "whole")
# The seeds, and within how many seconds each fault is found on an idle machine; a busy one gets ten
# times as many.
SEEDS, MOST = (1, 2, 3, 4, 5), 30


def is_found(program, place, faults, features, cause, seed, is_only=False):
    """The drift is found and explained; and what is written is legal, and shows it again."""
    small = place / f"{'-'.join(faults).replace('/', '_')}-{seed}.log"
    options = ["--small", small, "--seconds", 10 * MOST]
    if is_only or "past-last" in features:
        options += ["--only", ",".join("typing" if it == "opening" else it for it in features)]
    objects = until_found(program, *faults, options=options, seed=seed)
    found = drifts(objects)
    assert len(found) == 1, objects
    assert found[0]["feature"] in features and (cause is None or found[0]["causes"] == [cause]), found
    assert check(program, small) == "yes", small.read_bytes()
    if not is_only or features[0] in REPLAYED:
        again = replayed(program, small, *faults)
        assert again.returncode == 1, (again.stdout, again.stderr)


def finds_each_fault(program, place):
    """In sessions of its feature alone."""
    side_by_side(is_found, [(program, place, *row, 1, True) for row in FAULTS])


def finds_each_fault_among_all_features(program, place):
    side_by_side(is_found, [(program, place, *row, seed) for row in FAULTS for seed in SEEDS])


def finds_one_behind_the_other(program, place):
    """A known fault hides no other."""
    small = place / "small.log"
    objects = until_found(program, "characters", "cr", "past=next", count=3, options=["--small", small])
    names = [small, place / "small-2.log", place / "small-3.log"]
    assert [it["file"] for it in objects if it["is"] == "small"] == list(map(str, names)), objects
    found = sorted((it["feature"], *it["causes"]) for it in drifts(objects))
    wanted = [("astral", "counts characters"), ("cr", "a lone CR ends no line"), ("past-end", "runs into the next line")]
    assert found == wanted, found


def explains_what_looks_otherwise(program, place):
    """A text that was emptied, in a server for which it has no second line, as rust-analyzer 1.85.1, or no first
    one either, as gopls 0.5.0; and columns that would be right in bytes, too, as in pylsp 1.7.1."""
    separators = "vertical tab, form feed, U+001C, U+001D, U+001E, U+0085, U+2028, U+2029 end a line"
    for faults, text, edit, wanted in (
        (["separators", "past=after", "formats"], "\u2028xv", cases.Edit(1, 2, ""), separators),
        (["past=after", "beyond=alone", "formats"], ")\n", cases.Edit(0, 1, "", past=1), "stands after the line end"),
        (["cr", "past=go"], "\r\r", cases.Edit(0, 1, ""), "a lone CR ends no line"),
    ):
        command = [*map(str, SERVER), *faults]
        target = greeting.Target(program, command, place, folders.Folders([], place), place, SECONDS, 1)
        case = cases.Case((text,), (cases.Step(0, (edit,)),))
        greeted, language = greeting.Greeting(target, ["utf-16"]), greeting.Language("c")
        with live.Live(greeted, language, languages.FORMS["c"]) as server:
            assert server.differing(case)
            cause = causes.Explaining(server).cause(case, case)
        assert str(cause) == wanted, (faults, cause)


def counts_only_what_fresh_servers_show(program, place):
    """Changes that are ignored in a server that had many documents before."""
    is_met = lambda it: '"unconfirmed":0' not in it.stdout
    done = run_longer(program, "many=8", options=["--json"], is_wanted=is_met)
    total = objects_of(done)[-2]
    assert done.returncode == 0 and total["drifts"] == 0 and total["unconfirmed"] > 0, done


TESTS = [finds_each_fault, finds_one_behind_the_other, explains_what_looks_otherwise, counts_only_what_fresh_servers_show]
LONG_TESTS = [finds_each_fault_among_all_features]
