"""Gives documents short names."""

import json
import os
from dataclasses import replace

LETTERS = "abcdefghijklmnopqrstuvwxyz"


def names_in(value):
    """The texts in a JSON value that name a file."""
    if isinstance(value, str) and value.startswith("file:"):
        yield value
    elif isinstance(value, (dict, list)):
        for it in value.values() if isinstance(value, dict) else value:
            yield from names_in(it)


def renamed(value, names):
    """A JSON value in which each text that is the name of a document is its new one."""
    if isinstance(value, dict):
        return {name: renamed(it, names) for name, it in value.items()}
    if isinstance(value, list):
        return [renamed(it, names) for it in value]
    return names.get(value, value) if isinstance(value, str) else value


def short_names(case, is_spelling):
    """New names for all documents, the one of the violation first. If it matters how they are
    spelled, only the folder that all are in is left out."""
    about = [it.uri for it in (*case.items[-1:], *case.items)]
    others = (name for it in case.items for name in names_in(it.value))
    uris = list(dict.fromkeys(it for it in (*about, *others) if it))
    if is_spelling:
        size = os.path.commonprefix(uris).rfind("/") + 1
        return {it: f"file:///{it[size:]}" for it in uris}
    return {uri: f"file:///{letter}" for letter, uri in zip(LETTERS, uris)}


def item_with(item, names):
    """An event with other names of documents."""
    other = item.with_value(renamed(item.value, names)) if item.value else item
    return replace(other, uri=names.get(item.uri, item.uri))


def shown(name):
    """A name as explanations show it."""
    return json.dumps(name, ensure_ascii=False)


def shorten_names(judge, case):
    """The case with short names for its documents."""
    names = short_names(case, any(it.startswith("similar ") for it in judge.lines))
    if not names:
        return case
    other = case.of(item_with(it, names) for it in case.items)
    wanted = judge.wanted.renamed({shown(old): shown(new) for old, new in names.items()})
    if not judge.keeps(other, wanted):
        return case
    judge.wanted = wanted
    return other
