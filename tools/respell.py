#!/usr/bin/env python3
"""Brings this repository's own definitions and lemmas to snake case, once, after the kit's port.py.

usage: python3 tools/respell.py      at the top of the repository

A word of a definition or lemma that has a capital inside, as contentsAt, becomes contents_at. Only words that a file of
specs/ or proofs/ names are turned, so Rust names, type names and the library's own names stay. Where the new word would
be that of a function of src/ or of another definition, OTHERWISE names what it becomes instead.
"""

import os
import re

# Words of the library that have a capital inside.
LIBRARY = {"cases_Bool", "is_prop→PathP"}

# Words whose plain respelling is the name of a function of src/ or of another definition.
OTHERWISE = {
    "atItem": "at_known_item",
    "atSlot": "at_known_slot",
    "namesPast": "names_beyond",
    "newestWord": "newest_word_of",
    "oldestWord": "oldest_word_of",
    "readWord": "word_read",
    "smallestOpen": "smallest_open_of",
    "stageOf": "stage_of_number",
    "turnAway": "turned_away",
    "versionAt": "site_version",
    "getD-laid": "get_or-laid",
    "getD-overs": "get_or-overs",
}

# Two definitions were called inUse: of the replicas of a bank, whether one is past version 0; of a layout, the book in use.
IN_USE = {"law": "book_in_use", "book": "book_in_use"}

WORD = re.compile(r"\"[^\"\n]*\"|[A-Za-z_][A-Za-z0-9_'′]*(?:[-→≤][A-Za-z0-9_'′]+)*")
CAPITAL_INSIDE = re.compile(r"(?:^|-)[a-z][a-z0-9_]*[A-Z]")


def texts():
    for folder, dirs, files in os.walk("crates"):
        dirs[:] = sorted(d for d in dirs if d not in ("out", "must-fail", "data"))
        for name in sorted(files):
            if name.endswith((".rt", ".antt")):
                yield os.path.join(folder, name)


def turned(word, crate):
    if word in LIBRARY or not CAPITAL_INSIDE.search(word):
        return word
    if word == "inUse":
        return IN_USE.get(crate, "is_in_use")
    if word in OTHERWISE:
        return OTHERWISE[word]
    return re.sub(r"([a-z0-9])([A-Z])", lambda m: m.group(1) + "_" + m.group(2).lower(), word)


def main():
    own = set()
    for path in texts():
        if path.endswith(".antt"):
            with open(path, encoding="utf-8") as file:
                own.update(WORD.findall(file.read()))
    for path in texts():
        crate = path.split(os.sep)[1]
        with open(path, encoding="utf-8") as file:
            text = file.read()
        old = text.replace("inUse as replicasInUse", "is_in_use as replicas_in_use")
        new = WORD.sub(lambda m: turned(m.group(0), crate) if m.group(0) in own else m.group(0), old)
        if new != text:
            with open(path, "w", encoding="utf-8") as file:
                file.write(new)


main()
