#!/usr/bin/env python3
"""Renames goals and steps in a crate's proof files after an edit of its source.

usage: follow_names.py BEFORE AFTER CRATE-FOLDER

BEFORE and AFTER are the names.json of `rt check --generated DIR --old-names` without and with the edit. The check names goals
and steps after the source, so an edit of a condition changes their names, and an answer under an old name would be refused for
that alone. Under the new names it is refused only if what it shows no longer follows.
"""

import difflib
import json
import os
import re
import sys


def by_place(function):
    """The names of a function's goals, steps, places, loops and tests, each beside a name that does not go by the source's text."""
    places = function["places"]
    return [
        [(old, new) for old, new in function["needs"]],
        [(place[0], place[2][1]) for place in places],
        [(place[0], name) for place, name in zip(places, function["places_by_name"])],
        [(loop[0][0], loop[0][1]) for loop in function["loops"]],
        # What a test says of its condition, whose field differs where the condition is a negation.
        [(place[0] + said, place[2][1] + "." + dict(place[4]).get(said, said)) for place in places for said in ("true", "false")],
    ]


def renamed(before, after):
    names = {}
    for old, new in zip(by_place(before), by_place(after)):
        kinds = difflib.SequenceMatcher(None, [it[0] for it in old], [it[0] for it in new], autojunk=False)
        for tag, i, j, k, _ in kinds.get_opcodes():
            if tag == "equal":
                names.update((o, n) for (_, o), (_, n) in zip(old[i:j], new[k:]) if o and n and o != n)
    return names


def follow(path, names):
    with open(path, encoding="utf-8") as f:
        text = f.read()
    words = "|".join(re.escape(it) for it in sorted(names, key=len, reverse=True))
    with open(path, "w", encoding="utf-8") as f:
        f.write(re.sub(rf"(?<![\w'-])({words})(?![\w'-])", lambda m: names[m.group(1)], text))


def main():
    before, after = (json.load(open(path, encoding="utf-8")) for path in sys.argv[1:3])
    for key, function in before.items():
        other = after.get(key)
        if not other or "needs" not in function or "needs" not in other:
            continue
        names = renamed(function, other)
        folder = re.sub(r"^Rattle-\w+-proofs\.(.*)\.Lts$", r"\1", key).replace(".", "/")
        for file in ("Answers.antt", "Invariants.antt"):
            path = os.path.join(sys.argv[3], "proofs", folder, file)
            if names and os.path.exists(path):
                follow(path, names)


if __name__ == "__main__":
    main()
