#!/usr/bin/env python3
"""Respells this repository's own definitions and lemmas: functions, fields and lemmas in snake case.

Run once at the top, after the port's own script. A dash goes on joining two names, and each part of a name is respelled by
itself; types, modules and constructors keep their capitals. Names that Rust's code has stay as they are.
"""

import collections
import os
import re
import sys

TOKEN = re.compile(r'[^\s(){}.;,@"«»\[\]:|=→×↦λ`]+')

# Names whose plain respelling stands for something else in the same place: a parameter, or a lemma.
OTHER = {
    "inOrder": "is_in_order",
    "receiverTicks": "ticks_of_receiver",
    "receiverCounts": "counts_of_receiver",
    "threeInts": "rule_of_ints",
}

# A part of a name that the library spells anew.
PARTS = {"getD": "get_or"}

# Lemmas that would fall together with a definition, by crate.
LEMMAS = {"crates/delta_source/": {"id_range": "id-range"}}


def is_camel(part):
    return part[0].islower() and re.search(r"[a-z0-9₀-₉][A-Z]", part)


def snake(part):
    return re.sub(r"(?<=[a-z0-9₀-₉])([A-Z])", lambda m: "_" + m.group(1), part).lower()


def turned(name):
    if name in OTHER:
        return OTHER[name]
    parts = [p if not p else PARTS.get(p) or (snake(p) if is_camel(p) else p) for p in name.split("-")]
    return "-".join(parts)


def files(*ends):
    for top in ("crates", ".ci", "docs"):
        for folder, dirs, names in os.walk(top):
            dirs[:] = sorted(d for d in dirs if d not in ("out", ".git"))
            for name in sorted(names):
                if name.endswith(ends):
                    yield os.path.join(folder, name)


def read(path):
    with open(path, encoding="utf-8") as f:
        return f.read()


def main():
    texts = {p: read(p) for p in files(".antt", ".rt")}
    words = collections.Counter(w for t in texts.values() for w in set(TOKEN.findall(t)))
    names = {w: turned(w) for w in words if turned(w) != w}
    owners = collections.Counter(names.values())
    for old, new in sorted(names.items()):
        if owners[new] > 1:
            sys.exit(f"{old}: another name becomes {new} too")
        if new in words and "-" in new:
            sys.exit(f"{old}: {new} is a lemma already")
    pages = [p for p in files(".edit", ".md") if "/changes/" not in p and not p.endswith("docs/CHANGELOG.md")]
    for path in [*texts, *pages, "README.md", "CONTRIBUTING.md"]:
        text = texts[path] if path in texts else read(path)
        mine = dict(names)
        for crate, lemmas in LEMMAS.items():
            if path.startswith(crate):
                mine.update(lemmas)
        new = TOKEN.sub(lambda m: mine.get(m.group(0), m.group(0)), text)
        if new != text:
            with open(path, "w", encoding="utf-8") as f:
                f.write(new)
    print(f"{len(names)} names respelled")


if __name__ == "__main__":
    main()
