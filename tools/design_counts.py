#!/usr/bin/env python3
"""Counts in crates/*/src the places that docs/DESIGN-PASS.md speaks of, point by point; -v lists them.
usage: tools/design_counts.py [-v] [FOLDER]   FOLDER: a checkout; without it, the one that this file is in
"""
import collections
import pathlib
import re
import sys

words = [w for w in sys.argv[1:] if w != "-v"]
verbose = "-v" in sys.argv
root = pathlib.Path(words[0]) if words else pathlib.Path(__file__).parent.parent
files = {p: p.read_text() for p in sorted(root.glob("crates/*/src/**/*.rt"))}
NOTHING = "Refused|Bad|None|Short|Other|Nothing|Unknown|Odd|Some|NotYet|Sound"


def crate(path):
    return path.relative_to(root).parts[1]


def places(pattern, flags=re.M):
    """Each match, as (crate, line, text)."""
    for path, text in files.items():
        for m in re.finditer(pattern, text, flags):
            yield crate(path), text.count("\n", 0, m.start(1)) + 1, m[1].strip()


def say(what, found):
    found = list(found)
    print(f"{len(found):5}  {what}")
    if verbose:
        for it in found:
            print("         " + " ".join(map(str, it)))


def functions():
    """Each function, as (crate, name, parameters, contract, body)."""
    for path, text in files.items():
        for m in re.finditer(r"^( *)(?:pub )?(?:extern \"C\" )?fn (\w+)(?:<[^>]*>)?\(([^)]*)\)(.*?)^\1\{\n(.*?)^\1\}$", text, re.M | re.S):
            yield crate(path), m[2], m[3], m[4], m[5]


def shape(parameters, body):
    """A body with each name but a call's replaced, so that twins have one shape."""
    names = {}
    body = re.sub(r"//.*", "", body)
    out = []
    for word in re.findall(r"\w+|[^\w\s]", parameters + "\n" + body):
        if re.fullmatch(r"\d\w*|[iu](8|16|32|64)|[iu]size", word):
            out.append("N")
        elif re.fullmatch(r"[A-Za-z_]\w*", word) and word not in {"if", "let", "return", "while", "for", "match", "mut", "else", "as", "in"}:
            out.append(names.setdefault(word, f"v{len(names)}"))
        else:
            out.append(word)
    return " ".join(out)


all_functions = list(functions())

print("1. own enums, flags and numbers")
enums = [(c, n, t) for c, n, t in places(r"^\s*((?:pub )?enum \w+ \{.*?^\s*\}$)", re.M | re.S)]
say("enums", [(c, n, t.split("{")[0]) for c, n, t in enums])
say(
    "of these of the shape of Option or Result",
    [(c, n, t.split("{")[0]) for c, n, t in enums if re.search(rf"^\s*({NOTHING})\b", t, re.M) and len(re.findall(r"^    \w", t, re.M)) <= 9],
)
say("flags that say which value holds", places(r"\b((?:has_\w+|packed|present): bool)"))

print("2. twins")
shapes = collections.defaultdict(list)
for c, name, parameters, _, body in all_functions:
    if body.count("\n") >= 3:
        shapes[shape(parameters, body)].append(f"{c}::{name}")
say("groups of functions with one shape, of three lines or more", [(", ".join(v),) for v in shapes.values() if len(v) > 1])

print("3. loops")
say("while loops", places(r"^( *while .*)$"))
say("of these with a step of one", [w for w in places(r"^( *while [^{]*\{\n(?:(?!^ *while ).)*?\b\w+ [+-]= 1;)", re.M | re.S)])
say("for loops", places(r"^( *(?:'\w+: )?for .*)$"))

print("4. written by hand")
say("comparisons, conversions and copies of `ints` and `ticks`, as calls", places(r"(\b(?:ints::(?:same|one_if)\(|\.is_(?:same|before|negative)\(|error_number\())"))

print("5. repeated facts and parameters")
facts = collections.Counter()
for c, name, _, contract, _ in all_functions:
    found = " ".join(re.findall(r"requires(?: \w+)? \{(.*?)\}$", contract, re.M))
    for word in set(re.findall(r"\b([A-Z]\w+) [«(a-z]", found)):
        facts[word] += 1
say("facts that three functions or more require", [(k, v) for k, v in facts.most_common() if v >= 3])
groups = collections.Counter()
for c, name, parameters, _, _ in all_functions:
    names = re.findall(r"(\w+):", parameters)
    groups.update((c, *names[i : i + 3]) for i in range(len(names) - 2))
say("three parameters that stand together in five functions or more", [(*k, v) for k, v in groups.most_common() if v >= 5])

print("6. buffers")
say("slices with a length beside them, as parameters", places(r"(\w+: &(?:mut )?\[\w+\],\s*(?:n|m|z|nb|nt|count|len|items|ints): usize)"))

print("7. switches on a step")
say("branches on which source is read", places(r"^( *(?:if packed|if !packed|match (?:sort|fate|subject|next)\b).*)$"))

print("8. proofs")
answers = [p for p in sorted(root.glob("crates/*/proofs/**/Answers.antt"))]
lines = sum(p.read_text().count("\n") for p in answers)
print(f"{len(answers):5}  files of answers, {lines} lines")
