#!/usr/bin/env python3
"""Brings the repository's own names to the spelling of today's Rattle, once, after the kit's port.py.

Definitions, lemmas and fields in snake case (`rowCosts` becomes `row_costs`, `costIn-same` becomes
`cost_in-same`), predicates in camel case. A lemma that would fall together with a definition keeps
the dash that port.py took from it. Functions of src/, exported names and strings keep theirs.
Run at the top of a checkout: python3 tools/respell.py
"""
import glob
import re
import sys

# Lemmas whose dash port.py turned into an underscore, and that a definition's new name would meet.
CLASHES = [
    "listed_then", "kept_in", "same_place", "same_move", "put_first", "next_row", "node_end",
    "column_fits", "hidden_at", "all_after", "by_tests",
]

# Predicates with a small letter: the file, the old name, the new one.
PREDICATES = [
    ("crates/tree/specs/Laws/Putting.antt", "ofMove", "OfMove"),
    ("crates/promises/specs/Laws/Stands.antt", "same", "Same"),
    ("crates/rows/proofs/Lent.antt", "is", "Is"),
]

# Characters that a name of antt can hold.
NAME = r"[^\s(){}\[\],;.:\"«»`]"


def snake(name):
    name = re.sub(r"(^|-)getD(-|$)", r"\1get_or\2", name)
    return re.sub(r"(?<=.)([A-Z])", lambda m: "_" + m.group(1).lower(), name)


def is_camel(name):
    return any(re.match(r"^[a-z][a-z0-9_]*[A-Z]\w*'?$", part) for part in name.split("-"))


def respelled(name):
    parts = []
    for part in re.split(r"(-)", name):
        parts.append(snake(part) if re.match(r"^[a-z][a-z0-9_]*[A-Z]\w*'?$", part) else part)
    return "".join(parts)


def names_of(files):
    found = set()
    for path in files:
        text = re.sub(r"--.*", "", open(path).read())
        found |= {t for t in re.findall(NAME + "+", text) if is_camel(t)}
    return found


def main():
    antt = glob.glob("crates/*/specs/**/*.antt", recursive=True)
    antt += glob.glob("crates/*/proofs/**/*.antt", recursive=True)
    source = glob.glob("crates/*/src/*.rt")
    edits = glob.glob("crates/*/must-fail/*.edit")
    pages = ["README.md"] + [p for p in glob.glob("docs/*.md") if not p.startswith("docs/PORT")]
    camel = names_of(antt)

    for path, old, new in PREDICATES:
        lines = open(path).read().split("\n")
        pattern = r"(?<!%s)%s(?!%s)" % (NAME, old, NAME)
        lines = [x if x.startswith("--") else re.sub(pattern, new, x) for x in lines]
        open(path, "w").write("\n".join(lines))
    for path in antt:
        text = open(path).read()
        for clash in CLASHES:
            pattern = r"(?<!%s)(?<!\.)%s(?!%s)" % (NAME, clash, NAME)
            text = re.sub(pattern, clash.replace("_", "-"), text)
        open(path, "w").write(text)

    def turn(text):
        return re.sub(NAME + "+", lambda m: respelled(m[0]) if m[0] in camel else m[0], text)

    for path in antt:
        text = open(path).read()
        new = turn(text)
        if new != text:
            open(path, "w").write(new)
    for path in source:
        text = open(path).read()
        # Strings keep their text.
        parts = re.split(r'("(?:[^"\\\n]|\\.)*")', text)
        new = "".join(p if i % 2 else turn(p) for i, p in enumerate(parts))
        if new != text:
            open(path, "w").write(new)
    # Edits and pages also have names that port.py turned in the files that they speak of.
    known = set()
    for path in antt + source:
        known |= set(re.findall(NAME + "+", open(path).read()))

    def found(match):
        name = match[0]
        if name in known or not re.search(r"[A-Za-z]", name):
            return name
        for form in (respelled(name), respelled(name.replace("-", "_"))):
            if form in known:
                return form
        # One dash of several may have been turned.
        places = [i for i, c in enumerate(name) if c == "-"]
        forms = [respelled(name[:i] + "_" + name[i + 1:]) for i in places]
        forms = [form for form in forms if form in known]
        return forms[0] if len(forms) == 1 else name

    for path in edits + pages:
        text = open(path).read()
        new = re.sub(NAME + "+", found, text)
        if new != text:
            open(path, "w").write(new)
    for name in sorted(camel):
        print(name, respelled(name), file=sys.stdout)


main()
