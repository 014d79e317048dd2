#!/usr/bin/env python3
"""Brings the definitions and lemmas of this repository to the spelling of today's Rattle: words in snake case, types and facts in camel case.
usage: tools/spelling.py [--check] [FOLDER]
It turns whole words, in .antt files and in the clauses, ghost items and ghost imports of .rt files, and prints names that fall together.
Answers to goals keep their names: Rattle makes those. A second run changes nothing."""

import glob
import re
import sys

WORD = re.compile(r'[^\s(){}.;,@"«»]+')
HEAD = re.compile(r"^(\s*)((?:pub |abbrev |unfoldable |record |data |ruleset )*)([^\s(){}.;,@\"«»]+)(?=[\s(){}].*?:|:| :)(.*)$")
GHOST = re.compile(r"^\s*(?:pub )?(?:ghost\b|ensures\b|requires\b|decreases\b|invariant\b)")
RUST = re.compile(r"\b[a-z][a-z0-9]*(?:_[a-z0-9]+)+\b")

# lemmas that would fall together with the definition that they are about, and constructors and tests that would with another crate's
BY_HAND = {
    "ends-with": "ends_with_lem",
    "file-trials": "file_trials_lem",
    "is-nothing": "is_nothing_lem",
    "looked-up": "looked_up_lem",
    "of-exports": "of_exports_lem",
    "string-of": "string_of_lem",
    "isArray": "is_array_kind",
    "isString": "is_string_kind",
}
# the same, where a name turns otherwise in one place: the beginning of a path, and its rows (in a first run alone, in which digitValue stands)
BY_PLACE = {
    "crates/words/proofs/Back.antt": {"digit_value": "digit_value_lem"},
    "crates/dts_resolver/": {"kind-of": "kind_asked"},
}


def snake(name):
    if name[0].isupper():
        parts = name.split("-")
        return parts[0] + "".join(p[:1].upper() + p[1:] for p in parts[1:])
    turned = re.sub(r"(?<=[a-z0-9])([A-Z])(?=[a-z])", lambda m: "_" + m[1].lower(), name)
    return turned.replace("-", "_")


def own(path):
    """The names that a file of specs/ or proofs/ declares, but for answers to goals."""
    names = set()
    for line in open(path, encoding="utf-8"):
        if line.lstrip().startswith(("--", "use ", "open ", "let ", "in ", "elim ")):
            continue
        m = HEAD.match(line.rstrip("\n"))
        if not m:
            continue
        before, _, rest = m[4].partition(":")
        if re.search(r"(?:^|\s)=(?:\s|$)", before):
            continue  # an equation, whose name stands on an earlier line
        if re.match(r"\s*(?:need|goal)\.", rest) or m[3] in ("module", "mutual", "where", "pub", "abbrev", "unfoldable", "record", "data", "ruleset"):
            continue
        names.add(m[3])
    text = open(path, encoding="utf-8").read()
    for m in re.finditer(r"(?m)^use .*", text):
        names |= set(re.findall(r" as ([a-z][^\s,}]*)", m[0]))
    return names


def table(folder):
    names, rust = set(), set()
    for kind in ("specs", "proofs"):
        for path in glob.glob(f"{folder}/crates/*/{kind}/**/*.antt", recursive=True):
            names |= own(path)
    for path in glob.glob(f"{folder}/crates/*/src/**/*.rt", recursive=True):
        rust |= set(RUST.findall(open(path, encoding="utf-8").read()))
    rows = {}
    for name in names:
        if not re.match(r"[A-Za-z]", name) or re.search(r"[^A-Za-z0-9_'-]", name):
            continue
        new = BY_HAND.get(name, snake(name))
        if new != name:
            rows[name] = new
    for name in rust:
        rows.setdefault(name.replace("_", "-"), name)
    return rows, names


def main():
    args = [a for a in sys.argv[1:] if a != "--check"]
    folder = args[0] if args else "."
    rows, names = table(folder)
    back = {}
    for old in sorted(set(rows) | names):
        back.setdefault(rows.get(old, old), []).append(old)
    for new, olds in sorted(back.items()):
        if len(olds) > 1 and sum(o in names for o in olds) > 1:
            print("together:", new, "from", ", ".join(olds))

    def turn(text):
        return WORD.sub(lambda m: here.get(m[0], m[0]), text)

    count = 0
    paths = [p for kind in ("src", "specs", "proofs") for p in glob.glob(f"{folder}/crates/*/{kind}/**/*", recursive=True)]
    for path in sorted(paths):
        if not path.endswith((".antt", ".rt")):
            continue
        text = open(path, encoding="utf-8").read()
        here = dict(rows)
        for place, more in BY_PLACE.items():
            if path.startswith(f"{folder}/{place}") and "digitValue" in rows:
                here.update(more)
        if path.endswith(".antt"):
            new = turn(text)
        else:
            new = "".join(turn(l) if GHOST.match(l) else l for l in text.splitlines(True))
        if new != text:
            count += 1
            if "--check" not in sys.argv:
                open(path, "w", encoding="utf-8").write(new)
    print(f"spelling: {len(rows)} names, {count} files")


main()
