#!/usr/bin/env python3
"""Brings the repository's own definitions and lemmas to the spelling of today's Rattle: words in snake case.

usage: tools/respell.py [--check] [FOLDER]    once, after port.py; FOLDER is the repository, else the working folder

A word that begins in lower case and has a capital after it (`fromBytes`, the second part of `length-vectorBytes`) is a name of
the older spelling: no name of src/ has that form. Each is turned wherever it stands in crates/ (.rt, .antt, .edit). Words that
stand for the kit's own names of old are turned as the kit turned them (OWN). --check writes nothing and prints each file in
which a new spelling would fall together with a word that stands there already.
"""
import os
import re
import sys

WORD = re.compile(r"(?<![A-Za-z0-9_'])[a-z][a-z0-9]*[A-Z][A-Za-z0-9]*(?![A-Za-z0-9_'])")
PART = re.compile(r"[A-Za-z0-9_'\u2115]+")
# The kit's own respelling of a word; and nWrites, which is no name here but the requirements' word, in comments.
OWN = {
    "getD": "get_or",
    "nWrites": "nWrites",
}
# Lemmas whose names would fall together with those of definitions: they get the dash back that they had before port.py.
APART = [
    ("crates/laws/", "raised_by", "raised-by"),
    ("crates/laws/proofs/Phones.antt", "reads_ok", "reads-ok"),
    ("crates/farm/proofs/Demands.antt", "all_sound", "all-sound"),
]


def snake(word):
    if word in OWN:
        return OWN[word]
    s = re.sub(r"([a-z0-9])([A-Z])", r"\1_\2", word)
    s = re.sub(r"([A-Z])([A-Z][a-z])", r"\1_\2", s)
    return s.lower()


def files(root):
    for folder, dirs, names in os.walk(os.path.join(root, "crates")):
        dirs[:] = sorted(d for d in dirs if d not in ("out", "target"))
        for n in sorted(names):
            if n.endswith((".rt", ".antt", ".edit")):
                yield os.path.join(folder, n)


def main(argv):
    check = "--check" in argv
    rest = [a for a in argv if a != "--check"]
    root = rest[0] if rest else "."
    seen = {}
    for path in files(root):
        with open(path, encoding="utf-8") as f:
            text = f.read()
        for place, old, new in APART:
            if place in path.replace(os.sep, "/"):
                text = re.sub(rf"(?<![A-Za-z0-9_'.]){old}(?![A-Za-z0-9_'-])", new, text)
        words = set(WORD.findall(text)) - {w for w, o in OWN.items() if w == o}
        if not words:
            continue
        there = set(PART.findall(text))
        for w in sorted(words):
            seen.setdefault(w, set()).add(path)
            if snake(w) in there:
                print(f"{path}: {w} falls together with {snake(w)}")
        if not check:
            with open(path, "w", encoding="utf-8") as f:
                f.write(WORD.sub(lambda m: snake(m[0]), text))
    if check:
        turned = {}
        for w in seen:
            turned.setdefault(snake(w), []).append(w)
        for t, ws in sorted(turned.items()):
            if len(ws) > 1:
                print(f"{t}: of {', '.join(sorted(ws))}")
    print(f"{len(seen)} words")


if __name__ == "__main__":
    main(sys.argv[1:])
