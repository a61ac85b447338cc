#!/usr/bin/env python3
"""Brings the repository's own names in specs/ and proofs/ to the spelling of the installed Rattle, once, behind port.py.

usage: python3 tools/spelling.py            at the top of the repository

A word of specs/ or a lemma is in snake case: u64At is u64_at. A dash that joins a field's words in specs/ is an underscore; in a lemma's name a dash stays,
since it joins two names. Types and modules stay. A name is replaced where it stands as a whole word: in .antt files, and in the clauses and `ghost use`
lines of .rt files, whose own names are in snake case already. A lemma that would fall together with the word that it is about ends in _lem.
"""
import os
import re
import sys

DECLARED = re.compile(r"^ *(?:(?:pattern|unfoldable|abbrev|pub|data|record|axiom) )*([^\s(){}.;,@\"«»:]+)(?: \{[^{}\n]*\}| \([^()\n]*\))* :(?= |$)", re.M)
WORD = re.compile(r"[^\s(){}.;,@\"«»:`]+")
# lemmas that have the plain spelling already, each with the file in which alone it turns, or None
LEMMAS = {"part_in": None, "kept_step": None, "some_left": None, "in_order": "table_reason/proofs/Truths.antt"}


def snake(name):
    parts = name.split("-")
    return "-".join(re.sub(r"(?<=[a-z0-9])[A-Z]", lambda m: "_" + m[0].lower(), p) if p[:1].islower() else p for p in parts)


def texts(root):
    for folder, dirs, files in os.walk(os.path.join(root, "crates")):
        dirs[:] = sorted(d for d in dirs if d != "out")
        for f in sorted(files):
            if f.endswith((".antt", ".rt", ".edit")):
                yield os.path.join(folder, f)


def main():
    root = os.getcwd()
    held = {}
    for p in texts(root):
        with open(p, encoding="utf-8") as f:
            held[p] = f.read()
    new = {}
    for p, t in held.items():
        if not p.endswith(".antt"):
            continue
        for m in DECLARED.finditer(t):
            name = m[1]
            to = snake(name)
            if "/specs/" in p and name[:1].islower():
                to = to.replace("-", "_")
            if to != name:
                new[name] = to
    together = 0
    for p, t in held.items():
        words = set(WORD.findall(t))
        turned = {}
        for w in words:
            turned.setdefault(new.get(w, w), set()).add(w)
        for to, them in turned.items():
            if len(them) > 1:
                together += 1
                print(f"together: {p[len(root) + 1:]}: {' '.join(sorted(them))}")
    if "--look" in sys.argv:
        return 0
    changed = 0
    for p, t in held.items():
        to = t
        for name, where in LEMMAS.items():
            if p.endswith(".antt") and (where is None or p.endswith(where)):
                to = re.sub(rf"(?<![^\s(){{}};,@\"«»]){name}(?![^\s(){{}}.;,@\"«»])", name + "_lem", to)
        to = WORD.sub(lambda m: new.get(m[0], m[0]), to).replace("\u2032", "'")
        if to != t:
            changed += 1
            with open(p, "w", encoding="utf-8") as f:
                f.write(to)
    print(f"spelling: {len(new)} names, {changed} files, {together} that fall together")
    return 0


if __name__ == "__main__":
    raise SystemExit(main())
