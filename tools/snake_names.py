#!/usr/bin/env python3
"""Brings the repository's own definitions and lemmas to snake case, as today's Rattle spells them.

usage: python3 tools/snake_names.py [--look]      at the top of the repository

A name is turned where a file of specs/ or proofs/ declares it (a definition, a lemma, a field, a constructor, a module's parameter) and
it has a capital behind a small letter or a digit, as isFormula. Types, modules and the parts of a name that begin with a capital stay.
Functions of src/, strings, and names of the kit's libraries are not touched. --look writes nothing, and says which names fall together.
"""
import collections
import glob
import os
import re
import sys

WORD = re.compile(r"[A-Za-z_][\w'₀₁₂₃₄₅₆₇₈₉]*(?:-[\w'₀₁₂₃₄₅₆₇₈₉≡≤<+*∷]+)*")
OWN = re.compile(r"use\s+(Rattle\.[\w.+]+|[\w.]+)\.\{([^}]*)\}", re.S)


# A lemma that would have its function's name: it gets _lem. By crate, since the name alone may stand elsewhere.
LEMMAS = {
    "as_written": ("demand", "demand_c"),
    "list_read": ("spelling",),
    "load_tree": ("merging", "registers"),
    "raised_by": ("chaining",),
    "run_length": ("reports",),
    "sign_at": ("popping",),
}


def snake_part(part):
    if not part[:1].islower():
        return part
    return re.sub(r"(?<=[a-z0-9'])([A-Z])", lambda m: "_" + m.group(1).lower(), part)


def snake(name):
    return "-".join(snake_part(p) for p in name.split("-"))


def files(patterns):
    out = []
    for p in patterns:
        out += [f for f in glob.glob(p, recursive=True) if "/out/" not in f and os.path.isfile(f)]
    return sorted(set(out))


ANTT = files(["crates/**/*.antt"])
SOURCES = files(["crates/*/src/**/*.rt"])
EDITS = files(["crates/*/must-fail/*"])
PAGES = files(["README.md", "CHANGES.md", "docs/**/*.md"])
CRATES = {os.path.basename(os.path.dirname(p)) for p in glob.glob("crates/*/")}


def main():
    texts = {f: open(f, encoding="utf-8").read() for f in ANTT + SOURCES + EDITS + PAGES}
    foreign = set()
    for f in ANTT + SOURCES:
        for m in OWN.finditer(texts[f]):
            path = m.group(1).split(".")
            if not (path[0] == "Rattle" and len(path) > 1 and path[1] in CRATES):
                foreign |= {n.split(" as ")[0].strip() for n in m.group(2).split(",")}
    names = collections.Counter()
    for f in ANTT:
        for w in WORD.findall(texts[f]):
            if snake(w) != w and w not in foreign and not re.match(r"p\d", w):  # p0Up1 is a text of the rules
                names[w] += 1
    turned = {w: snake(w) for w in names}
    back = collections.defaultdict(set)
    for w, s in turned.items():
        back[s].add(w)
    for s, ws in sorted(back.items()):
        if len(ws) > 1:
            print(f"fall together: {sorted(ws)} -> {s}")
    # a file that has both spellings
    for f in ANTT + SOURCES:
        words = set(WORD.findall(texts[f]))
        for w in sorted(words):
            if w in turned and turned[w] in words:
                print(f"both in {f}: {w} and {turned[w]}")
    if "--look" in sys.argv:
        print(f"{len(turned)} names")
        return 0
    for name, crates in LEMMAS.items():
        for f in ANTT:
            if f.split("/")[1] in crates:
                texts[f] = re.sub(r"(?<![\w'-])%s(?![\w'-])" % name, name + "_lem", texts[f])
    for f, t in texts.items():
        old = open(f, encoding="utf-8").read()
        if f in PAGES:
            new = re.sub(r"`[^`\n]*`", lambda m: WORD.sub(lambda x: turned.get(x.group(0), x.group(0)), m.group(0)), t)
            # a theorem's name in a list or a table stands bare too
            new = WORD.sub(lambda x: turned.get(x.group(0), x.group(0)), new)
        else:
            new = WORD.sub(lambda x: turned.get(x.group(0), x.group(0)), t)
        if new != old:
            with open(f, "w", encoding="utf-8") as out:
                out.write(new)
    print(f"{len(turned)} names turned")
    return 0


if __name__ == "__main__":
    raise SystemExit(main())
