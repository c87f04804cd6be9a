#!/usr/bin/env python3
"""Brings the repository's own definitions and lemmas to one spelling: facts and types in upper camel case, all else in snake case.

usage: python3 tools/respell_names.py [--look]     at the top; --look lists the names and what each falls together with, and writes nothing

It was run after the kit's own script for older repositories, and once more when it had learned of records and data with parameters. A name
is one that specs/ or proofs/ declares with its type; it is turned in every .antt file, and in the ghost text of every .rt file (not in
strings). Names of Rust functions, of goals and of files stay.
"""
import os
import re
import sys

ID = r"[^\s(){}\[\],;.:⌜⌝`\"«»|=]+"
DECLARED = re.compile(r"(?m)^[ ]*(?:(?:abbrev|unfoldable|pub|opaque|record|data) )*(" + ID + r")(?=\s*:(?!:))|^[ ]*(?:pub )?(?:record|data) (" + ID + r")(?=\s)")
# Names that would fall together with another by the rule alone, and two that hold an operator.
BY_HAND = {
    "literalOf": "clause_literal",
    "bit-and": "bit_of_and",
    "bit-or": "bit_of_or",
    "bit-xor": "bit_of_xor",
    "One≢Undefined": "one_not_undefined",
    "Zero≢Undefined": "zero_not_undefined",
}
GOALS = re.compile(r"\bgoal\.(" + ID + ")")


def files():
    for folder, dirs, names in os.walk("crates"):
        dirs[:] = sorted(d for d in dirs if d != "out")
        for name in sorted(names):
            if name.endswith((".antt", ".rt")):
                yield os.path.join(folder, name)


def spelled(name):
    if name in BY_HAND:
        return BY_HAND[name]
    parts = name.replace("′", "'").split("-")
    if len(parts) < 2:
        return name.replace("′", "'")
    if name[0].isupper():
        return "".join(p[0].upper() + p[1:] for p in parts)
    return "_".join(parts)


def names(texts):
    found, goals = set(), set()
    for path, text in texts.items():
        if path.endswith(".antt"):
            goals |= set(GOALS.findall(text))
            found |= {m[1] or m[2] for m in DECLARED.finditer(text)}
    return {n: spelled(n) for n in found - goals if spelled(n) != n}


def main(argv):
    texts = {p: open(p, encoding="utf-8").read() for p in files()}
    table = names(texts)
    token = re.compile(r"\"(?:\\.|[^\"\\])*\"|" + ID)
    if "--look" in argv:
        new = {}
        for n, s in table.items():
            new.setdefault(s, []).append(n)
        for s, ns in sorted(new.items()):
            places = [p for p, t in texts.items() if s in set(re.findall(ID, t))]
            if len(ns) > 1 or places:
                print(s, "from", *ns, "; stands already in", *places[:6])
        print(len(table), "names")
        return
    for path, text in texts.items():
        after = token.sub(lambda m: table.get(m[0], m[0]), text)
        if after != text:
            with open(path, "w", encoding="utf-8") as f:
                f.write(after)


main(sys.argv[1:])
