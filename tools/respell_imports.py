#!/usr/bin/env python3
"""Brings the local names of imports (`x as y`) to the repository's spelling.

usage: python3 tools/respell_imports.py     at the top

It was run after tools/respell_names.py. A local name is in snake case, as all else that is no fact or type. The recursive "holds of each
element", imported under the library's plain word All, is AllOf: the gate refuses another definition under such a word.
"""
import os
import re

ID = r"[^\s(){}\[\],;.:⌜⌝`\"«»|=]+"
ALIAS = re.compile(r"(?<=[\w'] as )(" + ID + r")")
# The library's word, and one that would fall together with another by the rule alone.
BY_HAND = {"All": "AllOf", "driveOf": "spec_drive"}
CAMEL = re.compile(r"[a-z]+(?:[A-Z][a-z]*)+$")


def spelled(name):
    if name in BY_HAND:
        return BY_HAND[name]
    if "-" in name and name[0].islower():
        return name.replace("-", "_")
    if CAMEL.match(name):
        return re.sub("[A-Z]", lambda m: "_" + m[0].lower(), name)
    return name


def main():
    for folder, dirs, names in os.walk("crates"):
        dirs[:] = sorted(d for d in dirs if d != "out")
        for name in sorted(names):
            path = os.path.join(folder, name)
            if not name.endswith((".antt", ".rt")):
                continue
            with open(path, encoding="utf-8") as f:
                text = f.read()
            table = {}
            for line in text.split("\n"):
                if line.startswith(("use ", "ghost use ")):
                    for local in ALIAS.findall(line):
                        if spelled(local) != local:
                            table[local] = spelled(local)
            if not table:
                continue
            words = set(re.findall(ID, text))
            for local, new in table.items():
                if new in words:
                    print(path, local, new, "stands already")
            token = re.compile(r"\"(?:\\.|[^\"\\])*\"|(?<![.\w])" + ID)
            with open(path, "w", encoding="utf-8") as f:
                f.write(token.sub(lambda m: table.get(m[0], m[0]), text))


main()
