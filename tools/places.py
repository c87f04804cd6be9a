#!/usr/bin/env python3
"""Lists places of the sources that an older style would leave, by text alone: tools/places.py [FOLDER] [--list]
FOLDER is the repository (by default the one that holds this script). It prints a count for each sign, and with --list each place.
A sign is no judgement: docs/DESIGN-PASS.md says of each place what it is."""

import collections
import os
import re
import sys

HERE = os.path.dirname(os.path.abspath(__file__))
args = [a for a in sys.argv[1:] if not a.startswith("--")]
TOP = args[0] if args else os.path.dirname(HERE)
LIST = "--list" in sys.argv


def sources():
    for crate in sorted(os.listdir(os.path.join(TOP, "crates"))):
        src = os.path.join(TOP, "crates", crate, "src")
        for folder, _, names in sorted(os.walk(src)):
            for name in sorted(names):
                if name.endswith(".rt"):
                    path = os.path.join(folder, name)
                    with open(path, encoding="utf-8") as f:
                        yield os.path.relpath(path, os.path.join(TOP, "crates")), f.read()


def code(text):
    """The text with comments blanked, line for line."""
    return re.sub(r"//[^\n]*", "", text)


FN = re.compile(r"\bfn\s+(\w+)\s*(<[^>{(]*>)?\s*\(([^)]*(?:\([^)]*\)[^)]*)*)\)\s*(->\s*[^\n{]+)?")


def functions(text):
    for m in FN.finditer(text):
        params = []
        depth, word = 0, ""
        for ch in m[3]:
            if ch in "([<":
                depth += 1
            elif ch in ")]>":
                depth -= 1
            if ch == "," and depth == 0:
                params.append(" ".join(word.split()))
                word = ""
            else:
                word += ch
        if word.strip():
            params.append(" ".join(word.split()))
        yield m.start(), m[1], params, (m[4] or "").replace("->", "").strip()


CLAUSE = re.compile(r"^\s*(requires|ensures)\s*(\w+)?\s*\{(.*)\}\s*$")
signs = collections.OrderedDict()


def add(sign, path, text, at, what):
    line = text.count("\n", 0, at) + 1
    signs.setdefault(sign, []).append((path, line, " ".join(what.split())[:110]))


ORDER = [
    "1a an enum of two variants, one with nothing in it",
    "1b a function that writes and answers a bool",
    "1c an answer that is an Option of a refusal",
    "1d a function that answers a number for each case",
    "1e an answer of several numbers, or a bool, without names",
    "2a functions of one shape: the same but for names, types, numbers and a plus or minus",
    "2b impls of one trait that share five or more lines",
    "3a a loop over a range of numbers",
    "3b a while loop, or a loop without an end of its own",
    "3c a number counted on by hand",
    "4a a conversion, name or comparison by a function of its own",
    "4b a match to a bool",
    "5a a clause that stands in three or more functions of a crate",
    "5b parameters that travel together in three or more functions of a crate",
    "6a an array of a fixed length",
    "6b a slice with a place beside it, as parameters",
    "6c a search by halves",
    "6d a struct with two rows, or a row and its length",
    "7a a parameter that is a bool",
    "8a answers in the proofs",
    "8b lemmas of the proofs",
]
KEY = {sign.split()[0]: sign for sign in ORDER}
for sign in ORDER:
    signs[sign] = []

WORDS = set("as bool break const continue else enum false fn for if impl in let loop match mut pub ref return self Self struct true use "
            "where while requires ensures ghost Option Result Some None Ok Err Vec".split())


def shape(text):
    """The text with each name and number blanked, clauses left out."""
    lines = [l for l in text.split("\n") if not re.match(r"\s*(requires|ensures)\b", l)]
    tokens = re.findall(r"[A-Za-z_]\w*|\d\w*|\"[^\"]*\"|\S", "\n".join(lines))
    return tuple(("+" if t == "-" else t) if t in WORDS or not re.match(r"[A-Za-z_\d\"]", t) else "x" for t in tokens)


def whole_body(text, at):
    """From a place on to the end of the braces that open next (clauses have braces of their own)."""
    lines, out = text[at:].split("\n"), []
    depth, begun = 0, False
    for line in lines:
        out.append(line)
        if not re.match(r"\s*(requires|ensures)\b", line):
            opened = line.count("{")
            depth += opened - line.count("}")
            begun = begun or opened > 0
        if begun and depth <= 0:
            break
        if not begun and line.rstrip().endswith(";"):
            break
    return "\n".join(out)


shapes = collections.defaultdict(list)
impls = collections.defaultdict(list)
clauses = collections.defaultdict(list)
groups = collections.defaultdict(list)
for path, whole in sources():
    crate = path.split("/")[0]
    text = code(whole)
    for m in re.finditer(r"^impl[^\n]*?\b(\w+)(?:<[^\n]*>)? for [^\n]*\{", text, re.M):
        lines = {l.strip() for l in whole_body(text, m.start()).split("\n")[1:] if len(l.strip()) > 12}
        impls[m[1]].append((path, text, m.start(), lines))
    for m in re.finditer(r"\benum\s+(\w+)[^{]*\{(.*?)\n\}", text, re.S):
        body = re.sub(r"\{[^}]*\}", "{}", m[2])
        body = re.sub(r"\([^)]*\)", "()", body)
        variants = [v.strip() for v in body.split(",") if v.strip()]
        if len(variants) == 2 and sum("(" in v or "{" in v for v in variants) == 1:
            add(KEY["1a"], path, text, m.start(), "enum " + m[1])
    for at, name, params, answer in functions(text):
        here = "fn %s(%s) -> %s" % (name, ", ".join(params), answer or "()")
        body = shape(whole_body(text, at))
        if len(body) >= 24:
            shapes[body].append((path, text, at, name))
        if answer == "bool" and any("&mut" in p for p in params):
            add(KEY["1b"], path, text, at, here)
        if re.match(r"(Result<)?Option<Refusal>", answer):
            add(KEY["1c"], path, text, at, here)
        if re.fullmatch(r"u8", answer):
            add(KEY["1d"], path, text, at, here)
        if re.search(r"\((?:usize|u\d+|i\d+|bool)(?:, *(?:usize|u\d+|i\d+|bool))+\)|, bool\)", answer):
            add(KEY["1e"], path, text, at, here)
        if re.match(r"(same|eq|cmp|clone|name|words|letter|number|splat|mark|sign|to_\w+|tell_\w+|short|read_value)$", name):
            add(KEY["4a"], path, text, at, here)
        if any(re.search(r":\s*bool$", p) for p in params):
            add(KEY["7a"], path, text, at, here)
        if any(re.search(r"\[u8\]$", p) for p in params) and any(re.match(r"(at|start|place|from): usize$", p) for p in params):
            add(KEY["6b"], path, text, at, here)
        plain = sorted(p for p in params if ":" in p and not re.search(r": *(Global|&?HostRuntime)$", p))
        for i in range(len(plain)):
            for j in range(i + 1, len(plain)):
                groups[(crate, plain[i], plain[j])].append((path, text, at, name))
    for m in re.finditer(r"\bfor\s+\w+\s+in\s+[^{\n]*\.\.[^{\n]*\{", text):
        if not re.search(r"\.(iter|windows)|\[[^\]]*\.\.[^\]]*\]", m[0]):
            add(KEY["3a"], path, text, m.start(), m[0])
    for m in re.finditer(r"(\bwhile\b[^{\n]*\{|\bloop\s*\{)", text):
        add(KEY["3b"], path, text, m.start(), m[0])
    for m in re.finditer(r"\b(\w+)\s*(\+=|-=)\s*1\s*;|\b(\w+)\s*=\s*\3\.saturating_add\(1\);", text):
        add(KEY["3c"], path, text, m.start(), m[0])
    for m in re.finditer(r"=>\s*(true|false),?\s*\n[^\n]*=>\s*(true|false)", text):
        add(KEY["4b"], path, text, m.start(), m[0])
    for m in re.finditer(r"\[u?\w+; \d+\]", text):
        line = text[text.rfind("\n", 0, m.start()) + 1 : text.find("\n", m.start())]
        if not re.search(r"#\[test\]|let (mut )?\w+ = |assert|const|Step::", line):
            add(KEY["6a"], path, text, m.start(), line)
    for m in re.finditer(r"let (mut )?middle = ", text):
        add(KEY["6c"], path, text, m.start(), m[0])
    for m in re.finditer(r"\bstruct\s+(\w+)[^{;]*\{(.*?)\n\s*\}", text, re.S):
        fields = re.findall(r"^\s*(?:pub(?:\([^)]*\))?\s+)?(\w+):\s*([^\n]*?),?$", m[2], re.M)
        rows = [f for f, t in fields if re.match(r"Vec<|\[|&'\w+ (mut )?\[", t)]
        counts = [f for f, t in fields if t == "usize"]
        if len(rows) > 1 or (rows and counts):
            add(KEY["6d"], path, text, m.start(), "struct %s: %s" % (m[1], ", ".join(rows + counts)))
    for number, line in enumerate(text.split("\n")):
        m = CLAUSE.match(line)
        if m:
            clauses[(crate, m[1], " ".join(m[3].split()))].append((path, number + 1))

for body, places in shapes.items():
    if len(places) > 1:
        path, text, at, name = places[0]
        add(KEY["2a"], path, text, at, ", ".join("%s %s" % (p[0].split("/")[0], p[3]) for p in places))
for trait, places in impls.items():
    for i in range(len(places)):
        for j in range(i + 1, len(places)):
            same = places[i][3] & places[j][3]
            if len(same) >= 5:
                add(KEY["2b"], places[i][0], places[i][1], places[i][2], "%s: %s, %s: %d lines" % (trait, places[i][0], places[j][0], len(same)))

for (crate, kind, body), places in sorted(clauses.items()):
    if len(places) >= 3:
        signs[KEY["5a"]].append((places[0][0], places[0][1], "%d times: %s { %s }" % (len(places), kind, body[:90])))
for (crate, a, b), places in sorted(groups.items()):
    if len(places) >= 3 and "self" not in (a, b):
        path, text, at, name = places[0]
        signs[KEY["5b"]].append((path, text.count("\n", 0, at) + 1, "%d functions: %s, %s" % (len(places), a, b)))

for crate in sorted(os.listdir(os.path.join(TOP, "crates"))):
    for folder, _, names in os.walk(os.path.join(TOP, "crates", crate, "proofs")):
        for name in names:
            if not name.endswith(".antt"):
                continue
            with open(os.path.join(folder, name), encoding="utf-8") as f:
                text = f.read()
            where = os.path.relpath(os.path.join(folder, name), os.path.join(TOP, "crates"))
            answers = len(re.findall(r"^pub [\w'-]+ : goal\.", text, re.M))
            lemmas = len(re.findall(r"^(?:pub )?[a-zA-Z][\w'-]* : ", text, re.M)) - answers
            if answers:
                signs[KEY["8a"]].append((where, 1, str(answers)))
            if lemmas > 0:
                signs[KEY["8b"]].append((where, 1, str(lemmas)))

for sign, places in signs.items():
    if sign.startswith("8"):
        print("%4d  %s" % (sum(int(p[2]) for p in places), sign))
    else:
        print("%4d  %s" % (len(places), sign))
        if LIST:
            for path, line, what in places:
                print("        %s:%d  %s" % (path, line, what))
