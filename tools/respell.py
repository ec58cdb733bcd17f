#!/usr/bin/env python3
"""Brings the repository's own words of specs/ and proofs/ to one spelling: functions, lemmas, fields and constructors that antt files define in
camel case get snake case, a fact (a definition whose value is a type) gets upper camel case. Names of src/, of the kit's libraries, strings and
outputs stay.

usage: python3 tools/respell.py         in the repository, once, after port.py
       python3 tools/respell.py --list  prints the names, and those that would fall together, and writes nothing
"""

import os
import re
import sys

TOKEN = re.compile(r"[^\W\d][\w'′-]*", re.UNICODE)
# Names that another rule gives: a fact is spelled like a type, and the kit has another word now.
OTHERS = {"keptIn": "KeptIn", "getD-tab": "get_or-tab"}
# Lemmas whose names would be those of definitions.
LEMMAS = ("as_before", "fresh_set", "node_at", "stands_at", "two_ends")


LEMMA = re.compile(r"(?<![\w'.-])(" + "|".join(LEMMAS) + r")(?![\w'.-])")


def files(root):
    for folder, dirs, names in os.walk(os.path.join(root, "crates")):
        dirs[:] = sorted(d for d in dirs if d not in ("out", ".git"))
        for name in sorted(names):
            if name.endswith((".rt", ".antt", ".edit")):
                yield os.path.join(folder, name)


def snake(name):
    if name in OTHERS:
        return OTHERS[name]
    return re.sub(r"(?<=[a-z0-9])([A-Z])|(?<=[a-z])([A-Z])", lambda m: "_" + m.group(0).lower(), name)


def camel(name):
    return re.match(r"[a-z]", name) and re.search(r"[A-Z]", name) and not re.search(r"-[A-Z]", name) and not re.match(r"^[a-z]→", name)


def kit_names(texts, own):
    """What the files import from the kit."""
    out = set()
    for path, text in texts.items():
        for m in re.finditer(r"(?:^|\n)\s*(?:ghost )?(?:pub )?use ([\w.\-]+)\.\{([^}]*)\}", text):
            parts = m.group(1).split(".")
            if parts[0] == "Rattle" and len(parts) > 1 and parts[1] in own:
                continue
            for n in m.group(2).split(","):
                out.add(n.split(" as ")[0].strip())
    return out


def main():
    root = "."
    own = {c for c in os.listdir("crates")}
    texts = {}
    for p in files(root):
        with open(p, encoding="utf-8") as f:
            texts[p] = f.read()
    kit = kit_names(texts, own)
    found = {}
    seen = set()
    for p, t in texts.items():
        for tok in TOKEN.findall(t):
            seen.add(tok)
            if p.endswith(".antt") and camel(tok) and tok not in kit:
                found[tok] = snake(tok)
    back = {}
    for a, b in found.items():
        back.setdefault(b, []).append(a)
    if "--list" in sys.argv:
        for a, b in sorted(found.items()):
            print(a, b, "FALLS TOGETHER" if b in seen or len(back[b]) > 1 else "")
        return
    for p, t in texts.items():
        new = LEMMA.sub(r"\1_lem", t) if p.endswith(".antt") else t
        new = TOKEN.sub(lambda m: found.get(m.group(0), m.group(0)), new)
        if new != t:
            with open(p, "w", encoding="utf-8") as f:
                f.write(new)


main()
