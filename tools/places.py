#!/usr/bin/env python3
"""Counts, below a folder, the places of src/ that docs/DESIGN-PASS.md speaks of. places.py [FOLDER] [--list N] lists those of row N."""
import collections
import glob
import re
import sys

ROWS = [
    ("1a", "flags and numbers beside a value", r"^\s*(pub )?(answer|fits|more|apart|twice|keeps|alive): (usize|bool),"),
    ("1b", "refusals by number", r"\bRefusal::[A-Z]{2,}\b"),
    ("1c", "kinds by number", r"\b(Step::(PLACE|CLOSE|EXCLUDE|REQUIRE|SETTLE|LEVEL|BACK|OBLIGE)|Record::(SHRINKING|PLACING|MARKING|OBLIGING))\b|\bkind == [0-9]"),
    ("3", "loops that are no `for`", r"^\s*while "),
    ("4a", "functions that only convert or choose", r"\bfn (wide|long|narrow|one_if|node_of|choose|either|one_more)\("),
    ("4b", "a maximum by hand", r"if (\w+) < (\w+) \{ \2 \} else \{ \1 \}"),
    ("4c", "fields and sums written twice", r"\b(\w+): \1,|^\s+(\w+) = \2 (\||&|\+) "),
    ("6a", "rows of numbers in place of a struct", r"\[u(32|64|size); (Jobs::ROOM|Figures::COUNT|Told::COUNT|Way::COUNT)\]"),
]
FACTS = "Laid Ready KnownRows ByNode Figured Rows Sound Routed Route Legs Marked Known ReadyAll Nodes Placed Readable Table Alike".split()
TOGETHER = [("s", "at"), ("s", "l"), ("sheet", "at"), ("route", "stops"), ("route", "sets"), ("routes", "sets", "figures"), ("spots", "before"), ("out", "used"), ("out", "at")]
HEAD = re.compile(r"\bfn (\w+)(?:<[^>]*>)?\((.*?)\)(?: -> [^\n{]*)?\n((?:\s+(?:requires|ensures)[^\n]*\n(?:\s{6,}[^\n]*\n)*)*)", re.S)


def main():
    args = [a for a in sys.argv[1:] if a != "--list"]
    wanted = args.pop() if "--list" in sys.argv else None
    files = sorted(glob.glob((args or ["."])[0] + "/crates/*/src/**/*.rt", recursive=True))
    texts = {f: open(f).read() for f in files}
    for row, what, pattern in ROWS:
        found = [(f, i, line.strip()) for f, t in texts.items() for i, line in enumerate(t.split("\n"), 1) if re.search(pattern, line)]
        print(f"{row:3} {len(found):4} {what}")
        if row == wanted:
            print("\n".join(f"      {f}:{i}: {line}" for f, i, line in found))
    facts, together = collections.Counter(), collections.Counter()
    for t in texts.values():
        for head in HEAD.finditer(t):
            asked = " ".join(re.findall(r"requires[^\n]*(?:\n\s{8,}[^\n]*)*", head.group(3)))
            facts.update(w for w in FACTS if re.search(rf"\b{w}\b", asked))
            names = [p.split(":")[0].strip() for p in re.sub(r"\[[^\]]*\]", "", head.group(2)).split(",")]
            together.update(" ".join(g) for g in TOGETHER if all(n in names for n in g))
    print(f"5a  {sum(1 for n in facts.values() if n > 2):4} facts that three or more functions ask: " + ", ".join(f"{w} {n}" for w, n in facts.most_common() if n > 2))
    print(f"5b  {sum(1 for n in together.values() if n > 2):4} groups of parameters: " + ", ".join(f"{w} {n}" for w, n in together.most_common() if n > 2))


main()
