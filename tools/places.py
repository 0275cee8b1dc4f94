#!/usr/bin/env python3
"""Counts, over crates/*/src and crates/*/proofs, the places where an older form may stand. `tools/places.py [-v] [DIR]`; -v shows each place."""
import collections
import glob
import os
import re
import sys

# Point of docs/DESIGN-PASS.md, what is looked for, and the pattern of a line.
LINES = [
    (1, "enums of our own", r"^ *(pub(\(crate\))? )?enum "),
    (1, "numbers for kinds, compared", r"\b(mode|format|kind) (==|<=|<|!=) [0-9]|0 < self\.mode|match (mode|format|kind) \{|\b(CONFIGURATION|ASSIGNMENT|SPS)\b(?! )|\bSPS =>"),
    (1, "enums turned into numbers by hand", r"^ +\w+::\w+ => [0-9]+,$"),
    (1, "flags passed beside what they speak of", r"\b(answers|inverted|begun): bool"),
    (1, "answers that say nothing", r"^    0$"),
    (1, "0 for none", r"// .*\b0 (where nobody|before the first)|// .*\(0: none\)"),
    (3, "loops over a range", r"\bfor \w+ in [\w.()+ ]+\.\."),
    (3, "while", r"^ *while "),
    (3, "counting by hand", r"\b\w+ \+= 1;"),
    (3, "loops that answer at once", r"^ +return (false|Some\(i\)|Some\(sent.*|Ok\(None\));$"),
    (3, "loops that push", r"^ +\w+\.push\(.*\)\?;$"),
    (4, "order by hand", r"fn is_above|fn or_longer"),
    (4, "numbers and texts by functions", r"fn number\(self|fn \w*_text\b|fn \w+_(line|head)\b|fn shown_as|fn \w*_digit\b"),
    (4, "conversions by hand", r"^impl.*\b(From|TryFrom)<.* for |^impl FromRecord|^impl Worded"),
    (4, "printing by hand", r"^impl fmt::Display"),
    (4, "constants for nothing yet", r"^const (NO_|LOST)"),
    (6, "lengths beside a buffer", r"\bused: usize|let mut count = |\bcount: usize"),
    (6, "parallel arrays", r"_offsets: Vec|pub (arrived|fields|marks|holders): Vec"),
    (6, "arrays of a fixed length", r": \[\w+; \w+\]"),
    (7, "switches", r"if !?inverted\b|match way\b|way: Way\b|inverted: bool|\bfn\("),
]


def sources(top):
    return sorted(glob.glob(os.path.join(top, "crates/*/src/**/*.rt"), recursive=True))


def functions(text):
    """Name, parameters and clauses of each function."""
    for m in re.finditer(r"^ *(?:pub(?:\(\w+\))? )?fn (\w+)(?:<[^(]*>)?\(", text, re.M):
        at, depth = m.end(), 1
        while depth:
            depth += {"(": 1, ")": -1}.get(text[at], 0)
            at += 1
        names = re.findall(r"(?:^|,)\s*(?:mut )?(\w+):", text[m.end():at - 1])
        head, _, rest = text[at:].partition("\n")
        clauses = "" if head.endswith(("{", ";")) else re.split(r"^\s*(?:\{|\w[^\n]*;$)", rest, maxsplit=1, flags=re.M)[0]
        yield m.group(1), frozenset(names), re.findall(r"requires(?: \w+)? \{ (.*) \}$", clauses, re.M)


def main():
    args = [a for a in sys.argv[1:] if a != "-v"]
    loud, top = "-v" in sys.argv, args[0] if args else "."
    texts = {f: open(f, encoding="utf-8").read() for f in sources(top)}
    found = collections.defaultdict(list)
    for f, text in texts.items():
        name = os.path.relpath(f, os.path.join(top, "crates"))
        for i, line in enumerate(text.split("\n"), 1):
            for point, what, pattern in LINES:
                if re.search(pattern, line) and ("//" in pattern or not line.lstrip().startswith("//")):
                    found[point, what].append(f"{name}:{i}: {line.strip()}")
    # Twins by name, facts by text, parameters that travel together.
    names, facts, groups = (collections.defaultdict(set) for _ in range(3))
    for f, text in texts.items():
        crate = os.path.relpath(f, os.path.join(top, "crates")).split("/")[0]
        for fn, params, requires in functions(text):
            names[fn].add(crate)
            for fact in requires:
                facts[crate, re.sub(r"\w+(\.\w+)*\.(now|old)\.", "", fact)].add(fn)
            if len(params) >= 3:
                groups[crate, tuple(sorted(params))].add(fn)
    common = {"new", "fmt", "from", "main", "run", "put", "number", "read", "entry"}
    found[2, "functions of one name in two crates"] = [f"{n}: {', '.join(sorted(c))}" for n, c in sorted(names.items()) if len(c) > 1 and n not in common]
    found[5, "facts required by two functions or more"] = [f"{c}: {fact}: {', '.join(sorted(s))}" for (c, fact), s in sorted(facts.items()) if len(s) > 1]
    together = []
    for (crate, params), fns in sorted(groups.items()):
        within = {g for (c, p), s in groups.items() if c == crate and set(params) <= set(p) for g in s}
        if len(within) >= 3:
            together.append(f"{crate}: {', '.join(params)}: {', '.join(sorted(within))}")
    found[5, "three parameters or more that three functions share"] = together
    proofs = glob.glob(os.path.join(top, "crates/*/proofs/**/*.antt"), recursive=True)
    found[8, "proof files of functions"] = sorted(os.path.relpath(p, top) for p in proofs if p.count("/") - top.count("/") > 4 or os.path.basename(p) in ("Answers.antt", "Invariants.antt"))
    found[8, "lines of proofs"] = [str(sum(len(open(p, encoding="utf-8").readlines()) for p in proofs))]
    for (point, what), places in sorted(found.items()):
        shown = places[0] if what == "lines of proofs" else len(places)
        print(f"{point}  {shown:>5}  {what}")
        if loud:
            for p in places:
                print(f"           {p}")


main()
