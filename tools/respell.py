#!/usr/bin/env python3
"""Respells the repository's own definitions and lemmas: facts and types in upper camel case, all else in snake case.

usage: python3 tools/respell.py [FOLDER]     at the top of a repository that port.py has turned; rewrites crates/ in place, and says what it renamed

A name is renamed where it is the repository's own: not the name of a goal, nor one that the file imports from a library.
Functions of src/, strings and comments of src/ keep their spelling.
"""

import collections
import os
import re
import sys

TOP = sys.argv[1] if len(sys.argv) > 1 else "."
STOPS = r"\s(){}\[\];,.:λ→⌜⌝⟦⟧\"`"
TOKEN = re.compile(rf"[^{STOPS}]+")
MODIFIERS = re.compile(r"^(?:(?:abbrev|unfoldable|pub)\s+)*(?:(record|data|ruleset)\s+)?")
HEAD = re.compile(rf"^([A-Za-z][^{STOPS}]*)\s*(?:[:({{]|where|=)(.*)")
FIELD = re.compile(rf"^([A-Za-z][^{STOPS}]*)\s*:(?!=)(.*)")
KEYWORDS = {"use", "mod", "where", "let", "in", "unfolding", "record", "data", "pub", "abbrev"}
OWN = set(os.listdir(os.path.join(TOP, "crates")))
USE = re.compile(r"^\s*(?:ghost\s+|pub\s+)?use\s+([^{}\s]+?)\.?(?:\{([^}]*)\}|\s+as\s+\S+)?;?\s*$")
RT_NAME = re.compile(r"\"(?:\\.|[^\"\\])*\"|//[^\n]*|'(?:\\.|[^'\\])'|(?<![\w.])[A-Za-z_]\w*(?:-\w+)+")


def files():
    for folder, dirs, names in os.walk(os.path.join(TOP, "crates")):
        dirs[:] = sorted(d for d in dirs if d != "out")
        for name in sorted(names):
            if name.endswith((".antt", ".rt", ".edit")):
                yield os.path.join(folder, name)


def read(path):
    with open(path, encoding="utf-8") as f:
        return f.read()


def defined(texts):
    """The repository's own names, and of each whether it is a fact or a type."""
    kinds = collections.defaultdict(set)
    for path, text in texts.items():
        if not path.endswith(".antt"):
            continue
        for line in text.split("\n"):
            bare = line.strip()
            if bare.startswith("--") or re.search(r":\s*goal\.", line):
                continue
            sort = MODIFIERS.match(bare).group(1)
            bare = bare[MODIFIERS.match(bare).end() :]
            m = FIELD.match(bare) if line[:1].isspace() else HEAD.match(bare)
            if m and m.group(1) not in KEYWORDS and not (line[:1].isspace() and bare.startswith("let ")):
                fact = sort in ("record", "data") or m.group(2).rstrip().endswith("Type 0")
                kinds[m.group(1)].add("fact" if fact else "term")
    return kinds


def turned(name, kinds):
    if "-" not in name:
        return name
    if name[0].isupper() or "fact" in kinds:
        return "".join(part[:1].upper() + part[1:] for part in name.split("-"))
    return name.replace("getD", "get_or").replace("-", "_")


def imported(text):
    """The names that a file takes from a library or from the goals, with its own spelling kept."""
    kept = set()
    for line in text.split("\n"):
        m = USE.match(line)
        if not m or not m.group(2):
            continue
        parts = m.group(1).split(".")
        library = len(parts) > 1 and parts[0] == "Rattle" and parts[1] not in OWN or parts[0] != "Rattle"
        if library or parts[-1] in ("Goals", "Given"):
            for item in m.group(2).split(","):
                kept.add(item.strip().split(" as ")[-1].strip())
                kept.add(item.strip().split(" as ")[0].strip())
    kept.update(re.findall(rf":\s*goal\.([^{STOPS}]+)", text))
    return kept


def respell_antt(text, names):
    kept = imported(text)
    out = []
    for line in text.split("\n"):
        code, dashes, comment = (line, "", "") if not line.lstrip().startswith("--") else ("", "", line)
        def change(m):
            word = m.group(0)
            if word in kept or word not in names:
                return word
            if m.start() > 0 and code[m.start() - 1] == "." and re.search(r"(?:^|[\s(])goal\.$", code[: m.start()]):
                return word
            return names[word]
        code = TOKEN.sub(change, code)
        comment = re.sub(r"`([^`\s]+)`", lambda m: "`" + names.get(m.group(1), m.group(1)) + "`", comment)
        out.append(code + dashes + comment)
    return "\n".join(out)


def respell_rt(text, names):
    kept = imported(text)
    return RT_NAME.sub(lambda m: names[m.group(0)] if m.group(0) in names and m.group(0) not in kept else m.group(0), text)


def main():
    texts = {p: read(p) for p in files()}
    kinds = defined(texts)
    names = {n: turned(n, k) for n, k in kinds.items() if turned(n, k) != n}
    taken = collections.defaultdict(set)
    for old, new in names.items():
        taken[new].add(old)
    words = collections.Counter(w for t in texts.values() for w in TOKEN.findall(t))
    for new, olds in sorted(taken.items()):
        if len(olds) > 1:
            print(f"fall together: {new}: {sorted(olds)}")
        if new in kinds:
            print(f"already a name: {new}, of {sorted(olds)}")
        elif words[new]:
            print(f"already a word: {new}, of {sorted(olds)}: {words[new]} times")
    for path, text in texts.items():
        new = respell_antt(text, names) if path.endswith(".antt") else respell_rt(text, names)
        if new != text:
            with open(path, "w", encoding="utf-8") as f:
                f.write(new)
    for old, new in sorted(names.items()):
        print(f"{old} -> {new}")


main()
