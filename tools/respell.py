#!/usr/bin/env python3
"""Respells this repository's own definitions, lemmas, fields and constructors, after the kit's port.py: words in snake case, types and facts in
camel case, and a dash only between two names that a lemma's own name joins. Run it once, at the top, on what port.py left. It says
which new names fall together with others, and how many there are; with --list it only prints them.

Names that the check makes (goals, the steps of a function) and names of the library are left as they are, and so is all text of src/ that is
not ghost: no Rust name has a dash.
"""
import collections
import os
import re
import sys

TOKEN = re.compile(r"[^\s(){}\[\],;:.«»\"λ|]+")
CRATES = r"Rattle\.(?:order|join|cluster|keeper|pool|columns|layers|piles|station|runs|report|cluster_tests|keeper_tests|order_tests|station_tests|shift\w*|choice|script)\b"
# functions of the library that lemmas of ours are named after
LIBRARY = {"length", "take", "drop", "map", "append", "replicate"}
# words that are functions of ours and plain words in a lemma's name
PLAIN = {"at", "from", "partner", "post", "kind", "number", "event", "one", "form", "known", "past", "placed", "told", "found", "held", "here",
    "marked", "received", "reaches", "rest", "whole", "after", "most", "below", "own", "fresh", "opened", "said", "relation", "missing", "same",
    "apart", "start", "merged", "refused", "unmarked", "next", "first", "fits", "records", "judged", "entry", "ground"}


def files():
    for folder, dirs, names in os.walk("crates"):
        dirs[:] = sorted(d for d in dirs if d not in ("out", "data"))
        for name in sorted(names):
            if name.endswith((".antt", ".rt")):
                yield os.path.join(folder, name)


def code(line):
    """The line without its comment."""
    return re.sub(r"(^|\s)--(\s.*|$)", "", line)


def read(path):
    with open(path, encoding="utf-8") as f:
        return f.read()


def survey():
    """The words with a dash that are ours, and the functions that specs/ defines."""
    words, foreign, functions, every = collections.Counter(), set(), set(LIBRARY), set()
    for path in files():
        text = read(path)
        for m in re.finditer(r"^(?:ghost )?use ([^\n{]+)\.\{([^}]*)\}", text, re.M):
            names = [n.strip().split(" as ")[0].strip() for n in m[2].split(",")]
            if not re.match(CRATES, m[1]) or re.search(r"\.(Goals|Given)$", m[1].split(" as ")[0].strip()):
                foreign |= set(names)
        for m in re.finditer(r"^(?:abbrev |unfoldable )?pub (\S+) : goal\.", text, re.M):
            foreign.add(m[1])
        if not path.endswith(".antt"):
            continue
        if "/specs/" in path:
            for m in re.finditer(r"^(?:abbrev |unfoldable )?pub (\S+) : (.*)$", text, re.M):
                if not m[2].rstrip().endswith("Type 0"):
                    functions.add(m[1])
        for line in text.splitlines():
            line = code(line)
            for m in TOKEN.finditer(line):
                every.add(m[0])
                made = m.start() > 0 and line[m.start() - 1] == "."
                if "-" in m[0] and re.search(r"[A-Za-z]", m[0]) and not made:
                    words[m[0]] += 1
    return {w for w in words if w not in foreign}, {f.replace("-", "_") for f in functions}, every


def camel(word):
    return "".join(p[:1].upper() + p[1:] for p in word.split("-"))


def snake(word, functions, lemma):
    parts = word.replace("getD", "get_or").split("-")
    if not lemma:
        return "_".join(parts)
    for cut in range(len(parts) - 1, 0, -1):
        left, right = "_".join(parts[:cut]), "_".join(parts[cut:])
        if left in functions and right in functions and right not in PLAIN:
            return left + "-" + right
    return "_".join(parts)


def main():
    ours, functions, every = survey()
    lemmas = set()
    for path in files():
        if "/proofs/" in path and path.endswith(".antt"):
            lemmas |= {m[1] for m in re.finditer(r"^(?:pub )?(\S+) : ", read(path), re.M)}
    names = {w: camel(w) if w[:1].isupper() else snake(w, functions, w in lemmas) for w in ours}
    names["recordOf"] = "record_of"
    back = collections.defaultdict(set)
    for old, new in names.items():
        back[new].add(old)
        if new in every and new != old:
            back[new].add(new)
    for new, olds in sorted(back.items()):
        if len(olds) > 1:
            print("together:", new, "<-", " ".join(sorted(olds)))
    if "--list" in sys.argv:
        for old, new in sorted(names.items()):
            print(old, "->", new)
        return
    for path in files():
        old = read(path)
        new = "\n".join(re.sub(TOKEN, lambda m: names.get(m[0], m[0]), line) for line in old.split("\n"))
        if new != old:
            with open(path, "w", encoding="utf-8") as f:
                f.write(new)
    print(len(names), "names")


main()
