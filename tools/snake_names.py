#!/usr/bin/env python3
"""Brings the repository's own definitions, lemmas and fields to snake case.

usage: python3 tools/snake_names.py        at the top, once, right after the kit's port.py

A name of the repository is one that a file of specs/ or proofs/ declares or binds. Names that a file imports from the kit keep their
spelling, and so do functions of src/, goals and the steps of a function. Names that would fall together stop the script before it writes.
"""
import collections
import os
import re
import sys

WORD = r"[\w₀-₉'′]"
KEBAB = re.compile(rf"(?<!{WORD})(?<!-){WORD}+(?:-{WORD}+)+(?!{WORD})(?!-{WORD})")
DECLARED = re.compile(r"(?m)^\s*(?:pub |abbrev |unfoldable |record |data |axiom )*([^\s(){}:]+) (?:\([^:]*:[^)]*\) ?|\{[^}]*\} ?)*:")
USE = re.compile(r"(?m)^\s*(?:ghost )?use ([\w.◌+]+?)\.?\{([^}]*)\}")


def own_crates():
    with open("crates.txt") as f:
        return {line.split(":")[0].split()[0] for line in f if line.strip() and not line.startswith("#")}


def texts(pattern):
    for folder, dirs, files in os.walk("crates"):
        dirs[:] = sorted(d for d in dirs if d != "out")
        for name in sorted(files):
            path = os.path.join(folder, name)
            if re.search(pattern, path):
                with open(path, encoding="utf-8") as f:
                    yield path, f.read()


def imported(text, own, of_own):
    """The names that the text imports: from the repository, or from the kit."""
    names = set()
    for path, listed in USE.findall(text):
        parts = path.split(".")
        if (parts[0] == "Rattle" and parts[1] in own) == of_own:
            names.update(w.strip() for entry in listed.split(",") for w in entry.split(" as "))
    return names


def snake(name):
    return name.replace("-", "_")


def uncommented(text):
    return re.sub(r"--[^\n]*", "", text)


LAW = r"/specs/.*\.antt$|/proofs/[A-Z]\w*\.antt$"
PROOF = r"/proofs/.*/Proof\.antt$"


def main():
    own = own_crates()
    declared, kit = set(), set()
    for path, text in texts(LAW):
        plain = uncommented(text)
        declared.update(DECLARED.findall(plain))
        kit |= imported(plain, own, False)
        declared.update(set(KEBAB.findall(plain)) - imported(plain, own, False))
    for path, text in texts(PROOF):
        kit |= imported(text, own, False)
    ours = {name for name in declared if "-" in name and name not in kit}
    turned = collections.defaultdict(set)
    for name in ours:
        turned[snake(name)].add(name)
    plain_names = declared | kit
    bad = [(to, names) for to, names in turned.items() if len(names) > 1 or to in plain_names - ours]
    for to, names in sorted(bad):
        print("falls together:", to, sorted(names), "(already there)" if to in plain_names - ours else "")
    if bad:
        return 1
    for path, text in texts(LAW):
        new = KEBAB.sub(lambda m: snake(m.group(0)) if m.group(0) in ours else m.group(0), text)
        write(path, text, new)
    for path, text in list(texts(r"/src/.*\.rt$")) + list(texts(r"/must-fail/.*\.edit$")):
        new = KEBAB.sub(lambda m: snake(m.group(0)) if m.group(0) in ours else m.group(0), text)
        write(path, text, new)
    fields = {name for path, text in texts(LAW) for name in re.findall(r"(?m)^ +pub ([^\s:]+) :", text)} & ours
    for path, text in texts(PROOF):
        names = imported(text, own, True) & ours

        def turn(m):
            word, before = m.group(0), text[max(0, m.start() - 1):m.start()]
            return snake(word) if (word in fields if before == "." else word in names) else word

        write(path, text, KEBAB.sub(turn, text))
    for folder in (".", "docs"):
        for name in sorted(os.listdir(folder)):
            if name.endswith(".md"):
                path = os.path.join(folder, name)
                with open(path, encoding="utf-8") as f:
                    text = f.read()
                write(path, text, re.sub(r"`([^`\n]+)`", lambda m: "`" + (snake(m.group(1)) if m.group(1) in ours else m.group(1)) + "`", text))
    print(len(ours), "names turned")
    return 0


def write(path, old, new):
    if new != old:
        with open(path, "w", encoding="utf-8") as f:
            f.write(new)


if __name__ == "__main__":
    sys.exit(main())
