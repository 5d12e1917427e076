#!/usr/bin/env python3
"""Respells the repository's own definitions, lemmas and record fields: words in snake case, facts and types in camel case.

usage: tools/spell_names.py            at the top of the repository, once, after the older Rattle's spelling was turned

A name counts as the repository's own where a file of a crate's specs/ or proofs/ declares it. What Rattle makes (the
goals of a function, which such a file answers as 'goal.NAME' or 'given.NAME'), functions of src/, strings and edits keep
their names, and a definition or lemma that would have a function's name gets '_lem'. Pages of docs/ and the README follow where
they cite a name between backticks.
It says which new names stand in a file already ('falls together'); nothing is written then.
"""

import os
import re
import sys

DECLARED = re.compile(r"^(\s*)(?:(?:abbrev|unfoldable|pub|record|data) )*([A-Za-z][\w'\-]*)(?: [({].*?)? : ?(.*)$")


def files(top, endings):
    for folder, dirs, names in os.walk(top):
        dirs[:] = sorted(d for d in dirs if d not in ("out", ".git", "tools"))
        for name in sorted(names):
            if name.endswith(endings):
                yield os.path.join(folder, name)


def read(path):
    with open(path, encoding="utf-8") as f:
        return f.read()


def spelled(name):
    if name[0].isupper():
        return "".join(part[0].upper() + part[1:] for part in name.split("-"))
    return name.replace("-", "_")


def own_names():
    own, made = set(), set()
    for path in files("crates", (".antt",)):
        answers = os.path.basename(path) in ("Answers.antt", "Invariants.antt")
        for line in read(path).splitlines():
            found = DECLARED.match(line)
            if not found or line.lstrip().startswith("let "):
                continue
            indent, name, what = found.groups()
            if "-" not in name:
                continue
            if re.match(r"(goal|given|need)\.", what):
                made.add(name)
            elif not (answers and indent):
                own.add(name)
    return own - made


def functions():
    texts = [read(path) for path in files("crates", (".rt",))]
    return {name for text in texts for name in re.findall(r"\bfn (\w+)", text)}


def token(name):
    return re.compile(r"(?<![\w'\-·])" + re.escape(name) + r"(?![\w'\-])")


def main():
    taken = functions()
    own = {name: spelled(name) + ("_lem" if spelled(name) in taken else "") for name in own_names()}
    any_own = re.compile(r"(?<![\w'\-·])(" + "|".join(re.escape(n) for n in sorted(own, key=len, reverse=True)) + r")(?![\w'\-])")
    fallen, texts = [], {}
    for path in files("crates", (".antt", ".rt")):
        text = read(path)
        for name in sorted(set(any_own.findall(text))):
            if token(own[name]).search(text):
                fallen.append(f"{path}: {name} falls together with {own[name]}")
        turned = any_own.sub(lambda m: own[m.group(1)], text)
        if turned != text:
            texts[path] = turned
    for path in [p for p in files(".", (".md",)) if p == "./README.md" or p.startswith("./docs/")]:
        text = read(path)
        turned = re.sub(r"`[^`\n]*`", lambda m: any_own.sub(lambda n: own[n.group(1)], m.group(0)), text)
        if turned != text:
            texts[path] = turned
    if fallen:
        print("\n".join(fallen))
        sys.exit(1)
    for path, text in texts.items():
        with open(path, "w", encoding="utf-8") as f:
            f.write(text)
    print(f"{len(own)} names, {len(texts)} files")


if __name__ == "__main__":
    main()
