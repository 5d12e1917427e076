#!/usr/bin/env python3
"""Lists functions of crates/*/src whose bodies are alike but for names and literals.

usage: tools/same_shape.py [FOLDER]     FOLDER is the repository's, by default this one
"""
import collections
import pathlib
import re
import sys

KEPT = set("as else false for if in let loop match mut return self true while Err None Ok Some".split())
CLAUSES = {"requires", "ensures", "ghost"}
LEAST_TOKENS = 12


def closing(text, at, opening, close):
    """The place of the bracket that closes the one at `at`."""
    depth = 0
    for place in range(at, len(text)):
        depth += (text[place] == opening) - (text[place] == close)
        if depth == 0:
            return place
    raise ValueError("a bracket that nothing closes")


def body_after(text, at):
    """The body of the function whose parameters end at `at`, past its clauses; none of a declaration."""
    while True:
        brace, semicolon = text.find("{", at), text.find(";", at)
        if brace < 0 or 0 <= semicolon < brace:
            return None
        end = closing(text, brace, "{", "}")
        if not CLAUSES & set(text[at:brace].split()):
            return text[brace : end + 1]
        at = end + 1


def functions(path):
    text = re.sub(r"//[^\n]*", "", path.read_text())
    for found in re.finditer(r"\bfn (\w+)", text):
        end = closing(text, text.index("(", found.end()), "(", ")")
        body = body_after(text, end + 1)
        if body:
            yield found.group(1), body


def shape(body):
    tokens = re.findall(r"\"[^\"]*\"|b?'[^']*'|\w+|[^\s\w]", body)
    return tuple("_" if re.match(r"[\w\"']", token) and token not in KEPT else token for token in tokens)


def main():
    root = pathlib.Path(sys.argv[1] if len(sys.argv) > 1 else pathlib.Path(__file__).parent.parent)
    groups = collections.defaultdict(list)
    for path in sorted(root.glob("crates/*/src/*.rt")):
        for name, body in functions(path):
            if len(shape(body)) >= LEAST_TOKENS:
                groups[shape(body)].append(f"{path.parent.parent.name}::{name}")
    twins = sorted((group for group in groups.values() if len(group) > 1), key=len, reverse=True)
    for group in twins:
        print(len(group), " ".join(group))
    print(sum(map(len, twins)), "functions have a twin")


main()
