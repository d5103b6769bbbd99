#!/usr/bin/env python3
"""Lists the facts that stand in the clauses of three functions of src/ or more, with the functions: tools/facts.py [FOLDER].
A clause is split at its outer `×`, and `.old`, `.now` and `.new` are left out, so that a fact before and after a call is one."""

import collections
import glob
import re
import sys


def split(text):
    """The parts of a clause between its outer `×`."""
    parts, depth, part = [], 0, ""
    for c in text:
        depth += (c in "([{") - (c in ")]}")
        if c == "×" and depth == 0:
            parts.append(part.strip())
            part = ""
        else:
            part += c
    return parts + [part.strip()]


def in_brackets(text):
    """Whether one pair of brackets holds the whole text."""
    depth = 0
    for i, c in enumerate(text):
        depth += (c == "(") - (c == ")")
        if depth == 0 and i < len(text) - 1:
            return False
    return text.startswith("(")


def facts(clause):
    todo, found = split(clause), []
    while todo:
        part = todo.pop()
        if in_brackets(part):
            todo += split(part[1:-1])
        else:
            found.append(re.sub(r"\.(old|now|new)\b", "", part))
    return found


def main(root):
    places = collections.defaultdict(set)
    for path in sorted(glob.glob(root + "/crates/*/src/*.rt")):
        text, function = open(path, encoding="utf-8").read(), ""
        for m in re.finditer(r"\bfn (\w+)|\b(?:requires|ensures)\b(?: \w+)? \{", text):
            if m[1]:
                function = path.split("/")[-3] + "::" + m[1]
                continue
            end, depth = m.end(), 1
            while depth:
                depth += (text[end] == "{") - (text[end] == "}")
                end += 1
            for fact in facts(" ".join(text[m.end() : end - 1].split())):
                places[fact].add(function)
    for fact, functions in sorted(places.items(), key=lambda e: (-len(e[1]), e[0])):
        if len(functions) >= 3:
            print(len(functions), fact, "|", " ".join(sorted(functions)))


main(sys.argv[1] if len(sys.argv) > 1 else ".")
