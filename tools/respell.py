#!/usr/bin/env python3
"""Brings this repository's own definitions and lemmas to today's spelling: words in snake case, types and modules in camel case.

usage: python3 tools/respell.py [--dry]      at the top, once, after the kit's port.py and before anything by hand

What is renamed: each name that a file of specs/ or proofs/ declares (definitions, lemmas, fields, local helpers) and that has a dash,
or a capital after a first small letter. What is not: the answers of proofs/F, which bear the names of goals, what a library declares,
functions and fields of src/, and texts in quotes. In must-fail/ the lines are respelled too, also as `x .y`, which is `x.y` today.
"""
import collections
import glob
import os
import re
import sys

# names whose plain respelling falls together with another name
OTHERWISE = {
    "atom-at": "atom_kept_at",
    "built-graph": "built_graph_is",
    "by-links": "parted_by_links",
    "count-after": "count_after_is",
    "first-letter": "first_letter_serves",
    "first-pivot": "first_pivot_is",
    "has-letter": "has_read_letter",
    "is-in": "is_in_its_slot",
    "is-position": "position_is",
    "letters-taken": "letters_taken_shown",
    "lowest-from": "lowest_from_is",
    "lowest-letter": "lowest_letter_is",
    "some-from": "some_from_is",
    "some-letter": "some_letter_held",
    "in-range": "in_same_range",
    "first_by": "first_by_serves",
    "some_pair": "some_pair_is",
}

NAME = r"[^\s(){}\[\].;,λ∷«»\"]+"
TOKEN = re.compile(r"\"[^\"\n]*\"|--[^\n]*|" + NAME)


def antt():
    return sorted(glob.glob("crates/*/specs/**/*.antt", recursive=True) + glob.glob("crates/*/proofs/**/*.antt", recursive=True))


def snake(n):
    if n in OTHERWISE:
        return OTHERWISE[n]
    s = re.sub(r"([a-z0-9])([A-Z])", lambda m: m.group(1) + "_" + m.group(2).lower(), n)
    return s.replace("-", "_")


def wants(n):
    if n in OTHERWISE:
        return True
    if not re.match(r"[a-zμ]", n):
        return False
    return bool(re.search(r"[a-z0-9][A-Z]", n)) or ("-" in n)


def declared(text, answers):
    """The names that a file declares, and those among them that are fields of its records."""
    names, fields = set(), set()
    inside = None
    for l in text.split("\n"):
        if l.strip().startswith("--") or not l.strip():
            continue
        indent = len(l) - len(l.lstrip())
        if inside is not None and indent <= inside:
            inside = None
        m = re.match(r"\s*((?:(?:pub|abbrev|unfoldable)\s+)*)(?:(record|data)\s+(?:pub\s+)?)?(" + NAME + r"(?:\s+" + NAME + r")*?)\s*(:(?!=)|\(|\{|where|$)(.*)", l)
        if not m:
            continue
        first = m.group(3).split()[0]
        if m.group(2):
            inside = indent if m.group(2) == "record" else inside
            names.add(first)
            continue
        if m.group(4) != ":" and not (m.group(4) in "({" and re.match(r"\s*(?:(?:pub|abbrev|unfoldable)\s+)*" + re.escape(first) + r"\s+[({][^=]*:[^=]*$", l) and m.group(1)):
            continue
        if answers and re.match(r"\s*(tie|\w+-lts)\.", m.group(5)):
            continue
        for n in m.group(3).split():
            if n in ("pub", "abbrev", "unfoldable", "let", "in"):
                continue
            names.add(n)
            if inside is not None and indent > inside:
                fields.add(n)
    return names, fields


def imports(text, crates):
    """The names that a file brings in from libraries."""
    out = set()
    for m in re.finditer(r"(?m)^\s*(?:ghost )?use ([^\s{;]+?)(?:\.\{([^}]*)\})?(?: as (\S+?))?;?\s*$", text):
        own = re.match(r"Rattle\.(\w+)\.", m.group(1) + ".")
        if own and own.group(1) in crates:
            continue
        for part in (m.group(2) or m.group(1).rsplit(".", 1)[-1]).split(","):
            out.add(part.split(" as ")[0].strip())
    return out


def turn(text, table, fields, keep, quoted=True):
    def one(m):
        t = m.group(0)
        if t.startswith('"') or (t.startswith("--") and not quoted):
            return t
        if t.startswith("--"):
            return re.sub(r"`([^`]*)`", lambda q: "`" + turn(q.group(1), table, fields, keep) + "`", t)
        before = text[m.start() - 1] if m.start() else " "
        if t in keep or t not in table:
            return t
        if before == "." and t not in fields:
            return t
        return table[t]

    return TOKEN.sub(one, text)


def main():
    crates = {os.path.basename(os.path.dirname(p)) for p in glob.glob("crates/*/src")}
    files = {p: open(p, encoding="utf-8").read() for p in antt()}
    names, fields, where = set(), set(), collections.defaultdict(set)
    for p, t in files.items():
        n, f = declared(t, re.search(r"/proofs/[^/]+/", p) is not None)
        names |= n
        fields |= f
        for x in n:
            where[x].add(p)
    table = {n: snake(n) for n in sorted(names) if wants(n)}
    back = collections.defaultdict(list)
    for n, s in table.items():
        back[s].append(n)
    said = 0
    for s, ns in sorted(back.items()):
        if len(ns) > 1:
            print("fall together:", s, ns)
            said += 1
        elif s in names:
            print("there already:", s, "beside", ns[0], sorted(where[s])[:3], sorted(where[ns[0]])[:3])
            said += 1
    changed = {}
    for p, t in files.items():
        keep = imports(t, crates)
        new = turn(t, table, fields, keep)
        here = set(TOKEN.findall(t))
        for n in sorted(here & set(table)):
            if n not in keep and table[n] in here:
                print("beside it:", p, n, table[n])
                said += 1
        for n in sorted(here & set(table) & keep):
            print("a library's:", p, n)
        if new != t:
            changed[p] = new
    camel = {n: s for n, s in table.items() if "-" not in n}
    for p in sorted(glob.glob("crates/*/src/*.rt")):
        t = open(p, encoding="utf-8").read()
        lines = []
        for l in t.split("\n"):
            if l.strip().startswith("//"):
                l = re.sub(r"`([^`]*)`", lambda q: "`" + turn(q.group(1), table, fields, set()) + "`", l)
            else:
                l = turn(l, camel, fields, set(), False)
            lines.append(l)
        if "\n".join(lines) != t:
            changed[p] = "\n".join(lines)
    for p in sorted(glob.glob("crates/*/must-fail/*.edit")):
        t = open(p, encoding="utf-8").read()
        spec = re.search(r"(?m)^file: (specs|proofs)/", t) is not None
        lines = []
        for l in t.split("\n"):
            if re.match(r"(old|new): ?", l):
                head, rest = l[:4], l[4:]
                if spec:
                    rest = re.sub(r"(?<=[\w)]) \.(?=\w)", ".", rest.replace("′", "'"))
                    rest = turn(rest, table, fields, set())
                else:
                    rest = turn(rest, camel, fields, set(), False)
                l = head + rest
            lines.append(l)
        if "\n".join(lines) != t:
            changed[p] = "\n".join(lines)
    print(len(table), "names,", len(changed), "files,", said, "to look at")
    if "--dry" not in sys.argv:
        for p, t in changed.items():
            with open(p, "w", encoding="utf-8") as f:
                f.write(t)


if __name__ == "__main__":
    main()
