#!/usr/bin/env python3
"""Brings the repository's own definitions and lemmas to today's spelling: words in snake case, types and modules in camel case.

usage: python3 tools/respell.py [--list]     at the top of the repository, once, after the toolchain's port.py

A name is turned where it is declared, in every file that imports it, and, if it is a record's field, everywhere. A dash stays only
in a lemma's name between two names of definitions, as in `bytes-be`, the law of `bytes` and `be`. Names from the library and from src/ keep their
spelling. --list prints the names that change and writes nothing. Names that would fall together are given in APART.
"""

import collections
import glob
import re
import sys

# Two names of one spelling otherwise: a section's place is where it begins, and two lemmas are named by their left sides. `first_of` is a tactic.
APART = {"holes-at": "holes_start", "nodes-at": "nodes_start", "pairs-at": "pairs_start", "hole-at": "hole-holes_at", "list_at": "get_or-list_at", "first_of": "first_passing"}
# What the library calls a list or a number by; a dash may stand beside these.
WORDS = set("length take drop map append get_or sum replicate set filter reverse".split())
NAME = r"[^\s(){}.,;:λ\[\]«»=`|]+"
LEAD = r"(?:pub |abbrev |unfoldable |infix\w* )*"


def declared(path):
    """The names that a file of specs/ or proofs/ declares: (of definitions and lemmas, of fields)."""
    names, fields, record = set(), set(), None
    for line in open(path, encoding="utf-8"):
        text = line.strip()
        if not text or text.startswith("--"):
            continue
        indent = len(line) - len(line.lstrip())
        if re.match(rf" *{LEAD}(?:data|record) ", line):
            record = indent
            continue
        if record is not None and indent <= record:
            record = None
        rule = re.match(rf" *{LEAD}ruleset ({NAME}) =", line)
        if rule:
            names.add(rule[1])
            continue
        found = re.match(rf" {{0,2}}{LEAD}((?:{NAME} )+):(?= |$)", line)
        if found:
            (names if record is None else fields).update(found[1].split())
    return names, fields


def snake(name):
    return re.sub(r"(?<=[a-z0-9])([A-Z])", lambda m: "_" + m[1].lower(), name)


def turned(name, words):
    if name in APART:
        return APART[name]
    if "◌" in name:
        return snake(name.replace("-", "_"))
    if name[0].isupper():
        return name if "-" not in name else name.replace("-", "_")
    parts = [snake(it) for it in name.split("-")]
    first, rest = parts[0], "_".join(parts[1:])
    if rest and first in words and rest in words:
        return f"{first}-{rest}"
    return "_".join(parts)


def imported(text):
    """The names that a file takes from modules of the repository."""
    names = set()
    for module, group in re.findall(r"use (Rattle\.\w+\.[^\s{]+)\.\{([^}]*)\}", text):
        if module.split(".")[1] in CRATES:
            for it in group.split(","):
                names.update(it.split()[:1])
    return names


def replaced(text, table, fields):
    """The text with each name of the table turned, and each field behind a dot, in a record's head or in a literal."""
    word = re.compile(rf"(?<![\w'′·²◌.-])({'|'.join(re.escape(it) for it in sorted(table, key=len, reverse=True))})(?![\w'′·◌²-])") if table else None
    if word:
        text = word.sub(lambda m: table[m[1]], text)
    if fields:
        both = "|".join(re.escape(it) for it in sorted(fields, key=len, reverse=True))
        text = re.sub(rf"(?<=\.)({both})(?![\w'′·◌²-])", lambda m: fields[m[1]], text)
        text = re.sub(rf"(?<![\w'′·◌².-])({both})(?= [:=] )", lambda m: fields[m[1]], text)
    return text


CRATES = {p.split("/")[1] for p in glob.glob("crates/*/src")}


def main():
    files = sorted(glob.glob("crates/*/specs/**/*.antt", recursive=True) + glob.glob("crates/*/proofs/**/*.antt", recursive=True))
    here = {f: declared(f) for f in files}
    words = WORDS | {snake(n) for f in files if "/specs/" in f for n in here[f][0] if "-" not in n}
    names = set().union(*(here[f][0] for f in files if not f.endswith("/Proof.antt")))
    fields = set().union(*(here[f][1] for f in files))
    defined = set().union(*(here[f][0] for f in files if "/specs/" in f))
    table = {n: turned(n, set() if n in defined else words) for n in names}
    table = {o: n for o, n in table.items() if o != n}
    of_fields = {n: turned(n, set()) for n in fields if turned(n, set()) != n}
    # names that fall together
    spelled = collections.defaultdict(set)
    for n in names:
        spelled[table.get(n, n)].add(n)
    for new, olds in sorted(spelled.items()):
        if len(olds) > 1:
            print(f"together: {new}: {', '.join(sorted(olds))}")
    if "--list" in sys.argv:
        for n in sorted(table):
            print(f"{n} {table[n]}")
        for n in sorted(of_fields):
            print(f".{n} .{of_fields[n]}")
        return
    for f in files + sorted(glob.glob("crates/*/src/*.rt")):
        text = open(f, encoding="utf-8").read()
        own = here[f][0] if f in here else set()
        if f.endswith("/Proof.antt"):
            own = {n for n in own if not re.search(rf"^{re.escape(n)} : tie\.|^ +{re.escape(n)} : \S+-lts\.", text, re.M) and not n.endswith(("-spec", "_spec"))}
        seen = {n: table[n] if n in table else turned(n, words) for n in own | imported(text) if n in table or n in own}
        seen = {o: n for o, n in seen.items() if o != n}
        for o, n in list(seen.items()):
            # the words of an operator stand apart in a term: in◌else◌ is `in x else y`
            seen.update((a, b) for a, b in zip(o.split("◌"), n.split("◌")) if "◌" in o and a != b)
        new = replaced(text, seen, of_fields)
        if new != text:
            with open(f, "w", encoding="utf-8") as out:
                out.write(new)


main()
