#!/usr/bin/env python3
"""Spells the repository's own definitions and lemmas as today's Rattle spells its library.

usage: python3 tools/spell.py [--dry]     at the top of the repository, once, after the kit's port.py

A name in lower case keeps its words and joins them by `_` in place of `-`; a name with a capital (a fact, a type) joins
them by capitals. Only names that a file of specs/ or proofs/ defines are turned; what Rattle makes of the code (goals, steps)
and what the library defines keeps its dashes. Names in back quotes in README.md and docs/ are turned along.
"""

import collections
import glob
import re
import sys

DRY = "--dry" in sys.argv
WORD = r"[A-Za-z0-9_'ℕℤ\-≡≤<+*%/^=&|]"
TOKEN = re.compile(r"(?<![A-Za-z0-9_'ℕℤ\-])[A-Za-z][A-Za-z0-9_'ℕℤ]*(?:-[A-Za-z0-9_'ℕℤ]+)+(?![A-Za-z0-9_'ℕℤ\-])")
DEFINES = re.compile(r"^\s*(?:(?:abbrev|unfoldable|pub|data|record|ruleset|\|)\s+)*([A-Za-z][^\s(){}\[\],.;:]*)\s*(?:\(.*\)\s*)?:(?:\s|$)")
RULESET = re.compile(r"^\s*(?:pub\s+)?ruleset\s+(?:pub\s+)?([A-Za-z][^\s(){}\[\],.;:=]*)")


def antt_files():
    return sorted(glob.glob("crates/*/specs/**/*.antt", recursive=True) + glob.glob("crates/*/proofs/**/*.antt", recursive=True))


def rt_files():
    return sorted(glob.glob("crates/*/src/**/*.rt", recursive=True))


def spelled(name):
    if name[0].isupper():
        return "".join(part[0].upper() + part[1:] for part in name.split("-"))
    return name.replace("-", "_")


def own_names():
    names, made = set(), set()
    for path in antt_files():
        with open(path, encoding="utf-8") as f:
            text = f.read()
        made |= set(re.findall(r"\bgoal\.([A-Za-z][^\s(){}\[\],.;:]*)", text))
        fields = False
        for line in text.split("\n"):
            if line.strip().startswith("--"):
                continue
            found = DEFINES.match(line) or RULESET.match(line)
            if found and "-" in found.group(1):
                names.add(found.group(1))
    return {n for n in names if n not in made and TOKEN.fullmatch(n)}


def fields_of_records():
    fields = set()
    for path in antt_files():
        with open(path, encoding="utf-8") as f:
            inside = False
            for line in f:
                if re.match(r"^(abbrev |pub )*record ", line):
                    inside = True
                elif inside and re.match(r"^\S", line):
                    inside = False
                elif inside:
                    found = re.match(r"^\s+(?:pub\s+)?([A-Za-z][^\s(){}\[\],.;:]*)\s*:", line)
                    if found:
                        fields.add(found.group(1))
    return fields


def turn(text, names, fields):
    def one(m):
        name = m.group(0)
        if name not in names:
            return name
        before = text[: m.start()]
        if before.endswith(".") and name not in fields and not re.search(r"\b(?:specs|proofs)(?:\.[A-Za-z_+][\w+]*)+\.$", before[-200:]):
            return name
        return spelled(name)

    return TOKEN.sub(one, text)


def in_code(text, names, fields):
    """The clauses of a source: everything but comments and texts."""
    parts = re.split(r'(//[^\n]*|b?"(?:\\.|[^"\\])*")', text)
    return "".join(p if i % 2 else turn(p, names, fields) for i, p in enumerate(parts))


def in_quotes(text, names, fields):
    return re.sub(r"`[^`\n]*`", lambda m: turn(m.group(0), names, fields), text)


def in_antt(text, names, fields):
    parts = re.split(r"(--[^\n]*)", text)
    return "".join(in_quotes(p, names, fields) if i % 2 else turn(p, names, fields) for i, p in enumerate(parts))


def main():
    names, fields = own_names(), fields_of_records()
    to = collections.defaultdict(set)
    for n in names:
        to[spelled(n)].add(n)
    for new, old in sorted(to.items()):
        if len(old) > 1:
            print("fall together:", new, sorted(old))
    taken = collections.defaultdict(set)
    for path in antt_files() + rt_files():
        with open(path, encoding="utf-8") as f:
            for w in set(re.findall(r"[A-Za-z][A-Za-z0-9_'ℕℤ]*", re.sub(r"--[^\n]*|//[^\n]*", "", f.read()))):
                if w in to:
                    taken[w].add(path)
    for new, paths in sorted(taken.items()):
        print("taken:", new, "for", sorted(to[new]), "in", sorted(paths)[:4])
    for path in antt_files() + rt_files() + glob.glob("docs/*.md") + ["README.md"]:
        with open(path, encoding="utf-8") as f:
            text = f.read()
        how = in_antt if path.endswith(".antt") else in_code if path.endswith(".rt") else in_quotes
        new = how(text, names, fields)
        if new != text and not DRY:
            with open(path, "w", encoding="utf-8") as f:
                f.write(new)
    print(len(names), "names")


main()
