#!/usr/bin/env python3
"""Brings the repository's own names in specs/ and proofs/ to today's spelling: words in snake case.

usage: python3 tools/respell.py     at the top of the repository, once, after the toolchain's port.py

A name in camel case (nodeHeight) becomes node_height wherever it stands. Of the names with a dash, those of definitions, fields, constructors and rulesets in specs/
(after-five) get an underscore; a lemma keeps its dashes, which join the names that it is about. Functions of src/, exported names, strings, and the folders
of proofs keep their names. Where a new name would meet another in one file, a name with a dash keeps it; a name in camel case stops the script.
"""
import collections
import glob
import re
import sys

WORD = r"[^\s(){}.,;:\[\]`\"|*]+"
# Beside a name of the same words: the Rust function's own name
OTHER = {"notNegative": "is_not_negative"}
NOT_NAMES = {"use", "--", "module", "unfolding", "where", "let", "in", "deriving", "open", "mod", "λ", "→", "×"}


def antt():
    return sorted(glob.glob("crates/*/specs/**/*.antt", recursive=True) + glob.glob("crates/*/proofs/**/*.antt", recursive=True))


def declared():
    """Each name that a file declares, with what it is: a field, a constructor, a ruleset, a definition or a lemma."""
    for path in antt():
        inside = None
        with open(path, encoding="utf-8") as file:
            for line in file:
                text = line.lstrip()
                if not text or text.startswith("--"):
                    continue
                indent = len(line) - len(text)
                if inside and indent <= inside[1]:
                    inside = None
                found = re.match(r"((?:(?:pub|abbrev|unfoldable|record|data|ruleset)\s+)*)([^\s:(){}]+)\s*(.*)$", text)
                if not found or found[2] in NOT_NAMES:
                    continue
                words = found[1].split()
                if "record" in words or "data" in words:
                    inside = ("field" if "record" in words else "constructor", indent)
                elif "ruleset" in words:
                    yield found[2], "ruleset", path
                elif found[3].startswith(":"):
                    kind = inside[0] if inside else "definition" if "abbrev" in words or "unfoldable" in words else "lemma"
                    yield found[2], kind, path


def snake(name):
    return re.sub(r"([a-z0-9])([A-Z])", lambda m: m[1] + "_" + m[2].lower(), name)


def wanted():
    new = {}
    for name, kind, path in declared():
        if not name[0].islower() or name.startswith(("invariant-", "decreases-")):
            continue
        if re.search("[a-z0-9][A-Z]", name):
            new[name] = OTHER.get(name, snake(name))
        elif "-" in name and kind != "lemma" and "/specs/" in path:
            new[name] = name.replace("-", "_")
    return new


def settled(new):
    """The names that change: without those with a dash whose new name meets another in one file."""
    where = collections.defaultdict(set)
    for path in antt() + sorted(glob.glob("crates/*/src/**/*.rt", recursive=True)):
        with open(path, encoding="utf-8") as file:
            for line in file:
                if re.match(r"\s*(--|//)", line):
                    continue
                line = re.sub(r"(pub )?(unsafe )?(extern \"C\" )?fn \w+|\bRattle(\.[\w+]+)+|\b\w+\(|\b\w+::\w+", " ", line)
                for word in re.findall(WORD, line):
                    where[word].add(path)
    olds = collections.defaultdict(set)
    for old, name in new.items():
        olds[name].add(old)
    keep = {}
    for old, name in new.items():
        others = {o for o in olds[name] - {old} if "-" not in o or "-" in old} | ({name} if name in where else set())
        meets = sorted(o for o in others if where[o] & where[old])
        if not meets:
            keep[old] = name
        elif "-" not in old:
            sys.exit(f"respell: {old} as {name} meets {meets} in {sorted(where[meets[0]] & where[old])[:3]}")
        else:
            print(f"respell: {old} keeps its dash beside {', '.join(meets)}")
    return keep


def rewrite(path, keep, everywhere):
    with open(path, encoding="utf-8") as file:
        text = file.read()

    def words(part):
        return re.sub(WORD, lambda m: keep.get(m[0], m[0]), part)

    if everywhere:
        parts = re.split(r"(\"(?:[^\"\\\n]|\\.)*\")", text)
        now = "".join(p if k % 2 else words(p) for k, p in enumerate(parts))
    else:
        parts = re.split(r"(`[^`\n]*`)", text)
        now = "".join(words(p) if k % 2 else p for k, p in enumerate(parts))
    if now != text:
        with open(path, "w", encoding="utf-8") as file:
            file.write(now)


def main():
    keep = settled(wanted())
    for path in antt() + sorted(glob.glob("crates/*/src/**/*.rt", recursive=True) + glob.glob("crates/*/must-fail/*.edit")):
        rewrite(path, keep, True)
    for path in ["README.md"] + sorted(glob.glob("docs/*.md")):
        rewrite(path, keep, False)
    print(f"respell: {len(keep)} names")


if __name__ == "__main__":
    main()
