#!/usr/bin/env python3
"""Spells the repository's own names as Rattle's library does: values, lemmas, fields and constructors in snake case, primes as '.

usage: tools/spell.py [--check] [FOLDER]

It turns the names that a file of crates/*/specs or crates/*/proofs declares, in the .antt files, in the clauses, ghost items and comments of
the .rt files, in the edits and in the code spans of the pages. Types, modules, and names that quote the standard's or the Rust's spelling
with a capital in front stay. It prints each new name that a file had already; --check writes nothing. A second run changes nothing.
"""
import glob
import os
import re
import sys

TOKEN = re.compile(r'[^\s(){}.;,@"«»\[\]`|:/#*<>]+')
CAMEL = re.compile(r"[a-z][\w'′₀-₉-]*[A-Z]")
HEAD = re.compile(r"(?:[^\s(){}.;,@\"«»\[\]]+\s+)*?$")


def snake(name):
    parts = []
    for part in name.split("-"):
        if re.match(r"[a-z]", part) and "_" not in part:
            part = re.sub(r"([a-z0-9])([A-Z])", lambda m: m[1] + "_" + m[2].lower(), part)
            part = re.sub(r"([A-Z])", lambda m: m[1].lower(), part)
        parts.append(part)
    return "-".join(parts)


def code_of(line):
    """Where the line's comment begins."""
    m = re.search(r"(?:^|(?<=\s))(--|//)", line)
    return m.start() if m else len(line)


def tokens(text):
    for line in text.split("\n"):
        yield from TOKEN.findall(line[: code_of(line)])


def names(root):
    """Every name with a capital behind a small first letter that a file of specs/ or proofs/ holds outside its comments."""
    found = set()
    for p in glob.glob(os.path.join(root, "crates/*/**/*.antt"), recursive=True):
        if "/out/" in p:
            continue
        with open(p, encoding="utf-8") as f:
            found.update(t for t in tokens(f.read()) if CAMEL.match(t))
    return {t: snake(t) for t in found if snake(t) != t}


def spell(text, table, primes):
    def turn(m):
        return table.get(m[0], m[0])

    if primes:
        text = text.replace("′", "'")
    return TOKEN.sub(turn, text)


def spans(text, table):
    """The pages: the names in code spans and in indented or fenced blocks of antt alone."""
    return re.sub(r"`[^`\n]*`", lambda m: TOKEN.sub(lambda t: table.get(t[0], t[0]), m[0]), text)


def main():
    words = [w for w in sys.argv[1:] if w != "--check"]
    check = "--check" in sys.argv[1:]
    root = words[0] if words else "."
    table = names(root)
    table |= {k.replace("′", "'"): v for k, v in table.items()}
    table = {k: v.replace("′", "'") for k, v in table.items()}
    news = set(table.values())
    changed = 0
    files = [p for e in ("antt", "rt", "edit") for p in glob.glob(os.path.join(root, f"crates/*/**/*.{e}"), recursive=True) if "/out/" not in p]
    files += glob.glob(os.path.join(root, "edits/*/*.edit"))
    pages = glob.glob(os.path.join(root, "*.md")) + glob.glob(os.path.join(root, "docs/*.md")) + glob.glob(os.path.join(root, "*/*.md"))
    for p in sorted(set(files) | set(pages)):
        with open(p, encoding="utf-8") as f:
            old = f.read()
        if p.endswith(".md"):
            new = spans(old, table)
        else:
            had = set(tokens(old)) & news
            new = spell(old, table, True)
            both = sorted(n for n in had if any(table.get(t) == n for t in set(tokens(old))))
            for n in both:
                if p.endswith(".antt") and re.search(rf"^\s*(?:pub )?{n} :", old, re.M):
                    # A lemma that would have its function's name ends in `_lem`.
                    new = spell(spell(old, {n: n + "_lem"}, False), table, True)
                print(f"look: {os.path.relpath(p, root)}: {n} was there already")
        if new != old:
            changed += 1
            if not check:
                with open(p, "w", encoding="utf-8") as f:
                    f.write(new)
    print(f"{len(table)} names, {changed} files {'would change' if check else 'changed'}")


main()
