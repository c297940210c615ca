#!/usr/bin/env python3
"""Turns the repository's own names to the spelling of the kit: words in snake case, types in camel case.

usage: python3 tools/respell.py        at the top of a checkout, once, behind the kit's port.py

tools/respelled.tsv has a line for each name: the old one, the new one and, where a name is turned in some files alone, those files;
`pages` stands for names that port.py has turned in the sources, and leaves alone in pages and must-fail edits.
Turned are whole names in .antt and .rt files, in must-fail edits, and between backticks in the pages. A name with a dash is left alone
in text that is read as English: in comments and strings.
"""
import glob
import os
import re

HERE = os.path.dirname(os.path.realpath(__file__))
ROOT = os.path.dirname(HERE)
NAME = re.compile(r"[^\s(){}\[\],;.\"`]+")


def table():
    everywhere, somewhere = {}, {}
    with open(os.path.join(HERE, "respelled.tsv"), encoding="utf-8") as lines:
        for line in lines:
            old, new, *files = line.rstrip("\n").split("\t")
            if files:
                for name in files[0].split(" "):
                    somewhere.setdefault(name, {})[old] = new
            else:
                everywhere[old] = new
    return everywhere, somewhere


def turned(text, names):
    return NAME.sub(lambda m: names.get(m[0], m[0]), text)


def without_dashes(names):
    return {old: new for old, new in names.items() if "-" not in old}


def turned_antt(text, names):
    lines = []
    for line in text.split("\n"):
        code, dash, comment = line.partition("-- ") if line.lstrip().startswith("-- ") or " -- " in line else (line, "", "")
        comment = re.sub(r"`[^`]+`", lambda m: turned(m[0], names), turned(comment, without_dashes(names)))
        lines.append(turned(code, names) + dash + comment)
    return "\n".join(lines)


def turned_source(text, names):
    parts = re.split(r'(b?"(?:[^"\\]|\\.)*")', text)
    return "".join(part if at % 2 else turned(part, without_dashes(names)) for at, part in enumerate(parts))


def turned_edit(text, names):
    lines = text.split("\n")
    return "\n".join(line if line.startswith("#") else turned(line, names) for line in lines)


def turned_page(text, names):
    return re.sub(r"`[^`\n]+`", lambda m: turned(m[0], names), text)


def main():
    everywhere, somewhere = table()
    kinds = [
        ("crates/*/src/*.rt", turned_source),
        ("crates/*/specs/**/*.antt", turned_antt),
        ("crates/*/proofs/**/*.antt", turned_antt),
        ("crates/*/must-fail/*.edit", turned_edit),
        ("*.md", turned_page),
        ("docs/**/*.md", turned_page),
    ]
    changed = 0
    for pattern, turn in kinds:
        for path in sorted(glob.glob(os.path.join(ROOT, pattern), recursive=True)):
            name = os.path.relpath(path, ROOT)
            with open(path, encoding="utf-8") as f:
                old = f.read()
            first = somewhere.get("pages" if turn in (turned_edit, turned_page) else name, {})
            new = turn(turn(old, first), everywhere)
            if new != old:
                changed += 1
                with open(path, "w", encoding="utf-8") as f:
                    f.write(new)
    print(f"{len(everywhere)} names, {changed} files changed")


if __name__ == "__main__":
    main()
