#!/usr/bin/env python3
"""Gives the definitions and laws of this repository the spelling of today's Rattle: words in snake case.

usage: tools/port/names.py        at the top of the repository, once, right after the kit's own script

names.txt beside it has a line for each name, the old one and the new one. Among them are those that the kit's script
renamed in the crates, since it leaves must-fail/, docs/ and tools/ as they are. Of several dashes in a name those stay
that join the names of two functions, as in length-up_to. A law that would have its function's name ends in _lem.
"""
import os
import re

HERE = os.path.dirname(os.path.realpath(__file__))
TOP = os.path.dirname(os.path.dirname(HERE))
NAMES = dict(line.split() for line in open(os.path.join(HERE, "names.txt"), encoding="utf-8"))
# A name's letters: a dash and an apostrophe are among them.
LETTER = r"\w'\-◌·≤→"
EACH = re.compile(rf"(?<![{LETTER}])(?:{'|'.join(map(re.escape, sorted(NAMES, key=len, reverse=True)))})(?![{LETTER}])")
CAMEL = re.compile(r"[a-z0-9][A-Z]")


def spelled(text, dashes, fields):
    """The text with each name in its new spelling: with names that have a dash, and with fields behind a dot."""

    def new(it):
        old = it.group()
        if "-" in old and not dashes:
            return old
        if it.start() and text[it.start() - 1] == "." and not fields and not CAMEL.search(old):
            return old
        return NAMES[old]

    return EACH.sub(new, text)


def kind(path):
    """Whether names with a dash, and fields behind a dot, are ours in this file; None where it has no names of ours."""
    if path.startswith("crates/"):
        if path.endswith("Proof.antt"):
            # behind a dot stand names that Rattle makes
            return True, False
        if path.endswith((".antt", ".edit")):
            return True, True
        if path.endswith(".rt"):
            return False, True
    if path.startswith("tools/wrong/") and path.endswith((".edits", ".pairs")):
        return True, True
    if path.endswith(".md") and (path.startswith(("docs/", "tools/")) or path == "README.md"):
        return True, True
    if path.startswith("tools/oracle/") and path.endswith(".rs"):
        return False, True
    return None


def main():
    for folder, folders, files in os.walk(TOP):
        folders[:] = sorted(f for f in folders if f not in ("out", "target", ".git", "port", "archives"))
        for name in sorted(files):
            path = os.path.relpath(os.path.join(folder, name), TOP)
            which = kind(path)
            if which is None:
                continue
            with open(os.path.join(TOP, path), encoding="utf-8") as file:
                text = file.read()
            after = spelled(text, *which)
            if after != text:
                with open(os.path.join(TOP, path), "w", encoding="utf-8") as file:
                    file.write(after)


if __name__ == "__main__":
    main()
