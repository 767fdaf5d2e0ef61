#!/usr/bin/env python3
"""Brings the repository's own definitions and lemmas to today's spelling, by the table respell.tsv beside this file.

usage: python3 tools/respell.py      at the top of the checkout, once, after port.py of the toolchain

A line of the table: `name` or `field`, the old word, the new word, and the files that it is for where it is not for all. Words are in snake case; a dash stays
where it joins two names; a lemma that would have a definition's name ends in `_lem`. Behind a dot only a field or a word with a capital inside is renamed, since
other names there are the toolchain's or a Rattle function's. In .rt files and must-fail edits, which hold no lemma, only words with a capital inside are renamed.
The crate `bytes` becomes `line_bytes`, since the toolchain has a library of that name.
"""

import os
import re

TOP = os.path.join(os.path.dirname(os.path.abspath(__file__)), "..")
TOKEN = re.compile(r"[^\s(){}\[\],;.:«»@`\"]+")
INNER_CAPITAL = re.compile(r"[a-z0-9][A-Z]")


def table():
    every, some = {}, {}
    with open(os.path.join(TOP, "tools", "respell.tsv"), encoding="utf-8") as lines:
        for line in lines:
            kind, old, new, *files = line.rstrip("\n").split("\t")
            if files:
                for file in files[0].split(" "):
                    some.setdefault(file, {})[old] = (kind, new)
            else:
                every[old] = (kind, new)
    return every, some


def turned(text, words, code):
    def word(match):
        old = match[0]
        kind, new = words.get(old, ("", old))
        capital = bool(INNER_CAPITAL.search(old))
        behind_dot = match.start() > 0 and text[match.start() - 1] == "."
        if (behind_dot or code) and not capital and not (behind_dot and kind == "field"):
            return old
        return new

    return TOKEN.sub(word, text)


def move_crate():
    """The crate bytes, under its new name wherever a path or a list of crates names it."""
    crates = os.path.join(TOP, "crates")
    if os.path.isdir(os.path.join(crates, "bytes")):
        os.rename(os.path.join(crates, "bytes"), os.path.join(crates, "line_bytes"))
    listed = os.path.join(TOP, "crates.txt")
    with open(listed, encoding="utf-8") as it:
        text = it.read()
    with open(listed, "w", encoding="utf-8") as it:
        it.write(re.sub(r"\bbytes\b", "line_bytes", text))


def main():
    every, some = table()
    move_crate()
    changed = 0
    for folder, folders, files in os.walk(os.path.join(TOP, "crates")):
        folders[:] = sorted(f for f in folders if f != "out")
        for file in sorted(files):
            if not file.endswith((".rt", ".antt", ".edit")):
                continue
            path = os.path.join(folder, file)
            with open(path, encoding="utf-8") as it:
                text = it.read()
            words = {**every, **some.get(os.path.relpath(path, TOP).replace("crates/line_bytes/", "crates/bytes/"), {})}
            new = turned(text, words, not file.endswith(".antt"))
            new = re.sub(r"(?<![\w.])bytes::", "line_bytes::", new.replace("Rattle.bytes.", "Rattle.line_bytes."))
            if new != text:
                with open(path, "w", encoding="utf-8") as it:
                    it.write(new)
                changed += 1
    print(f"respell: {changed} files changed")


if __name__ == "__main__":
    main()
