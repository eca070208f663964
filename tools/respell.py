#!/usr/bin/env python3
"""Brings the names of definitions and lemmas to snake case, once, in a tree that the kit's port.py has turned.

usage: python3 tools/respell.py [TREE]

tools/respell.tsv has a row for each name: old, a tab, new. A definition keeps its words, as `rowsOf` becomes `rows_of`.
A lemma that would have a definition's name gets `_lem`; those rows have a third column, the files that they are for.
Functions of src/, strings, inputs and outputs keep their names. The crate `check` becomes `lineup_check`, since the kit
has a library of the old name. It runs once: where `check` is gone it stops.
"""
import os
import re
import subprocess
import sys

HERE = os.path.dirname(os.path.realpath(__file__))
WORD = re.compile(r'[^\s(){}.;,@"«»]+')
QUIET = re.compile(r'"(?:[^"\\\n]|\\.)*"|(?<![^\s(){}.;,@"«»])--[^\n]*')
GHOST = re.compile(r"ghost\s+use\b[^;]*;|^[ \t]*(?:requires|ensures|ghost)\b[^\n]*", re.M)
OLD_CRATE, NEW_CRATE = "check", "lineup_check"


def table():
    everywhere, some = {}, []
    with open(os.path.join(HERE, "respell.tsv"), encoding="utf-8") as f:
        for line in f:
            old, new, *where = line.rstrip("\n").split("\t")
            if where:
                some.append((old, new, where[0]))
            else:
                everywhere[old] = new
    return everywhere, some


def turned(text, names, lemmas):
    """The text with its names turned; a lemma's name stays where it is a part of something else, behind a dot."""

    def one(m):
        word, at = m.group(), m.start()
        if word in lemmas and text[at - 1 : at] != ".":
            return lemmas[word]
        return names.get(word, word)

    return WORD.sub(one, text)


def antt(text, names, lemmas):
    out, at = [], 0
    for m in QUIET.finditer(text):
        out += [turned(text[at : m.start()], names, lemmas), m.group()]
        at = m.end()
    return "".join(out) + turned(text[at:], names, lemmas)


def source(text, names):
    return GHOST.sub(lambda m: turned(m.group(), names, {}), text)


def renamed_crate(path, text):
    text = re.sub(rf"\bRattle\.{OLD_CRATE}\.", f"Rattle.{NEW_CRATE}.", text)
    if path.endswith(".rt"):
        text = re.sub(rf"\buse {OLD_CRATE}::", f"use {NEW_CRATE}::", text)
    return text


def main():
    tree = sys.argv[1] if len(sys.argv) > 1 else os.path.join(HERE, "..")
    os.chdir(tree)
    names, some = table()
    if not os.path.isdir(f"crates/{OLD_CRATE}"):
        sys.exit(f"respell: there is no crate {OLD_CRATE}: the names are turned already")
    subprocess.run(["git", "mv", f"crates/{OLD_CRATE}", f"crates/{NEW_CRATE}"], check=True)
    with open("crates.txt", encoding="utf-8") as f:
        lines = [re.sub(rf"(?<!\S){OLD_CRATE}(?![\w])", NEW_CRATE, l) if not l.startswith("#") else l for l in f]
    with open("crates.txt", "w", encoding="utf-8") as f:
        f.writelines(lines)
    for folder, dirs, files in os.walk("crates"):
        dirs[:] = sorted(d for d in dirs if d != "out")
        for name in sorted(files):
            path = os.path.join(folder, name)
            if not path.endswith((".antt", ".rt")):
                continue
            with open(path, encoding="utf-8") as f:
                text = f.read()
            lemmas = {old: new for old, new, where in some if re.search(where, path)}
            for old, new in {**names, **lemmas}.items():
                if path.endswith(".antt") and old in WORD.findall(text) and new in WORD.findall(text) and new not in lemmas:
                    print(f"look: {path}: '{old}' and '{new}' fall together")
            new = antt(text, names, lemmas) if path.endswith(".antt") else source(text, names)
            new = renamed_crate(path, new)
            if new != text:
                with open(path, "w", encoding="utf-8") as f:
                    f.write(new)


main()
