#!/usr/bin/env python3
"""Turns the names of definitions and lemmas from camel case to snake case, as 'hatBy' to 'hat_by'.

usage: python3 tools/respell.py          at the top: rewrites crates/ and the pages by the table beside this script
       python3 tools/respell.py --table  writes that table anew, from every such word of specs/ and proofs/

A word turns where it stands whole: in .antt files, in .rt files but for text in quotes, in a must-fail edit's lines 'old:' and 'new:', and in a page's code spans.
A name that a dash joins turns part by part, as 'valueOf-is' to 'value_of-is'. Types, modules and constructors keep their capitals, and names of src/ are in snake case already.
"""
import glob
import os
import re
import sys

TABLE = os.path.join(os.path.dirname(os.path.abspath(__file__)), "respell.tsv")
WORD = re.compile(r"(?<![\w'])[a-z][a-z0-9]*(?:[A-Z][A-Za-z0-9]*)+'*(?![\w'])")
QUOTED = re.compile(r'"(?:[^"\\\n]|\\.)*"')
SPAN = re.compile(r"`[^`\n]+`")
LIBRARY = {"findsLast"}


def snake(word):
    return re.sub(r"(?<=[a-z0-9])(?=[A-Z])|(?<=[A-Z])(?=[A-Z][a-z])", "_", word).lower()


def files(*endings):
    for folder, dirs, names in os.walk("."):
        dirs[:] = sorted(d for d in dirs if d not in (".git", "out", "W-203"))
        for name in sorted(names):
            if name.endswith(endings):
                yield os.path.join(folder, name)


def read(path):
    with open(path, encoding="utf-8") as f:
        return f.read()


def collect():
    words = set()
    for path in files(".antt"):
        words.update(WORD.findall(read(path)))
    with open(TABLE, "w", encoding="utf-8") as f:
        for word in sorted(words - LIBRARY):
            f.write(f"{word}\t{snake(word)}\n")


def main():
    if "--table" in sys.argv:
        collect()
        return
    table = dict(line.split("\t") for line in read(TABLE).splitlines())

    def turn(text):
        return WORD.sub(lambda m: table.get(m.group(), m.group()), text)

    def outside(pattern, text):
        at, out = 0, []
        for m in pattern.finditer(text):
            out += [turn(text[at : m.start()]), m.group()]
            at = m.end()
        return "".join(out) + turn(text[at:])

    for path in files(".antt", ".rt", ".edit", ".md"):
        old = read(path)
        if path.endswith(".antt"):
            new = turn(old)
        elif path.endswith(".rt"):
            new = outside(QUOTED, old)
        elif path.endswith(".edit"):
            new = "\n".join(turn(l) if l.startswith(("old:", "new:")) else l for l in old.split("\n"))
        else:
            new = SPAN.sub(lambda m: turn(m.group()), old)
        if new != old:
            with open(path, "w", encoding="utf-8") as f:
                f.write(new)


main()
