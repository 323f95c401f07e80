#!/usr/bin/env python3
"""Brings this repository's own definitions and lemmas to the spelling of today's Rattle: functions, lemmas, fields and
constructors in snake case, facts in camel case, a dash only between two names. It goes by whole names and by the table
in respell.txt, old name and new name; a definition that the table would have given the name of a function of src/ has
`_of` after it, or another name.

usage: python3 tools/respell.py        once, at the top, right after Rattle's own port script; tools/respell.txt is the table
"""
import os
import re

HERE = os.path.dirname(os.path.realpath(__file__))
# what stands between two names of a clause, a specification or a proof
WORD = re.compile(r"[^\s(){}\[\].,;:«»|&=<>!*+/%\"]+")


def main():
    with open(os.path.join(HERE, "respell.txt"), encoding="utf-8") as f:
        table = dict(line.split() for line in f if line.strip())
    changed = 0
    for folder, dirs, files in os.walk("crates"):
        dirs[:] = [d for d in dirs if d != "out"]
        for name in files:
            if not name.endswith((".rt", ".antt")):
                continue
            path = os.path.join(folder, name)
            with open(path, encoding="utf-8") as f:
                old = f.read()
            new = WORD.sub(lambda m: table.get(m.group(0), m.group(0)), old)
            if new != old:
                changed += 1
                with open(path, "w", encoding="utf-8") as f:
                    f.write(new)
    print(f"{changed} files respelled by {len(table)} names")


main()
