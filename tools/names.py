#!/usr/bin/env python3
"""Brings definitions and lemmas to today's spelling: each name of tools/names.tsv to the one beside it.

usage: python3 tools/names.py          at the top of the repository, once, after port.py

It goes by whole words over the .rt, .antt and .edit files below crates/. A step of a proof that walks the code has the
name of a function: such a word, behind a dot in proofs/F/Proof.antt, stays where the table ends it with _lem.
"""

import os
import re

HERE = os.path.dirname(os.path.abspath(__file__))
TOP = os.path.dirname(HERE)
WORD = re.compile(r"(?<![\w'₀-₉-])[A-Za-z][\w'₀-₉]*(?:-[\w'₀-₉]+)*(?![\w'₀-₉-])")


def main():
    with open(os.path.join(HERE, "names.tsv"), encoding="utf8") as f:
        table = dict(line.rstrip("\n").split("\t") for line in f)
    changed = 0
    for folder, dirs, names in os.walk(os.path.join(TOP, "crates")):
        dirs[:] = sorted(d for d in dirs if d != "out")
        for name in sorted(names):
            if not name.endswith((".rt", ".antt", ".edit")):
                continue
            path = os.path.join(folder, name)
            with open(path, encoding="utf8") as f:
                text = f.read()

            def new(m):
                word = m.group(0)
                to = table.get(word, word)
                step = name == "Proof.antt" and text[m.start() - 1 : m.start()] == "."
                return word if step and to.endswith("_lem") else to

            after = WORD.sub(new, text)
            if after != text:
                changed += 1
                with open(path, "w", encoding="utf8") as f:
                    f.write(after)
    print(f"names: {changed} files changed")


if __name__ == "__main__":
    main()
