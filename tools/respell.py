#!/usr/bin/env python3
"""Respells this repository's definitions and lemmas by the table respell.tsv beside this file.

usage: python3 tools/respell.py [TOP]

It was run once over crates/ of the folder TOP, or of this repository, behind the kit's port.py. Whole words turn, in the
.antt files and in the .rt files; names in snake case and names of types stay, so Rust's own names do not turn.
"""

import os
import re
import sys

HERE = os.path.dirname(os.path.realpath(__file__))
WORD = re.compile(r"[^\s(){}.;,@\"«»:\[\]&*!?`]+")


def table():
    with open(os.path.join(HERE, "respell.tsv"), encoding="utf-8") as f:
        return dict(line.rstrip("\n").split("\t") for line in f if line.strip())


def main(argv):
    top = argv[0] if argv else os.path.dirname(HERE)
    names = table()
    for folder, folders, files in os.walk(os.path.join(top, "crates")):
        folders[:] = sorted(f for f in folders if f != "out")
        for name in sorted(files):
            if not name.endswith((".antt", ".rt")):
                continue
            path = os.path.join(folder, name)
            with open(path, encoding="utf-8") as f:
                old = f.read()
            new = WORD.sub(lambda m: names.get(m.group(), m.group()), old)
            if new != old:
                with open(path, "w", encoding="utf-8") as f:
                    f.write(new)


if __name__ == "__main__":
    main(sys.argv[1:])
