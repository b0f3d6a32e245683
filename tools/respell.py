#!/usr/bin/env python3
"""Brings the repository's own definitions and lemmas to snake case, once, after the kit's port.py.

respelling.tsv beside this file has each old name and its new one. Words, fields and constructors are in snake case; a dash stays in a
lemma's name where it joins two words, as in length-pasted; a lemma that would fall together with a function or a word gets '_lem'.
Names of functions, names that Rattle makes, strings, inputs and outputs stay. Run it at the top of the repository.
"""
import os
import re

TABLE = os.path.join(os.path.dirname(os.path.realpath(__file__)), "respelling.tsv")
NAME = re.compile(r"(?<![A-Za-z0-9_'◌₀-₟-])[A-Za-z_][A-Za-z0-9_'₀-₟-]*")


def main():
    with open(TABLE, encoding="utf-8") as table:
        turn = dict(line.rstrip("\n").split("\t") for line in table)
    for top, folders, names in os.walk("crates"):
        folders[:] = [f for f in folders if f != "out"]
        for name in names:
            if not name.endswith((".antt", ".rt")):
                continue
            path = os.path.join(top, name)
            with open(path, encoding="utf-8") as file:
                old = file.read()
            new = NAME.sub(lambda m: turn.get(m.group(0), m.group(0)), old)
            if new != old:
                with open(path, "w", encoding="utf-8") as file:
                    file.write(new)


if __name__ == "__main__":
    main()
