#!/usr/bin/env python3
"""pairs.py CRATE TARGET

Writes TARGET/data/names and TARGET/stdout for the program run_pairs, from the folders of CRATE/data, each with `expected.tsv`, what the
program `compare` prints of its `left.tsv` and `right.tsv`. After the pairs come the nine slices that the call is lent, each one element
short: out, table, pairs, look, diagrams, stages, rows, marks, setting.
"""
import os
import sys

SHORT = [b"nothing\n", b"refused\t9\t0\t0\n"] + 7 * [b"nothing\n"]


def main():
    source, target = sys.argv[1:]
    folder = os.path.join(source, "data")
    names = sorted(name for name in os.listdir(folder) if os.path.isdir(os.path.join(folder, name)))
    with open(os.path.join(target, "data", "names"), "w") as file:
        file.writelines(name + "\n" for name in names)
    with open(os.path.join(target, "stdout"), "wb") as out:
        for name in names:
            with open(os.path.join(folder, name, "expected.tsv"), "rb") as file:
                out.write(name.encode() + b"\n" + file.read())
        out.writelines(SHORT)


main()
