#!/usr/bin/env python3
"""to_blif.py DRAWING

Prints a drawing file (edition 1, one that the rules accept) in the Berkeley Logic Interchange Format. Inputs are named i1, i2, ..,
outputs o0, o1, .., other vertices v0, v1, .. by their numbers.
"""
import sys

# The rows of a gate's table on which it is 1, for references that are not inverted; `-` stands for either digit.
ROWS = {"and": ["11"], "or": ["1-", "-1"], "xor": ["10", "01"]}
OTHER = {"0": "1", "1": "0", "-": "-"}


def blif(text):
    records = [line.split("\t") for line in text.splitlines()]
    inputs, gates, outputs = map(int, records[0][2:])
    names = ["v0"] + ["i%d" % number for number in range(1, inputs + 1)]
    names += ["v%d" % number for number in range(inputs + 1, inputs + gates + 1)]

    def table(references, name, rows):
        """The lines of one vertex: a digit of a row is exchanged where its reference is inverted."""
        lines = [" ".join([".names"] + [names[r // 2] for r in references] + [name])]
        for row in rows:
            lines.append("".join(OTHER[digit] if r % 2 else digit for r, digit in zip(references, row)) + " 1")
        return lines

    lines = [".model drawing", ".inputs " + " ".join(names[1:inputs + 1])]
    lines += [".outputs " + " ".join("o%d" % number for number in range(outputs)), ".names v0"]
    for number, (_, op, p, q) in enumerate(records[1:gates + 1], inputs + 1):
        lines += table([int(p), int(q)], names[number], ROWS[op])
    for number, (_, r) in enumerate(records[gates + 1:]):
        lines += table([int(r)], "o%d" % number, ["1"])
    return "\n".join(lines + [".end"]) + "\n"


if __name__ == "__main__":
    if len(sys.argv) != 2:
        sys.exit(__doc__)
    with open(sys.argv[1]) as file:
        sys.stdout.write(blif(file.read()))
