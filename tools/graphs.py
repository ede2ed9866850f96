#!/usr/bin/env python3
"""graphs.py COMPARISONS CRATE

Writes CRATE/data/graphs.txt, the sweeps that the program `run_sweep` runs, and CRATE/stdout, what it must print.

COMPARISONS (tools/comparisons.tsv) has a line for each comparison, with tabs between: list, left, right (lines parted by `;`,
fields by `,`), output, size limit, row limit, step limit, then what must come: reply, vertex, setting, rows, steps, rows added, marks
(a digit for each vertex), the table's words, r's last. Lines with the same list number follow one another on one table. Only the lines of edition 1
whose table has 1 for r are taken here: a sweep knows neither names nor r.

graphs.txt has a card for each such comparison, with `%` between them, and each card's fields with `|` between them: list; how many
vertices come first (the constant and the inputs) and how many there are; inputs; the two literals looked at; size limit, row limit, step
limit; the graph as loaded (two words a vertex, with `,` between them); and the end of the line. The graph is empty where the card
goes on with the graph as the card before left it.

CRATE/stdout has a line for each: the reply's line with the list for the output, the rows added, the marks, and the row of each made vertex as it is left.
"""
import sys

EDITION = "1"
TRUE = "1"
HEADER = 3


class Graph:
    """Rows by vertex; a first vertex holds its own literal twice."""

    def __init__(self, inputs):
        self.rows = [(2 * v, 2 * v) for v in range(inputs + 1)]
        self.places = {}

    def both(self, p, q):
        """The literal of an AND: folded, found or made."""
        if p == q:
            return p
        if p == q ^ 1 or 0 in (p, q):
            return 0
        if 1 in (p, q):
            return p + q - 1
        pair = (min(p, q), max(p, q))
        if pair not in self.places:
            self.places[pair] = 2 * len(self.rows)
            self.rows.append(pair)
        return self.places[pair]

    def gate(self, op, p, q):
        if op == "and":
            return self.both(p, q)
        if op == "or":
            return self.both(p ^ 1, q ^ 1) ^ 1
        first = self.both(p, q ^ 1)
        second = self.both(p ^ 1, q)
        return self.both(first ^ 1, second ^ 1) ^ 1

    def load(self, drawing):
        """Loads a file and gives back its output literals."""
        records = [line.split(",") for line in drawing.split(";")]
        literals = [2 * v for v in range(int(records[0][2]) + 1)]
        outputs = []
        for record in records[1:]:
            operands = [literals[int(r) // 2] ^ int(r) % 2 for r in record if r.isdigit()]
            if record[0] == "G":
                literals.append(self.gate(record[1], *operands))
            if record[0] == "O":
                outputs += operands
        return outputs


def case(fields, goes_on):
    """The card of a comparison, and the line that must come."""
    number, left, right, output, size, rows, steps, reply, vertex, setting, made_rows, made_steps, added, marks, table = fields
    inputs, made = map(int, table.split(",")[:2])
    graph = Graph(inputs)
    lefts = graph.load(left)
    rights = graph.load(right)
    words = "" if goes_on else ",".join("%d,%d" % row for row in graph.rows)
    looked_at = [lefts[int(output)], rights[int(output)]]
    card = [number, inputs + 1, len(graph.rows), inputs] + looked_at + [size, rows, steps, words, "\n"]
    after = table.split(",")[HEADER:HEADER + 2 * made]
    line = [EDITION, number, reply, setting, vertex, made_rows, made_steps, added, marks] + list(map(",".join, zip(after[::2], after[1::2])))
    return "|".join(map(str, card)), "\t".join(line) + "\n"


def main(comparisons, crate):
    with open(comparisons) as file:
        lines = [line.rstrip("\n").split("\t") for line in file]
    lines = [fields for fields in lines if fields[1].startswith("N," + EDITION) and fields[-1].endswith("," + TRUE)]
    befores = [None] + [fields[0] for fields in lines]
    cases = [case(fields, fields[0] == before) for fields, before in zip(lines, befores)]
    with open(crate + "/data/graphs.txt", "w") as file:
        file.write("%".join(card for card, _ in cases))
    with open(crate + "/stdout", "w") as file:
        file.write("".join(line for _, line in cases))


if __name__ == "__main__":
    if len(sys.argv) != 3:
        sys.exit(__doc__)
    main(sys.argv[1], sys.argv[2])
