#!/usr/bin/env python3
"""examples.py EXAMPLES

Writes the drawings of the two examples that are too long to draw by hand:

  EXAMPLES/rows     the middle output of a product of two numbers of 10 bits: left a row of adders for each bit of the first number,
                    right one for each bit of the second
  EXAMPLES/steps    two locks with codes of 9 bits that open in different modes: left exactly one opens, right at least one opens

What the program prints on them, EXAMPLES/NAME/expected, is not written here.
"""
import sys

EDITION = 1
FALSE = 0


class Drawing:
    """A drawing file under way: gates and outputs as references."""

    def __init__(self, inputs):
        self.inputs = inputs
        self.gates = []
        self.outputs = []

    def input(self, number):
        return 2 * number

    def gate(self, op, p, q):
        self.gates.append((op, p, q))
        return 2 * (self.inputs + len(self.gates))

    def text(self):
        lines = ["N\t%d\t%d\t%d\t%d" % (EDITION, self.inputs, len(self.gates), len(self.outputs))]
        lines += ["G\t%s\t%d\t%d" % gate for gate in self.gates]
        lines += ["O\t%d" % reference for reference in self.outputs]
        return "\n".join(lines) + "\n"


def locks(bits, group, op):
    """op of two locks: the first opens where the mode line is 1 and its word is its code, the second where the mode line is 0 and its
    word is its code. The inputs are the two words, the two codes and the mode line. Words and codes are compared by groups of digits,
    the last group first."""
    drawing = Drawing(4 * bits + 1)
    mode = drawing.input(4 * bits + 1)

    def opened(allowed, word):
        for start in range(bits - group, -1, -group):
            alike = [drawing.gate("xor", drawing.input(word * bits + i), drawing.input((word + 2) * bits + i)) ^ 1
                     for i in range(start + 1, start + group + 1)]
            whole = alike[0]
            for digit in alike[1:]:
                whole = drawing.gate("and", whole, digit)
            allowed = drawing.gate("and", allowed, whole)
        return allowed

    first = opened(mode, 0)
    second = opened(mode ^ 1, 1)
    drawing.outputs = [drawing.gate(op, first, second)]
    return drawing


def full_adder(drawing, a, b, carry):
    """The sum and the carry out."""
    half = drawing.gate("xor", a, b)
    total = drawing.gate("xor", half, carry)
    both = drawing.gate("and", a, b)
    passed_on = drawing.gate("and", half, carry)
    return total, drawing.gate("or", both, passed_on)


def product(bits, output, by_second):
    """A bit of the product of two numbers, low bit first, with a row of adders for each bit of the first or of the second."""
    drawing = Drawing(2 * bits)
    first = [drawing.input(number) for number in range(1, bits + 1)]
    second = [drawing.input(number) for number in range(bits + 1, 2 * bits + 1)]
    across, down = (first, second) if by_second else (second, first)
    total = [FALSE] * (2 * bits)
    for i in range(bits):
        carry = FALSE
        for j in range(bits):
            partial = drawing.gate("and", across[j], down[i])
            total[i + j], carry = full_adder(drawing, total[i + j], partial, carry)
        total[i + bits] = carry
    drawing.outputs = [total[output]]
    return drawing


def write(folder, left, right):
    for name, drawing in ("left.tsv", left), ("right.tsv", right):
        with open(folder + "/" + name, "w") as file:
            file.write(drawing.text())


def main(examples):
    write(examples + "/rows", product(10, 9, False), product(10, 9, True))
    write(examples + "/steps", locks(9, 3, "xor"), locks(9, 3, "or"))


if __name__ == "__main__":
    if len(sys.argv) != 2:
        sys.exit(__doc__)
    main(sys.argv[1])
