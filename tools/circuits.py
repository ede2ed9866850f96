#!/usr/bin/env python3
"""circuits.py CRATE

Writes CRATE/data/circuits.txt, the circuits that the program `run_product` multiplies: parities, adders, multiplexers and random circuits,
under limits on rows and steps.

circuits.txt has a card for each circuit and its limits, with `%` between them, and each card's fields with `|` between them: name; row
limit; step limit; inputs; settings; an end of line; the circuit (two words a vertex, with `,` between them); and an end of line. Vertex 0
is false, then come the inputs, which hold their own literal twice, then the ANDs. A literal is twice a vertex, plus 1 if inverted.
"""
import sys

ROWS = 1024
STEPS = 100000
MODULUS = 2 ** 31


class Circuit:
    """The words of a circuit; each function below adds vertices and gives back the literal of what it made."""

    def __init__(self, inputs):
        self.inputs = inputs
        self.rows = [(2 * v, 2 * v) for v in range(inputs + 1)]

    def both(self, p, q):
        self.rows.append((p, q))
        return 2 * len(self.rows) - 2

    def either(self, p, q):
        return self.both(p ^ 1, q ^ 1) ^ 1

    def xor(self, p, q):
        a = self.both(p, q ^ 1)
        b = self.both(p ^ 1, q)
        return self.either(a, b)

    def choose(self, s, p, q):
        """q where s is 1, else p."""
        a = self.both(s, q)
        b = self.both(s ^ 1, p)
        return self.either(a, b)

    def add(self, p, q, c):
        """The sum of p, q and c; gives back the carry."""
        half = self.xor(p, q)
        self.xor(half, c)
        a = self.both(p, q)
        b = self.both(half, c)
        return self.either(a, b)


def parity(inputs):
    """The exclusive or of all inputs."""
    circuit = Circuit(inputs)
    literal = 2
    for i in range(2, inputs + 1):
        literal = circuit.xor(literal, 2 * i)
    return circuit


def adder(bits):
    """Two numbers of some bits added: the inputs are their bits in turn, the lowest first."""
    circuit = Circuit(2 * bits)
    carry = 0
    for i in range(1, bits + 1):
        carry = circuit.add(4 * i - 2, 4 * i, carry)
    return circuit


def multiplexer(s, d):
    """One of four inputs from d on, picked by the two from s on."""
    circuit = Circuit(6)
    low = circuit.choose(2 * s + 2, 2 * d, 2 * d + 2)
    high = circuit.choose(2 * s + 2, 2 * d + 4, 2 * d + 6)
    circuit.choose(2 * s, low, high)
    return circuit


def drawn(inputs, turns, seed):
    """The exclusive or of some products of random literals, by a linear congruential sequence."""
    circuit = Circuit(inputs)
    literal = 2
    for _ in range(turns):
        draws = []
        for _ in range(3):
            seed = (seed * 1103515245 + 12345) % MODULUS
            draws.append(seed // 65536)
        n = len(circuit.rows)
        product = circuit.both(draws[0] % (2 * n), draws[1] % (2 * n))
        literal = circuit.xor(literal, product)
    return circuit


def card(name, rows, steps, circuit):
    words = ",".join("%d,%d" % row for row in circuit.rows)
    return "|".join(map(str, [name, rows, steps, circuit.inputs, 2 ** circuit.inputs, "\n", words, "\n"]))


def cards():
    """Every circuit with room; a random one with as many steps as it takes, and with one fewer; and three under limits on rows, where a
    product that is short gives its rows back and the next circuit uses them again."""
    first = multiplexer(1, 3)
    last = multiplexer(5, 1)
    yield card("parity of 10", ROWS, STEPS, parity(10))
    yield card("adder of 5 bits", ROWS, STEPS, adder(5))
    yield card("multiplexer, selection first", ROWS, STEPS, first)
    yield card("multiplexer, selection last", ROWS, STEPS, last)
    yield card("random of 6", ROWS, STEPS, drawn(6, 29, 2))
    yield card("random of 8", ROWS, STEPS, drawn(8, 29, 2))
    yield card("random of 10", ROWS, 5496, drawn(10, 29, 1))
    yield card("random of 10", ROWS, 5495, drawn(10, 29, 1))
    for rows in (164, 163):
        yield card("parity of 10", rows, STEPS, parity(10))
        yield card("adder of 5 bits", rows, STEPS, adder(5))
        yield card("multiplexer, selection last", rows, STEPS, last)


def main(crate):
    with open(crate + "/data/circuits.txt", "w") as file:
        file.write("%".join(cards()))


if __name__ == "__main__":
    if len(sys.argv) != 2:
        sys.exit(__doc__)
    main(sys.argv[1])
