#!/usr/bin/env python3
"""cards.py COMPARISONS CRATE

Writes CRATE/data/cards.txt, the cards that the program `run_cards` runs, and CRATE/stdout, what it prints when all are right.
The cards are those of docs/RULES.md 11.7 and 13.3, then every line of COMPARISONS (tools/comparisons.tsv).

COMPARISONS has a line for each comparison, with tabs between: list, left, right (lines parted by `;`, fields by `,`),
output, size limit, row limit, step limit, then what must come: reply, vertex, setting, rows, steps, rows added, marks (a digit
for each vertex, the two next ones too), the table's words, r's last. Lines with the same list number follow one another on one table.

cards.txt has the cards with `%` between them, and each card's fields with `|` between them: name, left file, right file,
output, size limit, row limit, step limit, the reply's line (without the setting), rows added, setting, marks, words, and the end of the line. The files
are empty where the card goes on with the table of the card before. Setting, marks and words have one more at their ends, which the
comparison must not change: the program fills these slices with `-`, 9 and 7.
"""
import sys

AND = "N,1,2,1,1;G,and,2,4;O,6"
OR = "N,1,2,1,1;G,or,2,4;O,6"
XOR = "N,1,2,1,1;G,xor,2,4;O,6"
OR_AND = "N,1,2,3,1;G,or,2,4;G,and,2,4;G,and,6,9;O,10"
FIRST_INPUT = "N,1,3,0,1;O,2"
XOR_AND = "N,1,3,2,1;G,xor,2,6;G,and,4,8;O,10"
AND_XOR_AND = "N,1,3,3,1;G,and,2,4;G,xor,2,6;G,and,8,10;O,12"
SWITCHES = "N,1,2,2,1;G,or,2,4;G,and,2,4;O,6"
LAST_INPUT_ALLOWED = "N,1,3,0,1;O,6;C,4"
OR_AND_OR_OR = "N,1,3,4,1;G,or,5,3;G,and,5,8;G,or,10,7;G,or,2,6;O,15"
AND_OR_WORDS = "2,2,1,2,4,3,5,6,9,1"
XOR_AND_WORDS = "3,4,1,2,7,3,6,9,11,4,13,14,2,1"
AND_XOR_AND_WORDS = "3,5,1,2,4,2,7,3,6,11,13,8,15,16,2,1"
SWITCHES_WORDS = "2,5,1,3,5,2,4,2,5,3,4,11,13,7,15"

# In the fields of COMPARISONS, with a name for the list number.
RULES = [
    ("and/or", AND, OR, 0, 4096, 4096, 1000000, "different", "-", "01", 4, 6, 0, "01111", AND_OR_WORDS),
    ("and/or, row limit 3", AND, OR, 0, 4096, 3, 1000000, "rows", 4, "-", 3, 6, 0, "01113", AND_OR_WORDS),
    ("and/or, step limit 5", AND, OR, 0, 4096, 4096, 5, "steps", 4, "-", 3, 5, 0, "01113", AND_OR_WORDS),
    ("and/or, step limit 6", AND, OR, 0, 4096, 4096, 6, "different", "-", "01", 4, 6, 0, "01111", AND_OR_WORDS),
    ("and/or, size limit 1", AND, OR, 0, 1, 4096, 1000000, "size", "-", "-", 2, 6, 0, "01122", AND_OR_WORDS),
    ("and/or, row limit 1", AND, OR, 0, 4096, 1, 1000000, "rows", 2, "-", 1, 0, 0, "01300", AND_OR_WORDS),
    ("xor", XOR, OR_AND, 0, 4096, 4096, 1000000, "equal", "-", "-", 7, 18, 0, "011111111",
     "2,6,1,2,5,3,4,7,9,3,5,2,4,11,11,11,11,1"),
    ("xor and, row limit 8", XOR_AND, FIRST_INPUT, 0, 4096, 8, 1000000, "rows", 7, "-", 6, 16, 2, "01111113", XOR_AND_WORDS),
    ("xor and, row limit 7", XOR_AND, FIRST_INPUT, 0, 4096, 7, 1000000, "rows", 7, "-", 6, 16, 1, "01111113", XOR_AND_WORDS),
    ("xor and, row limit 6", XOR_AND, FIRST_INPUT, 0, 4096, 6, 1000000, "rows", 7, "-", 6, 13, 0, "01111113", XOR_AND_WORDS),
    ("xor and, step limit 13", XOR_AND, FIRST_INPUT, 0, 4096, 4096, 13, "steps", 7, "-", 6, 13, 1, "01111113", XOR_AND_WORDS),
    ("and xor and, row limit 7", AND_XOR_AND, FIRST_INPUT, 0, 4096, 7, 1000000, "rows", 8, "-", 7, 17, 0, "011111113", AND_XOR_AND_WORDS),
    ("and xor and, step limit 16", AND_XOR_AND, FIRST_INPUT, 0, 4096, 4096, 16, "steps", 8, "-", 7, 16, 0, "011111113", AND_XOR_AND_WORDS),
    ("switches, not both", SWITCHES + ";C,9", XOR, 0, 4096, 4096, 1000000, "equal", "-", "-", 7, 21, 0, "0111111111", SWITCHES_WORDS + ",9"),
    ("switches, row limit 6", SWITCHES + ";C,9", XOR, 0, 4096, 6, 1000000, "rows", 8, "-", 6, 15, 0, "0111111030", SWITCHES_WORDS + ",9"),
    ("switches, step limit 20", SWITCHES + ";C,9", XOR, 0, 4096, 4096, 20, "steps", 9, "-", 7, 20, 0, "0111111113", SWITCHES_WORDS + ",9"),
    ("switches, no constraint", SWITCHES, XOR, 0, 4096, 4096, 1000000, "different", "-", "11", 7, 15, 0, "01111111", SWITCHES_WORDS + ",1"),
    ("switches, true", SWITCHES + ";C,1", XOR, 0, 4096, 4096, 1000000, "different", "-", "11", 7, 15, 0, "01111111", SWITCHES_WORDS + ",1"),
    ("switches, false", SWITCHES + ";C,0", XOR, 0, 4096, 4096, 1000000, "equal", "-", "-", 0, 0, 0, "0000000000", SWITCHES_WORDS + ",0"),
    ("input 2, size limit 2", LAST_INPUT_ALLOWED, OR_AND_OR_OR, 0, 2, 4096, 1000000, "size", "-", "-", 6, 17, 0, "0111110112",
     "3,4,1,2,4,5,5,4,6,3,7,6,14,4"),
]


def drawing(text):
    return text.replace(",", "\t").replace(";", "\n") + "\n"


def card(fields, goes_on):
    name, left, right, output, size, rows, steps, reply, vertex, setting, made_rows, made_steps, added, marks, words = map(str, fields)
    return "|".join([
        name,
        "" if goes_on else drawing(left),
        "" if goes_on else drawing(right),
        output,
        size,
        rows,
        steps,
        "\t".join(["1", output, reply, "-", vertex, made_rows, made_steps]) + "\n",
        added,
        setting.strip("-") + "-",
        marks + "9",
        words + ",7",
        "\n",
    ])


def main(comparisons, crate):
    with open(comparisons) as file:
        lines = [line.rstrip("\n").split("\t") for line in file]
    cards = [card(fields, False) for fields in RULES]
    before = None
    for fields in lines:
        cards.append(card(["list " + fields[0]] + fields[1:], fields[0] == before))
        before = fields[0]
    with open(crate + "/data/cards.txt", "w") as file:
        file.write("%".join(cards))
    with open(crate + "/stdout", "w") as file:
        for text in cards:
            file.write(text.split("|")[0] + ": ok\n")
        file.write("%d passed\n" % len(cards))


if __name__ == "__main__":
    if len(sys.argv) != 3:
        sys.exit(__doc__)
    main(sys.argv[1], sys.argv[2])
