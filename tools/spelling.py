#!/usr/bin/env python3
"""Turns the names of definitions, lemmas, fields and constructors to the spelling of today's library, by spelling.tsv beside this file.

usage: tools/spelling.py [TOP]

A row of spelling.tsv is an old name, a tab, the new name. It is run once, right after the toolchain's own respelling. In .antt files each whole
name turns, but one that the file imports from a library, and one that Rattle makes (behind goal. or tie., or the answer to such). In .rt files
names turn in clauses and imports; in comments only names that no English word looks like. Names of Rust code, strings and data stay. `rt fmt`
then lays each crate out.
"""
import os
import re
import subprocess
import sys

HERE = os.path.dirname(os.path.realpath(__file__))
WORD = r'[^\s(){}.;,@"«»]+'
QUIET = re.compile(r'("(?:[^"\\\n]|\\.)*"|(?<![^\s(){}.;,@"«»])--[^\n]*|\{-.*?-\})', re.S)
USE = re.compile(r"\buse ([^\s;{]+)\.\{([^}]*)\}")
GENERATED = re.compile(rf"(?m)^(?:pub )?({WORD}) : (?:tie|goal)\.")
OWN = None


def table():
    with open(os.path.join(HERE, "spelling.tsv"), encoding="utf-8") as f:
        return dict(line.rstrip("\n").split("\t") for line in f)


def is_own(path):
    steps = path.split(".")
    return steps[0] == "Rattle" and len(steps) > 1 and steps[1] in OWN


def brought(code):
    """The names that a file imports from a library."""
    names = set()
    for path, items in USE.findall(code):
        if not is_own(path):
            names.update(w for it in items.split(",") for w in it.split())
    return names


def in_comment(text, rows):
    spans = re.sub(r"`([^`\n]*)`", lambda m: "`" + re.sub(WORD, lambda w: rows.get(w[0], w[0]), m[1]) + "`", text)
    return re.sub(r"(?<![\w-])[a-z]+(?:[A-Z]\w*)+\??(?![\w-])", lambda m: rows.get(m[0], m[0]), spans)


def in_code(text, rows, function):
    def turn(m):
        name = m[0]
        if name not in rows:
            return name
        if function and text[m.start() - 1 : m.start()] == "." and "-" in name:
            return name
        return rows[name]

    return re.sub(WORD, turn, text)


def antt(path, text, rows):
    code = QUIET.sub(" ", text)
    function = re.search(r"/proofs/(?:.*/)?Proof\.antt$", path) is not None
    stay = brought(code) | (set(GENERATED.findall(code)) if function else set())
    mine = {a: b for a, b in rows.items() if a not in stay}
    pieces = QUIET.split(text)
    return "".join(in_comment(p, mine) if i % 2 and p[:1] != '"' else p if i % 2 else in_code(p, mine, function) for i, p in enumerate(pieces))


def clauses(text):
    """The places of a Rust file that hold antt: clauses and imports."""
    for m in re.finditer(r"ghost use\b[^;]*;", text):
        yield m.start(), m.end()
    for m in re.finditer(r"\b(?:requires|ensures|ghost)\b\*?(?: *\w+)?(?: *[:=])? *\{", text):
        depth, at = 1, m.end()
        while depth and at < len(text):
            depth += {"{": 1, "}": -1}.get(text[at], 0)
            at += 1
        yield m.end(), at


def rt(text, rows):
    mine = {a: b for a, b in rows.items() if a not in brought(text)}
    out, last = [], 0
    for start, end in sorted(clauses(text)):
        if start < last:
            continue
        out += [re.sub(r"//[^\n]*", lambda m: in_comment(m[0], mine), text[last:start]), in_code(text[start:end], mine, False)]
        last = end
    out.append(re.sub(r"//[^\n]*", lambda m: in_comment(m[0], mine), text[last:]))
    return "".join(out)


def main():
    global OWN
    top = sys.argv[1] if len(sys.argv) > 1 else "."
    rows = table()
    OWN = set(os.listdir(os.path.join(top, "crates")))
    for folder, dirs, files in os.walk(os.path.join(top, "crates")):
        dirs[:] = [d for d in dirs if d != "out"]
        for f in files:
            path = os.path.join(folder, f)
            if not f.endswith((".antt", ".rt")):
                continue
            with open(path, encoding="utf-8") as it:
                old = it.read()
            new = antt(path, old, rows) if f.endswith(".antt") else rt(old, rows)
            if new != old:
                with open(path, "w", encoding="utf-8") as it:
                    it.write(new)
    for crate in sorted(OWN):
        subprocess.run(["rt", "fmt"], cwd=os.path.join(top, "crates", crate), check=False, stdout=subprocess.DEVNULL)


if __name__ == "__main__":
    main()
