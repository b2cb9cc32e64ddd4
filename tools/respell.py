#!/usr/bin/env python3
"""Respells this repository's own definitions and lemmas by the table beside this file: words in snake case, types in camel case.

Run once at the top, after the kit's port.py. It changes names in specs/, in proofs/ and in the clauses of src/; comments, strings and
the names that Rattle makes for a function's steps (those after `c.`, `goal.` and `given.`) stay.
"""
import glob
import os
import re

HERE = os.path.dirname(os.path.abspath(__file__))
ROWS = dict(line.rstrip("\n").split("\t") for line in open(os.path.join(HERE, "respell.tsv"), encoding="utf-8"))
TOKEN = re.compile(r"[^\s(){}\[\],;:.|\"«»]+")
MADE = re.compile(r"(^|[^\w.'-])(c|goal|given|need|l)\.$")


def respelled(code):
    def turn(match):
        name = match.group(0)
        if name not in ROWS or MADE.search(code[: match.start()]):
            return name
        return ROWS[name]

    return TOKEN.sub(turn, code)


def line_of(line, comment):
    """The line with its code respelled: what stands in a string or after a comment's mark stays."""
    out, rest = [], line
    while rest:
        match = re.search(r'"(\\.|[^"\\])*"|(?<!\S)' + re.escape(comment) + r".*", rest)
        if not match:
            out.append(respelled(rest))
            break
        out.append(respelled(rest[: match.start()]))
        out.append(match.group(0))
        rest = rest[match.end():]
    return "".join(out)


def main():
    count = 0
    for path in sorted(glob.glob("crates/*/**/*", recursive=True)):
        if "/out/" in path or not path.endswith((".antt", ".rt")):
            continue
        comment = "--" if path.endswith(".antt") else "//"
        with open(path, encoding="utf-8") as file:
            old = file.read()
        new = "".join(line_of(line, comment) for line in old.splitlines(keepends=True))
        if new != old:
            count += 1
            with open(path, "w", encoding="utf-8") as file:
                file.write(new)
    print(f"respell: {count} files")


if __name__ == "__main__":
    main()
