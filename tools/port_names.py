#!/usr/bin/env python3
"""Brings this repository's definitions and lemmas to snake case, after port.py: once, at the top.

port_names.txt has a line for each: the old name and the new one. A lemma that already had the
new name of a definition takes '-law' after it (LEMMAS), so that no two names fall together.
Only names of specs/ and proofs/ are in the list: names of src/, strings and inputs stay.
"""
import os
import re

HERE = os.path.dirname(os.path.realpath(__file__))
TOP = os.path.dirname(HERE)
TOKEN = re.compile(r"[A-Za-z_][A-Za-z0-9_'\-₀-₉ℤℕ]*")

# lemmas in proofs/ whose names were those that definitions of specs/ now get
LEMMAS = {
    "all_read", "all_there", "by_left", "goes_on", "in_use", "is_state", "last_code", "lead_after",
    "line_ok", "lines_ok", "read_next", "same_left", "same_row", "same_stop", "seen_of", "set_same",
    "set_words", "settled_at", "step_ok", "too_many",
}


def table():
    with open(os.path.join(HERE, "port_names.txt"), encoding="utf-8") as f:
        return dict(line.split() for line in f)


def is_lemma(line, m):
    """Whether the token at m is a lemma's name: no part of a path, no projection, no field, no comment's word."""
    before, after = line[: m.start()], line[m.end() :]
    if before.endswith(".") or after.startswith(".") or re.search(r"(^|\s)--\s", before):
        return False
    if after.startswith(" = ") and before.rstrip().endswith(("{", ";")):
        return False
    return not re.match(r"\s*(pub )?mod ", line)


def turned(text, names, lemmas):
    def one(m):
        word = m.group(0)
        if word in names:
            return names[word]
        if lemmas and word in LEMMAS and is_lemma(m.string, m):
            return word + "-law"
        return word

    return "".join(TOKEN.sub(one, line) for line in text.splitlines(keepends=True))


def files():
    for folder, dirs, names in os.walk(os.path.join(TOP, "crates")):
        dirs[:] = [d for d in dirs if d != "out"]
        for f in names:
            if f.endswith((".rt", ".antt", ".edit")):
                yield os.path.join(folder, f)
    for folder, _, names in os.walk(os.path.join(TOP, "docs")):
        yield from (os.path.join(folder, f) for f in names if f.endswith(".md"))
    yield os.path.join(TOP, "README.md")


def main():
    names = table()
    for path in sorted(files()):
        with open(path, encoding="utf-8", newline="") as f:
            text = f.read()
        new = turned(text, names, path.endswith(".antt") and "/proofs/" in path)
        if new != text:
            with open(path, "w", encoding="utf-8", newline="") as f:
                f.write(new)


main()
