#!/usr/bin/env python3
"""Brings the repository's own words of specs/ and proofs/ to snake case: equationAt becomes equation_at.

usage: tools/respell.py [DIR]      in the repository, or in DIR; once, after the kit's port.py

A word is turned where it is written in lower camel case: in the .antt files, and in the clauses, imports and comments of
the .rt files. Types, modules and facts keep their capitals, and so does a fact's name within a longer
name (`step-Fits`). Functions, constants, strings, inputs and outputs have no such words, and keep theirs. Where a lemma
had the name that a definition gets now, the lemma takes `_lem`.
"""
import os
import re
import sys

PART = re.compile(r"[a-z\u03b1-\u03c9][a-z0-9'\u2080-\u2089\u03b1-\u03c9]*[A-Z]")
NAME = re.compile(r"[A-Za-z0-9_'\u0370-\u03ff\u2080-\u2089-]+")
QUOTED = re.compile(r"\"(?:[^\"\\\n]|\\.)*\"|b?'(?:[^'\\\n]|\\.)'")
# Lustre's texts, also where a comment shows them with no quotes.
TEXTS = {"fA", "fB", "fN", "kC", "rA", "sA"}
HUMP = re.compile(r"(?<=[a-z0-9'\u2080-\u2089\u03b1-\u03c9])[A-Z]|(?<=[A-Z])[A-Z](?=[a-z])")
# Lemmas whose names are those of definitions after the turn, and the files that have them.
LEMMAS = {
    "after_text": ["crates/lustre_write/proofs/Placing.antt"],
    "count_word": ["Of-atom.antt"],
    "test_word": ["Of-atom.antt"],
    "found_as": ["crates/cards/proofs/Front.antt"],
    "goes_on": ["crates/feeder/proofs/"],
    "left_over": ["crates/feeder/proofs/Feeding.antt"],
    "of_tree": ["crates/rules/proofs/Theorems.antt"],
    "of_words": ["crates/rules/proofs/Theorems.antt"],
    "one_class": ["crates/packing/proofs/Classes.antt"],
    "one_less": ["crates/packer/proofs/Reaching.antt"],
    "one_more": ["crates/cards/proofs/Numbers.antt"],
    "same_number": ["crates/lustre/proofs/", "crates/lustre_read/proofs/"],
    "with_rest": ["crates/feeder/proofs/"],
}


def snake(part):
    return HUMP.sub(lambda m: "_" + m[0].lower(), part) if PART.match(part) else part


def turned(name):
    return name if name in TEXTS else "-".join(snake(part) for part in name.split("-"))


def outside(text):
    """The text with its words turned, but for what stands in quotes."""
    parts, last = [], 0
    for quoted in QUOTED.finditer(text):
        parts += [NAME.sub(lambda m: turned(m[0]), text[last : quoted.start()]), quoted[0]]
        last = quoted.end()
    return "".join(parts) + NAME.sub(lambda m: turned(m[0]), text[last:])


def lemmas(path, text):
    for name, places in LEMMAS.items():
        if any(place in path for place in places):
            text = re.sub(rf"(?<![\w.'\u2019-]){name}(?![\w'-])", name + "_lem", text)
    return text


def main():
    root = sys.argv[1] if len(sys.argv) > 1 else os.path.join(os.path.dirname(os.path.abspath(__file__)), "..")
    for folder, folders, files in os.walk(os.path.join(root, "crates")):
        folders[:] = sorted(name for name in folders if name != "out")
        for file in sorted(files):
            if not file.endswith((".antt", ".rt")):
                continue
            path = os.path.join(folder, file)
            with open(path, encoding="utf-8") as opened:
                old = opened.read()
            new = lemmas(path, old) if file.endswith(".antt") and "/proofs/" in path else old
            new = outside(new)
            if new != old:
                with open(path, "w", encoding="utf-8") as opened:
                    opened.write(new)


if __name__ == "__main__":
    main()
