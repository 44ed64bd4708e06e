#!/usr/bin/env python3
"""Gives this repository's own definitions and lemmas the spelling of today's Rattle: snake case for all but types and modules.

usage: python3 tools/port_names.py [FOLDER]     once, after port.py, at the top of a checkout (or in FOLDER)

It turns each word that crates/*/specs or crates/*/proofs defines and that is in camel case, as `rowWords` to `row_words`, in every .antt and .rt file,
must-fail edit and page. Functions, parameters and strings of src/ are in snake case already and have no such word. A definition may fall together with the
function that it is said of (`row_words` of the definitions and `row_words` of the code); they are told apart by where they stand. A lemma that would fall
together with a definition is renamed first (FIRST).
"""

import glob
import os
import re
import sys

# lemmas that would get a definition's name, and the parts of lemmas' names that cite a word of the library that has another name now
FIRST = {"labels_length": "labels_length_lem", "row_words": "row_words_lem"}
PARTS = {"getD": "get_or"}

WORD = re.compile(r"(?<![\w'\-.])[A-Za-z_][\w']*(?:-[\w'\-]*[\w'])?|(?<=\.)[A-Za-z_][\w']*(?:-[\w'\-]*[\w'])?")
DEFINED = re.compile(r"^\s*(?:abbrev |unfoldable |pub |data |record )*([A-Za-z][\w'\-]*)(?: [({][^)}]*[)}])* :", re.M)


def files(top, *patterns):
    return sorted(p for q in patterns for p in glob.glob(os.path.join(top, q), recursive=True) if "/out/" not in p)


def is_camel(word):
    return word[0].islower() and re.search(r"[a-z0-9][A-Z]", word)


def snake(word):
    for part, new in PARTS.items():
        word = re.sub(rf"(?<![A-Za-z]){part}(?![A-Za-z])", new, word)
    return re.sub(r"([a-z0-9])([A-Z])", lambda m: m.group(1) + "_" + m.group(2).lower(), word)


def main(top):
    antt = files(top, "crates/*/specs/**/*.antt", "crates/*/proofs/**/*.antt")
    rest = files(top, "crates/*/src/**/*.rt", "crates/*/must-fail/*.edit", "README.md", "docs/**/*.md", "examples/*.md")
    words = set()
    for p in antt:
        with open(p, encoding="utf-8") as f:
            text = f.read()
        words |= {w for w in DEFINED.findall(text) if is_camel(w)}
        words |= {w for u in re.findall(r"^use Rattle\.\S+\.\{([^}]*)\}", text, re.M) for w in re.split(r", *", u) if w and is_camel(w)}
    for p in files(top, "crates/*/specs/**/*.antt"):
        with open(p, encoding="utf-8") as f:
            words |= {w for w in re.findall(r"\b[a-z][A-Za-z0-9]*[A-Z][A-Za-z0-9]*\b", f.read()) if is_camel(w)}
    table = {w: snake(w) for w in words}
    for p in antt + rest:
        with open(p, encoding="utf-8") as f:
            old = f.read()
        first = FIRST if p.endswith(".antt") and "/proofs/" in p else {}

        def turn(m):
            w = m.group(0)
            if w in first and old[m.start() - 1 : m.start()] != "." and old[m.end() : m.end() + 1] != ".":
                return first[w]
            return table.get(w, w)

        new = WORD.sub(turn, old)
        if new != old:
            with open(p, "w", encoding="utf-8") as f:
                f.write(new)
    for w in sorted(table):
        print(f"{w} -> {table[w]}")


if __name__ == "__main__":
    main(sys.argv[1] if len(sys.argv) > 1 else ".")
