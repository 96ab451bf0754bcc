#!/usr/bin/env python3
"""Brings the project's own definitions and lemmas to snake case, after port.py, once.

usage: python3 tools/respell.py [FOLDER]      the repository, or a copy of it

`readQuery` becomes `read_query`, in specs/, proofs/, clauses and must-fail edits. Functions of src/, types, modules, constructors in
capitals, strings and exported names keep theirs. Five lemmas whose names would fall together with a definition get `_lem` first, and
the module `Hidden` of model's proofs becomes `Hiding`, since Rattle makes a module `Hidden` of its own.
"""

import os
import re
import sys

ROOT = sys.argv[1] if len(sys.argv) > 1 else "."
LEMMAS = {"same_word": "same_word_lem", "same_key": "same_key_lem", "rows_in": "rows_in_lem", "and_last": "and_last_lem", "as_byte": "as_byte_lem"}
WORD = re.compile(r"(?<![\w'-])[a-z][\w'₀-₉-]*")
CAMEL = re.compile(r"[a-z0-9][A-Z]")


def snake(word):
    word = re.sub(r"getD(?![a-z])", "get_or", word)
    return re.sub(r"(?<=[a-z0-9])([A-Z])", lambda m: "_" + m.group(1).lower(), word)


def respelled(text, lemmas):
    def turn(m):
        word = m.group(0)
        if lemmas and word in LEMMAS:
            return LEMMAS[word]
        return snake(word) if CAMEL.search(word) else word

    return WORD.sub(turn, text)


def files():
    for folder, dirs, names in os.walk(os.path.join(ROOT, "crates")):
        dirs[:] = sorted(d for d in dirs if d != "out")
        for name in sorted(names):
            if name.endswith((".antt", ".rt", ".edit")):
                yield os.path.join(folder, name)


for path in files():
    with open(path, encoding="utf-8") as f:
        text = f.read()
    new = respelled(text, path.endswith(".antt"))
    if os.path.basename(path) == "Lib.antt" and os.sep + "model" + os.sep + "proofs" in path:
        new = re.sub(r"\bmod Hidden\b", "mod Hiding", new)
    new = new.replace("Rattle.model.proofs.Hidden", "Rattle.model.proofs.Hiding")
    if new != text:
        with open(path, "w", encoding="utf-8") as f:
            f.write(new)
old = os.path.join(ROOT, "crates/model/proofs/Hidden.antt")
if os.path.exists(old):
    os.rename(old, os.path.join(os.path.dirname(old), "Hiding.antt"))
