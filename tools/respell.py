#!/usr/bin/env python3
"""Spells the repository's own definitions and lemmas as its language does today: words in snake case.

usage: python3 tools/respell.py [FOLDER]        FOLDER is the top of a checkout; without it, the current folder

It was run once, after the older text had been turned, and is kept to be run again on an older commit. A name of antt that
begins small and has a capital inside, as newByte, becomes new_byte, also where a dash joins it to others, as in
newByte-lt. Names of the Rattle source keep their spelling; they have no capitals. A lemma that would then have the name of
the definition it speaks of gets the ending _lem. It writes .rt and .antt files below crates/, and the edits below crates/
and tests/edits.
"""

import glob
import os
import re
import sys

TOKEN = re.compile(r"[^\s(){}.;,:«»\[\]`\"]+")
HUMP = re.compile(r"^[a-z_][A-Za-z0-9_']*[A-Z]")
# parts that name a type or a fact of the library, as in mut_Tells
JOINED = re.compile(r"^[a-z]+_[A-Z]")
# lemmas that would fall together with their definitions
LEMMAS = ["by_next", "of_image", "full_at", "in_buffer", "read_at", "by_bit", "bit_in", "filled_row", "shifted_row", "step_by", "entered_by", "point_at", "count_by"]


def part(word):
    if HUMP.match(word) and not JOINED.match(word):
        return re.sub(r"(?<=[a-z0-9'])([A-Z]+)", lambda m: "_" + m.group(1).lower(), word)
    return word


def respelled(token):
    return "-".join(part(it) for it in token.split("-"))


def texts(top):
    for pattern in ("crates/**/*.antt", "crates/**/*.rt", "crates/*/must-fail/*.edit", "tests/edits/*/*.edit"):
        for path in sorted(glob.glob(os.path.join(top, pattern), recursive=True)):
            if "/out/" not in path:
                yield path


def main(top):
    found = {}
    words = set()
    for path in texts(top):
        if path.endswith(".antt"):
            with open(path, encoding="utf-8") as f:
                text = re.sub(r"--.*", "", f.read())
            for token in TOKEN.findall(text):
                words.add(token)
                new = respelled(token)
                if new != token:
                    found[token] = new
    back = {}
    for old, new in found.items():
        back.setdefault(new, []).append(old)
    for new, olds in sorted(back.items()):
        if len(olds) > 1:
            print(f"look: {' and '.join(olds)} fall together as {new}")
    lemma = re.compile(r"(?<![\w'.-])(" + "|".join(LEMMAS) + r")(?![\w'.-])")
    changed = 0
    for path in texts(top):
        with open(path, encoding="utf-8") as f:
            old = f.read()
        new = old
        if path.endswith(".antt") and "/proofs/" in path:
            new = lemma.sub(r"\1_lem", new)
        new = TOKEN.sub(lambda m: found.get(m.group(), m.group()), new)
        if new != old:
            with open(path, "w", encoding="utf-8") as f:
                f.write(new)
            changed += 1
    print(f"respell: {len(found)} names, {changed} files")


main(sys.argv[1] if len(sys.argv) > 1 else ".")
