#!/usr/bin/env python3
"""Gives names that port.py and respell.py leave with another sense, or with none, names of what they say.

usage: python3 tools/renames.py        at the top of the repository, once, after port.py, respell.py and `rt fmt`

A row of ROWS is a crate that declares the name, the name, and the new one. Two are definitions: they had come to be spelled like a
function that does something else to a number (`path_of` reads a code, `face_of` too). The others are lemmas: an equation has the
name of its left side, the outer function first, with a dash between two names. A name turns in the .antt files of its crate and in
those that import it from there; a name behind a point is one that Rattle makes, and stays.
"""

import glob
import re
import sys

from respell import aligned

TOKEN = r"(?<![^\s(){}.;,@\"«»\[\]])(?<!\.)[^\s(){}.;,@\"«»\[\]]+"
ROWS = [
    ("codes", "path_of", "path_bits"),
    ("soundness", "face_of", "face_at"),
    ("solids", "no_solid", "solid_no-solid_of"),
    ("solids", "solid_no_lem", "solid_of-solid_no"),
    ("solids", "corner_row_lem", "get_or-by_corner"),
    ("solids", "side_row", "get_or-by_side"),
    ("solids", "get_or_map", "get_or-map"),
    ("geometry", "no_digit", "digit_no-digit_of"),
    ("geometry", "digit_no_lem", "digit_of-digit_no"),
    ("geometry", "length_digits", "length-digits"),
    ("geometry", "number_digits", "number-digits"),
    ("geometry", "digits_number", "digits-number"),
    ("codes", "cell_code", "cell_of-code_of"),
    ("codes", "code_cell", "code_of-cell_of"),
    ("codes", "cell_depth", "depth_of-cell_of"),
    ("codes", "child_code_lem", "code_of-child"),
    ("codes", "parent_code_lem", "code_cut"),
    ("codes", "child_corners_lem", "corner-child"),
    ("points", "path_length", "length-path_to"),
    ("points", "found_cell_lem", "cell_of-found"),
    ("carry", "mirrored_at_lem", "map-mirrored_at"),
    ("carry", "walked_at_lem", "map-walked_at"),
    ("steps", "step_code_lem", "step_code_is_formed"),
    ("steps", "step_cell", "cell_of-step_code"),
    ("soundness", "face_of_lem", "face_at_lem"),
    ("soundness", "take-at_leaf", "at_leaf-take"),
    ("soundness", "drop-at_leaf", "at_leaf-drop"),
    ("soundness", "Smaller-at", "SmallerLeaf"),
    ("text", "length_digits", "length-digits"),
]


def main():
    texts = {}
    for path in glob.glob("crates/*/specs/**/*.antt", recursive=True) + glob.glob("crates/*/proofs/**/*.antt", recursive=True):
        with open(path, encoding="utf-8") as f:
            texts[path] = f.read()
    was = dict(texts)
    for crate, old, new in ROWS:
        importing = re.compile(rf"(?m)^(?:pub )?use Rattle\.{crate}\.(?:specs|proofs)\.[^\n]*[{{ ]{re.escape(old)}(?=[,}} ])")
        here = [it for it in texts if it.startswith(f"crates/{crate}/") or importing.search(texts[it])]
        turned = 0
        for path in here:
            if re.search(rf"(?<![\w-]){re.escape(new)}(?![\w'-])", was[path]):
                print(f"{path} has {new} already: nothing is written")
                return 1
            text = re.sub(TOKEN, lambda m: new if m.group(0) == old else m.group(0), texts[path])
            turned += text != texts[path]
            texts[path] = text
        if not turned:
            print(f"{crate} has no {old}: nothing is written")
            return 1
    for path, text in texts.items():
        if text != was[path]:
            with open(path, "w", encoding="utf-8") as f:
                f.write(aligned(text))
    return 0


if __name__ == "__main__":
    sys.exit(main())
