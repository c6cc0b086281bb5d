#!/usr/bin/env python3
"""Brings the older words of tests, choices and slots to today's, in specs/, in the clauses of src/ and in the edits of specs/.

usage: python3 tools/words.py [--table]        at the top of the repository, once, after port.py, respell.py and `rt fmt`

Each row of ROWS is a place: the file, what stands there, what stands there after. It stops, and writes nothing, where a text does not
stand as often as its row says. Each new word is the older one by definition, in the library's core (Bool, List):

    if b then x else y = cond b x y        a == b, nat_eq = eqb        nat_lt = ltb        nat_le = leb
    slice_index xs i = get_or xs i 0       slice_index_or = get_or     slice_range xs a b = take (b - a) (drop a xs)

The lemmas of proofs/ keep the older words, as the library's lemmas do.
--table prints the rows for docs/PORT.md, in a repository that it has turned.
"""

import re
import sys

WORDS = ["cond", "eqb", "ltb", "leb", "get_or", "take", "drop", "◌-◌", "if◌then◌else◌", "◌==◌", "nat_eq", "nat_lt", "nat_le", "slice_index", "slice_index_or", "slice_range"]
ROWS = [
    ("solids/specs/Solids.antt", "get_or (face_list so) f (face 0 0 0)", "slice_index_or (face_list so) f (face 0 0 0)"),
    ("solids/specs/Solids.antt", "get_or (next_row so s) f 0", "slice_index (next_row so s) f"),
    ("solids/specs/Solids.antt", "left f = leb f 4 || leb 15 f", "left f = nat_le f 4 || nat_le 15 f"),
    ("solids/specs/Solids.antt", "right f = leb f 4 || leb 15 f", "right f = nat_le f 4 || nat_le 15 f"),
    ("solids/must-fail/mirror_on_face_5.edit", "left f = leb f 4 || leb 15 f", "left f = nat_le f 4 || nat_le 15 f"),
    ("solids/must-fail/mirror_on_face_5.edit", "left f = leb f 5 || leb 15 f", "left f = nat_le f 5 || nat_le 15 f"),
    ("solids/must-fail/mirror_on_face_5.edit", "right f = leb f 4 || leb 15 f", "right f = nat_le f 4 || nat_le 15 f"),
    ("solids/must-fail/mirror_on_face_5.edit", "right f = leb f 5 || leb 15 f", "right f = nat_le f 5 || nat_le 15 f"),
    ("geometry/specs/Steps.antt", "cond (stops s d) ds (walked s ds)", "(if stops s d then ds else walked s ds)"),
    ("walk/specs/Walks.antt", "cond (stops (side_of s) (digit_of d)) (Stop (new_digit s d)) (Climb (new_digit s d))", "if stops (side_of s) (digit_of d) then Stop (new_digit s d) else Climb (new_digit s d)"),
    ("points/specs/Points.antt", "    cond (leb (half w) w.t) (to d00 (weights (w.t - half w) w.l w.r))\n", "    if nat_le (half w) w.t then to d00 (weights (w.t - half w) w.l w.r)\n"),
    ("points/specs/Points.antt", "    (cond (leb (half w) w.l) (to d01 (weights w.t (w.l - half w) w.r))\n", "    else if nat_le (half w) w.l then to d01 (weights w.t (w.l - half w) w.r)\n"),
    ("points/specs/Points.antt", "    (cond (leb w.r (half w)) (to d10 (weights (half w - w.t) (half w - w.r) (half w - w.l)))\n", "    else if nat_le w.r (half w) then to d10 (weights (half w - w.t) (half w - w.r) (half w - w.l))\n"),
    ("points/specs/Points.antt", "    (to d11 (weights w.t w.l (w.r - half w)))))\n", "    else to d11 (weights w.t w.l (w.r - half w))\n"),
    ("points/specs/Points.antt", "get_or (P tip) v 0", "slice_index (P tip) v"),
    ("points/specs/Points.antt", "get_or (P lft) v 0", "slice_index (P lft) v"),
    ("points/specs/Points.antt", "get_or (P rgt) v 0", "slice_index (P rgt) v"),
    ("soundness/specs/Leaves.antt", "cond (eqb x 0) [] (x ∷ leaves xs)", "if x == 0 then [] else x ∷ leaves xs"),
    ("soundness/specs/Changes.antt", "cond (eqb (Q / 2 ^ f % 2) 1) (code_at (base S + f * 2 ^ 52) 0 ∷ []) [] ++ faces_from S Q (f + 1) k", "(if Q / 2 ^ f % 2 == 1 then code_at (base S + f * 2 ^ 52) 0 ∷ [] else []) ++ faces_from S Q (f + 1) k"),
    ("soundness/specs/Changes.antt", "cond (A x) (children x) (x ∷ []) ++ expanded A L", "(if A x then children x else x ∷ []) ++ expanded A L"),
    ("soundness/specs/Changes.antt", "expanded (eqb a) L", "expanded (nat_eq a) L"),
    ("soundness/specs/Changes.antt", "cond (eqb (child_code c 0) x) (c ∷ drop 3 L) (x ∷ coarsened c L)", "if child_code c 0 == x then c ∷ drop 3 L else x ∷ coarsened c L"),
    ("soundness/specs/Changes.antt", "cond (leb (place c) (place x) && leb (past x) (past c)) (x ∷ under c L) (under c L)", "if nat_le (place c) (place x) && nat_le (past x) (past c) then x ∷ under c L else under c L"),
    ("soundness/specs/Inner.antt", "get_or L i 0 < key", "slice_index L i < key"),
    ("soundness/specs/Inner.antt", "key ≤ get_or L i 0", "key ≤ slice_index L i"),
    ("soundness/specs/Soundness.antt", "solid (get_or xs 0 0)", "solid (slice_index xs 0)"),
    ("slots/specs/Slots.antt", "take (n - (at + 1)) (drop (at + 1) xs)", "slice_range xs (at + 1) n"),
    ("slots/specs/Slots.antt", "take (n - (at + 4)) (drop (at + 4) xs)", "slice_range xs (at + 4) n"),
    ("examine/specs/Examined.antt", "solid (get_or xs 0 0)", "solid (slice_index xs 0)"),
    ("leaves/specs/Leaves.antt", "(get_or xs i 0 ≡ code)", "(slice_index xs i ≡ code)"),
    ("leaves/specs/Leaves.antt", "get_or xs (i + q) 0 ≡ child_code cell q", "slice_index xs (i + q) ≡ child_code cell q"),
    ("leaves/specs/Leaves.antt", "take (r.to - r.from) (drop r.from xs)", "slice_range xs r.from r.to"),
    ("leaves/src/lib.rt", "get_or slots.old at 0", "slice_index slots.old at"),
    ("sides/specs/Sides.antt", "get_or A i 0", "slice_index A i"),
    ("sides/specs/Sides.antt", "get_or A at 0", "slice_index A at"),
    ("sides/specs/Sides.antt", "cond small 0 b", "if small then 0 else b"),
    ("sides/specs/Sides.antt", "cond small b 0", "if small then b else 0"),
    ("mesh/specs/Calls.antt", "cond (ltb x c) (1 + come_before c L) 0", "if nat_lt x c then 1 + come_before c L else 0"),
    ("mesh/specs/Calls.antt", "cond (eqb (length (under c L)) 0) 0 (come_before c L)", "if length (under c L) == 0 then 0 else come_before c L"),
    ("mesh/src/lib.rt", "get_or slots.old at 0", "slice_index slots.old at"),
    ("mesh/src/lib.rt", "get_or slots.old (at + q) 0", "slice_index slots.old (at + q)"),
    ("text/specs/Text.antt", "cond (ltb d 10) (48 + d) (87 + d)", "if nat_lt d 10 then 48 + d else 87 + d"),
    ("listing/specs/Listing.antt", "cond (ltb k 10) 1 2", "if nat_lt k 10 then 1 else 2"),
    ("listing/specs/Lines.antt", "OrderFirst bytes (get_or bytes 0 0) c", "OrderFirst bytes (slice_index bytes 0) c"),
]
# How often a text stands that stands more than once.
TIMES = {("leaves/src/lib.rt", "get_or slots.old at 0"): 4}
IMPORT = re.compile(r"(?m)^((?:ghost )?use Rattle\.std\.specs\.Prelude\.\{)([^}]*)(\};?)$")


def stands(word, text):
    """Whether the text, imports aside, has the word; of an operator, its parts."""
    for part in word.split("◌"):
        if part and not re.search(rf"(?<![^\s(){{}},]){re.escape(part)}(?![^\s(){{}},])", text):
            return False
    return True


def imported(path, text):
    """The text with the words of WORDS that it needs in its import from the Prelude, and no others of them."""
    words = ["get_or", "slice_index"] if path.endswith(".rt") else WORDS
    body = re.sub(r"(?m)^(?:ghost )?use [^\n]*|--[^\n]*|//[^\n]*", "", text)
    need = [it for it in words if stands(it, body)]

    def one(m):
        had = [it.strip() for it in m.group(2).split(",")]
        kept = [it for it in had if it not in words or it in need]
        return m.group(1) + ", ".join(kept + [it for it in need if it not in kept]) + m.group(3)

    return IMPORT.sub(one, text, count=1)


def where(path, new):
    """The definitions, fields or functions in which the new text of a row stands."""
    with open("crates/" + path, encoding="utf-8") as f:
        text = f.read()
    names = []
    for m in re.finditer(re.escape(new), text):
        before = text[: m.start()]
        if path.endswith(".rt"):
            names.append(re.findall(r"\bfn (\w+)", before)[-1])
        else:
            top = re.findall(r"(?m)^(?:pub record )?([^\s-]\S*)", before + new)[-1]
            field = re.search(r"(?m)^  pub (\w+) :[^\n]*\Z", before)
            names.append(f"{top}.{field.group(1)}" if field else top)
    return ", ".join(f"`{it}`" for it in dict.fromkeys(names))


def main():
    if "--table" in sys.argv[1:]:
        for path, old, new in ROWS:
            if "/must-fail/" not in path:
                print("| " + " | ".join(it.strip().replace("|", "\\|") for it in (f"{path.rsplit('.', 1)[0]}, {where(path, new)}", f"`{old.strip()}`", f"`{new.strip()}`")) + " |")
        return 0
    texts = {}
    for path, old, new in ROWS:
        if path not in texts:
            with open("crates/" + path, encoding="utf-8") as f:
                texts[path] = f.read()
        times = TIMES.get((path, old), 1)
        if texts[path].count(old) != times:
            print(f"{path}: {old!r} stands {texts[path].count(old)} times, not {times}: nothing is written")
            return 1
        texts[path] = texts[path].replace(old, new)
    for path, text in texts.items():
        with open("crates/" + path, "w", encoding="utf-8") as f:
            f.write(text if path.endswith(".edit") else imported(path, text))
    return 0


if __name__ == "__main__":
    sys.exit(main())
