#!/usr/bin/env python3
"""Gives the clauses that port.py named after their form (by_index, by_index_2, ..) names of what they say.

usage: python3 tools/labels.py        at the top of the repository, once, after port.py, respell.py and `rt fmt`. It counts the clauses of
       that text, and is for it alone
"""

import os
import re
import sys

NAMES = {
    ("codes", "codes_and_cells_are_one_and_the_same"): ["code", "cell_again", "cell", "same_depth", "code_again"],
    ("codes", "each_call_on_codes_has_one_answer"): ["checked", "packed", "unpacked", "parent", "child"],
    ("codes", "parent_and_child_undo_each_other"): ["parent_of_child", "child_of_parent"],
    ("codes", "places_tell_codes_children_and_parents"): ["on_its_solid", "on_no_other", "child", "parent"],
    ("codes", "a_cell_is_an_interval_of_places"): ["within", "nowhere_else"],
    ("mesh", "each_call_on_a_mesh_has_one_answer"): ["sound", "fresh", "refine", "coarsen", "across", "bounds", "run", "count"],
    ("mesh", "any_series_of_calls_leaves_a_sound_mesh"): ["sound", "one_or_two"],
    ("soundness", "refining_keeps_a_mesh_sound"): ["sound", "blocked"],
    ("soundness", "coarsening_keeps_a_mesh_sound"): ["sound", "blocked"],
    ("soundness", "each_side_meets_one_leaf_or_two_smaller"): ["one_or_two", "one_answer"],
    ("urdinhosa", "each_export_has_one_answer"): ["packed", "parent", "child", "located", "stepped", "written"],
}


def main():
    bad = 0
    for (crate, function), names in NAMES.items():
        folder = os.path.join("crates", crate, "src")
        for f in sorted(os.listdir(folder)):
            path = os.path.join(folder, f)
            with open(path, encoding="utf-8") as it:
                text = it.read()
            m = re.search(rf"(?m)^ *pub fn {function}\(.*?^\{{", text, re.S)
            if not m:
                continue
            head = m.group(0)
            labels = re.findall(r"(?m)^ *ensures (\w+) \{", head)
            if len(labels) != len(names):
                print(f"left: {path}: {function} has {len(labels)} clauses, not {len(names)}")
                bad = 1
                continue
            each = iter(names)
            head = re.sub(r"(?m)^( *ensures )\w+( \{)", lambda k: k.group(1) + next(each) + k.group(2), head)
            with open(path, "w", encoding="utf-8") as it:
                it.write(text[: m.start()] + head + text[m.end():])
    return bad


if __name__ == "__main__":
    sys.exit(main())
