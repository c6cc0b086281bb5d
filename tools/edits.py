#!/usr/bin/env python3
"""Looks at the must-fail edits.

usage: python3 tools/edits.py           at the top of the repository: says each edit whose `old:` text does not stand once in its file
       python3 tools/edits.py FOLDER    also says which edits of the checkout FOLDER are not here, and shows those that read otherwise here
"""

import difflib
import glob
import os
import sys


def read(path):
    with open(path, encoding="utf-8") as f:
        return f.read()


def misses(edit):
    """What keeps an edit from being applied."""
    crate = os.path.dirname(os.path.dirname(edit))
    path, old, texts = None, None, {}
    for line in read(edit).split("\n"):
        key, _, text = line.partition(": ")
        if key == "file":
            path = os.path.join(crate, text.strip())
            if not os.path.isfile(path):
                yield f"there is no {path}"
                return
            texts.setdefault(path, read(path))
        elif key == "old":
            old = text
        elif key in ("new", "new:"):
            if texts[path].count(old) != 1:
                yield f"{old!r} stands {texts[path].count(old)} times in {path}"
            if old == text:
                yield f"{old!r} is not changed"
            texts[path] = texts[path].replace(old, text)


def main(landed):
    here = sorted(glob.glob("crates/*/must-fail/*.edit"))
    bad = 0
    for edit in here:
        for it in misses(edit):
            print(f"{edit}: {it}")
            bad += 1
    if landed:
        there = sorted(os.path.relpath(it, landed) for it in glob.glob(os.path.join(landed, "crates/*/must-fail/*.edit")))
        for edit in sorted(set(there) - set(here)):
            print(f"{edit}: is not here")
            bad += 1
        for edit in sorted(set(there) & set(here)):
            was, now = read(os.path.join(landed, edit)), read(edit)
            if was != now:
                print(f"{edit}: reads otherwise")
                for line in list(difflib.unified_diff(was.split("\n"), now.split("\n"), lineterm="", n=0))[2:]:
                    print("    " + line)
    print(f"{len(here)} edits, {bad} amiss")
    return bad > 0


if __name__ == "__main__":
    sys.exit(main(sys.argv[1] if len(sys.argv) > 1 else None))
