#!/usr/bin/env python3
"""Brings the repository's own definitions and lemmas to the language's spelling: words in snake case, types in upper camel case.

usage: python3 tools/respell.py [--check]        at the top of the repository, once, right after the kit's port.py

It goes through specs/ and proofs/ of each crate, the ghost parts of src/ (clauses, ghost items, ghost imports) and the texts of
must-fail/*.edit. A name turns if the repository declares it in an .antt file (a definition, a lemma, a field, a local name) and it has
a capital inside or a dash: childCorners -> child_corners, put-more -> put_more, NOT-LEAF -> NOT_LEAF. A dash stays where it joins the name
of a word of the library, of a type or of an operator to another name: length-pad, total-⊕. What a file imports from the
library keeps its spelling there. Functions of src/, strings, inputs and outputs keep their names.
--check writes nothing and says what would turn. Exit status 1 where two names would fall together: give one of them a row in BY_HAND.
It is for the text that port.py leaves, and stops where an Answers.antt of a function tells that the port is past that.
"""

import glob
import os
import re
import sys

TOKEN = r"[^\s(){}.;,@\"«»\[\]]+"
# Old name -> new name, where the rule gives no good one.
BY_HAND = {"walked_at": "walked_at_lem", "walkedAt": "walked_at", "splitAt": "split_slot"}
# Old parts of names whose library word has another spelling now.
PARTS = {"getD": "get_or", "get_d": "get_or"}
# Words of the library that head a lemma's name.
HEADS = {"length", "get_or", "take", "drop", "map", "sum", "append", "reverse"}
RESERVED = set("as in do let where elim data record open ruleset syntax module use pub abbrev unfoldable unfolding mutual result".split())
OWN_PATH = re.compile(r"Rattle\.(\w+)\.(specs|proofs)\.")


def read(path):
    with open(path, encoding="utf-8") as f:
        return f.read()


def crates():
    return sorted(c for c in os.listdir("crates") if os.path.isdir(os.path.join("crates", c)))


def below(crate, *kinds):
    found = []
    for kind in kinds:
        for folder, dirs, files in os.walk(os.path.join("crates", crate, kind)):
            dirs.sort()
            found += [os.path.join(folder, f) for f in sorted(files)]
    return found


def code(text):
    return re.sub(r"--[^\n]*", "", text)


def uses(text):
    """The imports of an .antt file: (path, items)."""
    for m in re.finditer(r"(?m)^use ([^\s{]+?)\.?(?:\{([^}]*)\}|(?: as \S+)?$)", code(text)):
        yield m.group(1), [it.strip() for it in (m.group(2) or "").split(",") if it.strip()]


def foreign(text, own):
    """What an .antt file imports from outside the repository."""
    found = set()
    for path, items in uses(text):
        m = re.match(r"Rattle\.(\w+)", path)
        if m and m.group(1) in own:
            continue
        for it in items:
            found |= set(re.split(r"\s+as\s+", it))
    return found


def declared(text, proof):
    """The names that an .antt file declares, local ones too; and those of them that are definitions, lemmas, fields or constructors."""
    text = re.sub(r"(?m)^use [^\n]*", "", code(text))
    top, local = set(), set()
    for m in re.finditer(rf"(?m)^( *)((?:(?:abbrev|unfoldable|pub|data|record) +)*)((?:{TOKEN} +)*?{TOKEN})((?: +(?:\([^()]*\)|\{{[^{{}}]*\}}))*) :(?= |$)([^\n]*)", text):
        if proof and re.match(r" *tie\.(Need|invariant|decreases)|.*\bstatement M", m.group(5)):
            continue
        words = m.group(3).split()
        if words[0] in ("let", "module", "λ", "where", "go"):
            continue
        top |= set(words)
    for m in re.finditer(rf"(?<![^\s(])let +({TOKEN})", text):
        local.add(m.group(1))
    for m in re.finditer(r"[λ({] *([^()\[\]{}.:λ=→;,]*?) *[:.]", text):
        local |= set(m.group(1).split())
    for m in re.finditer(r"λ ((?:\([^()]*\) *)+)\.", text):
        for it in re.findall(r"\(([^:()]*):", m.group(1)):
            local |= set(it.split())
    return top, local


def part(word):
    word = PARTS.get(word, word)
    if re.fullmatch(r"[A-Z0-9_]+", word) or word[:1].isupper():
        return word
    return re.sub(r"(?<=[a-z0-9₀-₉])([A-Z])", lambda m: "_" + m.group(1).lower(), word)


def respelled(name):
    if name in BY_HAND:
        return BY_HAND[name]
    each = [part(it) for it in name.split("-")]
    if not all(each):
        return name
    new = each[0]
    for before, it in zip(each, each[1:]):
        head = before in HEADS
        joins = head or (before[0].isupper() and not before.isupper()) or not re.search(r"\w", before) or (not re.search(r"\w", it))
        new += ("-" if joins else "_") + it
    return re.sub(r"^get_d(?=_)", "get_or", new)


def turns(word):
    return re.search(r"[A-Za-z₀-₉][-]|-[A-Za-z]|[a-z][A-Z]|^get_d_", word) and not re.fullmatch(r"(?:[A-Z][a-z0-9]*)+", word) and not word.startswith("-")


def table():
    own = set(crates())
    tops, locals_, foreigns = set(), set(), {}
    for c in own:
        for p in below(c, "specs", "proofs"):
            if not p.endswith(".antt"):
                continue
            text = read(p)
            top, local = declared(text, os.path.basename(p) == "Proof.antt")
            f = foreign(text, own)
            foreigns[p] = f - top
            tops |= top
            locals_ |= local
    names = {it for it in tops | locals_ if turns(it)}
    to = {it: respelled(it) for it in sorted(names)}
    to.update((a, b) for a, b in BY_HAND.items() if a in tops | locals_)
    to = {a: b for a, b in to.items() if a != b}
    # A lemma that would have its function's name gets '_lem'.
    words = {b: a for a, b in to.items() if "-" not in a}
    for a, b in to.items():
        if "-" in a and b in words and a not in BY_HAND:
            to[a] = b + "_lem"
    return to, tops, locals_, foreigns


def clashes(to, tops, locals_, foreigns):
    bad = []
    back = {}
    for a, b in to.items():
        back.setdefault(b, []).append(a)
    for b, each in sorted(back.items()):
        if len(each) > 1:
            bad.append((b, each))
    kept = (tops | locals_) - set(to)
    for a, b in to.items():
        if b in RESERVED:
            bad.append((b, [a, "a reserved word"]))
        if b in kept:
            bad.append((b, [a, "a name of the repository as it stands"]))
    for p, f in foreigns.items():
        text = None
        for a, b in to.items():
            if b in f:
                text = text or code(read(p))
                if re.search(rf"(?<![^\s(){{}}.;,@\"«»\[\]]){re.escape(a)}(?![^\s(){{}}.;,@\"«»\[\]])", text):
                    bad.append((b, [a, "imported in " + p]))
    return bad


def turned(text, to, skip):
    def one(m):
        word = m.group(0)
        if word in skip or word not in to:
            return word
        return to[word]

    out = []
    for piece in re.split(r"(\"(?:[^\"\\\n]|\\.)*\")", text):
        out.append(piece if piece.startswith('"') and piece.endswith('"') and len(piece) > 1 else re.sub(TOKEN, one, piece))
    return "".join(out)


def aligned(text):
    """The lists of words at a file's head stay in columns."""
    def parts(m):
        lines = m.group(0).splitlines(keepends=True)
        rows = [re.match(r"--   (\S.*?) +== (.*)", l) for l in lines]
        wide = max([len(r.group(1)) for r in rows if r] or [0])
        old = max([l.index(" == ") for l, r in zip(lines, rows) if r] or [0])
        out = []
        for l, r in zip(lines, rows):
            if r:
                out.append(f"--   {r.group(1).ljust(wide)} == {r.group(2)}\n")
            elif re.match(rf"-- {{{old - 2},}}\S", l):
                out.append("--" + " " * (wide + 7) + l[2:].lstrip())
            else:
                out.append(l)
        return "".join(out)

    return re.sub(r"(?m)(?:^--   [^\n]*\n)+", parts, text)


CLAUSE = re.compile(r"\b(?:requires|ensures)\s*\*?\s*(?:\w+\s*)?\{|\bghost\s+(?:invariant\s*)?(?:\w+\s*(?::|=)\s*)?\{")


def ghost_parts(text):
    """The places of a .rt file that hold antt: ghost imports, clauses, ghost fields and items."""
    found = []
    for m in re.finditer(r"(?m)^ *(?:pub )?ghost use [^;]*;", text):
        found.append((m.start(), m.end()))
    for m in CLAUSE.finditer(text):
        depth, i = 1, m.end()
        while i < len(text) and depth:
            depth += {"{": 1, "}": -1}.get(text[i], 0)
            i += 1
        found.append((m.end(), i - 1))
    return sorted(found)


def hidden(text, to):
    """Names that would be hidden by a parameter of the same name in the same file."""
    new = {to.get(it, it) for a, b in ghost_parts(text) for it in re.findall(TOKEN, text[a:b]) if it in to}
    params = {it for m in re.finditer(r"\bfn \w+(?:<[^>]*>)?\(([^)]*)\)", text) for it in re.findall(r"(\w+):", m.group(1))}
    return new & params


def undotted(text):
    """A namespace is a module: 'x as M·x' is x, where nothing else in the file has that name."""
    for word in sorted(set(re.findall(r"(\w+) as \w+·\1(?!\w)", text))):
        plain = [it for it in re.findall(r"ghost use [^;]*;", text) for it in re.findall(rf"[{{, ]{word}(?=[,}}])", it)]
        if plain or re.search(rf"\b{word}:", text):
            print("left: a dotted alias of " + word)
            continue
        text = re.sub(rf"\b{word} as \w+·{word}(?!\w)", word, text)
        text = re.sub(rf"\w+·{word}(?!\w)", word, text)
    return text


def turned_rt(text, to):
    text = undotted(text)
    out, at = [], 0
    for a, b in ghost_parts(text):
        if a < at:
            continue
        out += [text[at:a], turned(text[a:b], to, set())]
        at = b
    return "".join(out) + text[at:]


def main():
    write = "--check" not in sys.argv[1:]
    if glob.glob("crates/*/proofs/*/Answers.antt"):
        print("respell: the port is past this: nothing is written")
        return 1
    to, tops, locals_, foreigns = table()
    bad = clashes(to, tops, locals_, foreigns)
    for b, each in bad:
        print(f"falls together: {b}: {', '.join(each)}")
    for c in crates():
        for p in below(c, "src"):
            for it in sorted(hidden(read(p), to)):
                print(f"look: {p}: a parameter hides {it}")
    if not write:
        for a, b in to.items():
            print(a, "->", b)
        return 1 if bad else 0
    if bad:
        return 1
    for c in crates():
        new = {}
        for p in below(c, "specs", "proofs"):
            if p.endswith(".antt"):
                new[p] = turned(read(p), to, foreigns[p])
                if new[p] != read(p):
                    new[p] = aligned(new[p])
        for p in below(c, "src"):
            if p.endswith(".rt"):
                new[p] = turned_rt(read(p), to)
        for p in sorted(glob.glob(f"crates/{c}/must-fail/*.edit")):
            lines, where = [], None
            for line in read(p).split("\n"):
                if line.startswith("file: "):
                    where = f"crates/{c}/{line[6:].strip()}"
                m = re.match(r"(old|new): ", line)
                if m and where:
                    body = line[5:]
                    if where.endswith(".antt"):
                        body = turned(body, to, foreigns.get(where, set()))
                    elif m.group(1) == "old" and new.get(where, read(where)).count(body) != 1 or m.group(1) == "new" and lines and lines[-1][0]:
                        body = turned(body, to, set())
                    lines.append((body != line[5:], line[:5] + body))
                else:
                    lines.append((False, line))
            new[p] = "\n".join(it for _, it in lines)
        for p, text in new.items():
            if text != read(p):
                with open(p, "w", encoding="utf-8") as f:
                    f.write(text)
                print(p)
    return 0


if __name__ == "__main__":
    raise SystemExit(main())
