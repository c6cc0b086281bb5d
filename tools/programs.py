#!/usr/bin/env python3
"""Writes the programs over std, and the crate that C links.

usage: python3 tools/programs.py        at the top of the repository, once, after port.py and respell.py; then `rt fmt` in each crate it names.
       It is for that text alone

- The functions of a program that print take the runtime first and hand a failed write up; `main` returns it.
- show and meshlist stand on std alone, in crates.txt too.
- urdinhosa is a library; urdinhosa_c exports each of its functions that C calls, with the same clauses.
"""

import os
import re

SHOW = '''// What the programs write with, on standard output.

#![tactic(auto)]

use std::io;

pub fn text(rt: &impl Print, bytes: &[u8]) -> io::Result<()> {
    rt.write_all(bytes)
}

// A number in hexadecimal, after a space.
pub fn shown(rt: &impl Print, number: u64) -> io::Result<()> {
    print!(rt; " {number:x}")
}

// A number in decimal.
pub fn decimal(rt: &impl Print, number: u64) -> io::Result<()> {
    print!(rt; "{number}")
}
'''

MESHLIST = '''// Reads orders for a mesh from standard input and lists the mesh that they leave. What is printed is settled in `listing`.

#![tactic(auto)]

ghost use Rattle.std.specs.Prelude.{◌≤◌, length, IfOk};

use std::io;
use std::io::Read;

// Reads until the buffer is full or the input ends, in as many pieces as it comes, and answers how many bytes were read.
fn read_full(input: &mut impl Read, buffer: &mut [u8]) -> io::Result<usize>
    ensures { IfOk result (λ n. n ≤ length buffer.new) }
{
    let mut done = 0;
    while done < buffer.len() {
        let n = input.read(&mut buffer[done..])?;
        if n == 0 {
            break;
        }
        done += n;
    }
    Ok(done)
}

fn main(rt: HostRuntime) -> io::Result<()> {
    // one byte more than may be read: a longer input is told by it
    let mut input = [0u8; 4097];
    let n = read_full(&mut rt.stdin(), &mut input)?;
    let mut page = [0u8; listing::PAGE];
    let end = listing::list(&mut page, &input[..n]);
    rt.write_all(&page[..end])
}
'''

READ_FULL = '''-- What has been read lies in the buffer.
-- Assumes nothing.
use Rattle.std.proofs.Common.{length, ◌-◌, ◌≤◌}
use Rattle.meshlist.proofs.read_full.Given as goal

abbrev pub invariant-loop-done : goal.invariant-loop-done
invariant-loop-done g l = l.done ≤ length l.buffer

abbrev pub decreases-loop-done : goal.decreases-loop-done
decreases-loop-done g l = length l.initial.buffer - l.done
'''

# After the rules, by hand: what an arm of an `if` or a `match` answers, and what ends a function after a loop.
BY_HAND = {
    "cases": [("        answered(rt, 1)?;\n    } else {\n        answered(rt, 0)?;\n", "        answered(rt, 1)\n    } else {\n        answered(rt, 0)\n")],
    "meshes": [
        ('            text(rt, b" -1")?;\n            shown(rt, leaf)?;', '            text(rt, b" -1")?;\n            shown(rt, leaf)'),
        ('            text(rt, b" 0")?;\n            shown(rt, leaf)?;', '            text(rt, b" 0")?;\n            shown(rt, leaf)'),
        ("            shown(rt, other)?;", "            shown(rt, other)"),
        ("        Facing::Refused(k) => shown(rt, k),", "        Facing::Refused(k) => shown(rt, k)?,"),
        ("answered(rt, 0, count as u64),", "answered(rt, 0, count as u64)?,"),
        ("answered(rt, k, 0),", "answered(rt, k, 0)?,"),
        ("        shown(rt, slots[i])?;\n    }\n", "        shown(rt, slots[i])?;\n    }\n    Ok(())\n"),
    ],
    "printed": [
        ("        rest = rest << 2;\n    }\n", "        rest = rest << 2;\n    }\n    Ok(())\n"),
        ('        0 => text(rt, b" left"),\n        1 => text(rt, b" right"),\n        _ => text(rt, b" vertical"),', '        0 => text(rt, b" left")?,\n        1 => text(rt, b" right")?,\n        _ => text(rt, b" vertical")?,'),
    ],
    "corner_rule": [],
    "listings": [],
}


def read(path):
    with open(path, encoding="utf-8") as f:
        return f.read()


def write(path, text):
    os.makedirs(os.path.dirname(path), exist_ok=True)
    with open(path, "w", encoding="utf-8") as f:
        f.write(text)


def headed(text):
    """With the line of the tactic below the comment at the head."""
    if "#![tactic" in text:
        return text
    m = re.match(r"((?://[^\n]*\n)*)\n*", text)
    return m.group(1) + "\n#![tactic(auto)]\n\n" + text[m.end():]


def closed(text, at):
    """Where the bracket that opens at a place is closed."""
    depth = 0
    while True:
        if text.startswith('b"', at):
            at += 2
            while text[at] != '"':
                at += 2 if text[at] == "\\" else 1
        elif text[at] in "([{":
            depth += 1
        elif text[at] in ")]}":
            depth -= 1
            if depth == 0:
                return at
        at += 1


def program(text):
    given = set(re.findall(r"\w+", re.search(r"use show::(\{[^}]*\}|\w+);", text).group(1)))
    starts = [(m.group(1), m.start()) for m in re.finditer(r"(?m)^fn (\w+)\(", text)]
    spans = list(zip(starts, [at for _, at in starts[1:]] + [len(text)]))
    bodies = {name: text[at:end].split("\n", 1)[1] for (name, at), end in spans}
    printing = set(given)
    while True:
        more = {n for n, b in bodies.items() if n not in printing and any(re.search(rf"(?<![\w:.]){p}\(", b) for p in printing)}
        if not more:
            break
        printing |= more
    each = "|".join(sorted(printing, key=len, reverse=True))
    out = text[:starts[0][1]]
    for (name, at), end in spans:
        if name not in printing:
            out += text[at:end]
            continue
        brace = re.search(r"(?m)^\{\n|\{\n", text[at:end]).end() + at
        head, body = text[at:brace], text[brace:end]
        if name == "main":
            rt, head = "&rt", head.replace("fn main()", "fn main(rt: HostRuntime) -> io::Result<()>")
        else:
            rt = "rt"
            head = re.sub(r"^fn (\w+)\((\s*)(\)?)", lambda m: f"fn {m[1]}({m[2]}rt: &impl Print" + (")" if m[3] else ", "), head)
            at_end = closed(head, head.index("("))
            head = head[:at_end + 1] + " -> io::Result<()>" + head[at_end + 1:]
        body = re.sub(rf"(?<![\w:.])({each})\((\s*)(\)?)", lambda m: f"{m[1]}({m[2]}{rt}" + (")" if m[3] else ", "), body)
        # each call that is a statement; the last of a function is what it answers
        done, at = "", 0
        for m in re.finditer(rf"(?m)^ +({each})\(", body):
            end_of = closed(body, m.end() - 1)
            if body[end_of + 1] == ";":
                is_last = body.startswith("\n}\n", end_of + 2)
                done, at = done + body[at:end_of + 1] + ("" if is_last else "?;"), end_of + 2
        out += head + done + body[at:]
    lines = out.split("\n")
    lines.insert(max(i for i, l in enumerate(lines) if l.startswith("use ") and l < "use std::io;") + 1, "use std::io;")
    return headed("\n".join(lines))


def exports(text):
    """The library and the crate that C links, from the library as it exported by itself."""
    text = headed(text.replace('#[unsafe(no_mangle)]\npub extern "C" fn', "pub fn"))
    first = "promises what the call under it promises.\n"
    assert first in text
    text = text.replace(first, first[:-1] + " The crate\n// urdinhosa_c exports them to C under these names.\n", 1)
    body = ""
    for note, name, params, result, clauses in re.findall(r"(?ms)^((?://[^\n]*\n)*)pub fn (urdinhosa_\w+)\((.*?)\) -> (\w+)\n((?:    (?:requires|ensures)[^\n]*\n)+)\{", text):
        words = ", ".join(re.findall(r"(\w+):", params))
        body += f'{note}#[unsafe(no_mangle)]\npub extern "C" fn {name}({params}) -> {result}\n{clauses}{{\n    urdinhosa::{name}({words})\n}}\n\n'
    uses = ""
    for path, items in re.findall(r"(?m)^ghost use (\S+)\.\{([^}]*)\};", text):
        keep = [it for it in items.split(", ") if not path.endswith("Prelude") and re.search(rf"(?<!\w){re.escape(it)}(?!\w)", body)]
        uses += f"ghost use {path}.{{{', '.join(keep)}}};\n" if keep else ""
    return text, f"// What C links: each function of include/urdinhosa.h, as the crate urdinhosa has it, with its clauses.\n\n#![tactic(auto)]\n\n{uses}\n{body.rstrip()}\n"


def main():
    for crate, pairs in BY_HAND.items():
        path = f"crates/{crate}/src/main.rt"
        text = program(read(path))
        for old, new in pairs:
            assert text.count(old) == 1, (path, old)
            text = text.replace(old, new)
        write(path, text)
    write("crates/show/src/lib.rt", SHOW)
    write("crates/meshlist/src/main.rt", MESHLIST)
    write("crates/meshlist/proofs/read_full/Invariants.antt", READ_FULL)
    library, linked = exports(read("crates/urdinhosa/src/lib.rt"))
    write("crates/urdinhosa/src/lib.rt", library)
    write("crates/urdinhosa_c/src/lib.rt", linked)
    lines = read("crates.txt").replace("show: io libc\n", "show:\n").replace("meshlist: listing io libc\n", "meshlist: listing\n")
    below = re.search(r"(?m)^urdinhosa: (.*)$", lines)
    lines = lines.replace(below[0] + "\n", f"{below[0]}\nurdinhosa_c staticlib: {below[1]} urdinhosa\n")
    with open("crates.txt", "w", encoding="utf-8") as f:
        f.write(lines)


if __name__ == "__main__":
    main()
