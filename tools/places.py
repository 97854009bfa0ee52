#!/usr/bin/env python3
"""Counts the places in crates/*/src (and, for 8, in crates/*/proofs) that docs/DESIGN-PASS.md speaks of: one line for each kind, and with -v each place.

usage: tools/places.py [-v]
"""
import collections
import glob
import os
import re
import sys

ITEM = re.compile(r"^ *(?:pub )?(?:extern \"C\" )?fn (\w+)")

# point, what is counted, and the text of a line that is one
KINDS = [
    (1, "own enums", r"^(?:pub )?enum \w+"),
    (1, "a refusal number or a flag in a struct", r"^    pub (?:refusal: u64|formed: bool|opened: u64),"),
    (1, "a number for a refusal, a quantity or an axis", r"\b(?:refusal|met|empty|filled|quantity|axis): (?:u64|usize)\b(?!,$)|^    axis: (?:u64|usize),"),
    (1, "functions that give a refusal as a number", r"fn (?:met|turned_away|refused|rtk_(?!length)\w+|put_back)\(.*-> u64"),
    (1, "names of refusal numbers", r"^    pub const [A-Z]+: u64 = \d\d?;"),
    (3, "`while`", r"^ *(?:'\w+: )?while "),
    (3, "`for` over a range of numbers", r"^ *(?:'\w+: )?for .* in .*\.\."),
    (4, "a function that makes one type of another", r"fn \w+\(\w+: (?:u8|bool|Shown|Judged|Verdict|Judgement|Evaluated|Compared|Result<.*>)\) -> "),
    (5, "Ready or Formed in a `requires`", r"^ *requires \{.*\b(?:Ready|Formed) "),
    (5, "`at ≤ length s.now` in a `requires`", r"^ *requires \{.*\bat ≤ length s\.now"),
    (5, "room in `out` in a `requires`", r"^ *requires \{.*≤ length out\.old"),
    (5, "FitsAxis or Fits in a `requires`", r"^ *requires \{.*\bFits"),
    (5, "terms and cells as two parameters", r"\bcells: &(?:'a )?\[u64; Layout::CELLS\]|^    c1: "),
    (5, "series, set and point as three parameters", r"\bset: u(?:64|size), point: u|^    point: u64,"),
    (5, "x, y and h as three parameters", r"\by: [ui]64, h: [ui]64|^    h: [ui]64,$"),
    (6, "a buffer with a length or a flag beside it", r"^    pub (?:bytes|numbers|changes): \[u|^    kept: u64,|\bkept: u64\b.*changes: &"),
    (6, "a place in a slice as a parameter", r"\b(?:s|bytes): &(?:mut )?\[u8\], at: usize|\bout: &mut \[u(?:8|64)\], (?:at|base): usize|cells: &mut \[u64\], base: usize|register: &(?:mut )?\[u8\], a: usize"),
    (7, "function pointers, tables of functions, dyn", r"\bdyn \b|: fn\("),
]


def functions(path):
    """name, line and text of each function, without its clauses."""
    lines = open(path, encoding="utf-8").read().split("\n")
    at = 0
    while at < len(lines):
        found = ITEM.match(lines[at])
        if not found:
            at += 1
            continue
        start, body, depth, opened = at, [], 0, False
        while at < len(lines):
            line = lines[at]
            if opened or not re.match(r" *(requires|ensures) ", line):
                depth += line.count("{") - line.count("}")
                opened = opened or "{" in line
                body.append(line.strip())
            at += 1
            if opened and depth == 0:
                break
        yield found.group(1), start + 1, "\n".join(body)


def shape(text):
    """a body with its names and numbers taken out, in the order in which they come."""
    names = {}
    body = text[text.index("{"):]
    return re.sub(r"[A-Za-z_]\w*|\d+", lambda m: names.setdefault(m.group(0), f"n{len(names)}"), body)


def twins(paths):
    """functions of two statements and more whose bodies differ in names and numbers alone."""
    groups = collections.defaultdict(list)
    for path in paths:
        for name, line, text in functions(path):
            if text.count("\n") >= 3:
                groups[shape(text)].append(f"{path}:{line}: {name}")
    return [g for g in groups.values() if len(g) > 1]


def lemmas():
    """statements of one line that stand in several proof files under one name."""
    seen = collections.defaultdict(list)
    for path in sorted(glob.glob("crates/*/proofs/**/*.antt", recursive=True)):
        for n, line in enumerate(open(path, encoding="utf-8"), 1):
            found = re.match(r"(?:pub )?([a-z][\w-]*) : (?!goal\.)(.+)$", line)
            if found:
                seen[found.group(1) + found.group(2)].append(f"{path}:{n}: {found.group(1)}")
    return [s for s in seen.values() if len(s) > 1]


def main():
    os.chdir(os.path.join(os.path.dirname(os.path.abspath(__file__)), ".."))
    verbose = "-v" in sys.argv[1:]
    paths = sorted(glob.glob("crates/*/src/**/*.rt", recursive=True))
    rows = []
    for point, what, text in KINDS:
        test = re.compile(text)
        places = [
            f"{path}:{n}: {line.strip()}"
            for path in paths
            for n, line in enumerate(open(path, encoding="utf-8"), 1)
            if not line.lstrip().startswith("//") and test.search(line.rstrip("\n"))
        ]
        rows.append((point, what, places))
    rows.append((2, "functions of one shape, in groups", [" = ".join(g) for g in twins(paths)]))
    rows.append((8, "lemmas of one name and statement, in groups", [" = ".join(g) for g in lemmas()]))
    for point, what, places in sorted(rows, key=lambda r: r[0]):
        print(f"{point}  {len(places):3}  {what}")
        if verbose:
            print("".join(f"        {p}\n" for p in places), end="")


main()
