#!/usr/bin/env python3
"""Brings the names of this repository's own definitions and lemmas to Rattle's spelling: words in snake case, constants in capitals with '_',
and a dash only between two names, as in `length-drop`.

usage: respell.py [--names FOLDER] [FOLDER]     FOLDER is a checkout that port.py has turned (default: the folder above this file's);
                                               the names are those declared in --names (default: FOLDER)

Names of functions, exported C names, strings, inputs and outputs stay: they have neither a dash nor a capital inside. A name that a function's
proof file declares stays too, since the check names its goals. Two names that would fall together get `_lem` on the lemma.
"""

import os
import re
import sys

TOKEN = re.compile(r"[^\s(){}\[\].;,\"`«»⟦⟧]+")
SIGNATURE = re.compile(r"^(\s*)((?:(?:unfoldable|abbrev|pub|pattern|axiom) )*)((?:data |record |ruleset )?)([^\s:(){}\[\].;,=|\"]+)(?=\s*(?::|=|\(|\{|\[))")
FUNCTION_FILES = ("Proof.antt", "Answers.antt", "Invariants.antt")
# operators and words of std that stand in a name for what they name
STD = """add sub mul div mod pow le lt ge gt eq ne neg abs min max suc pred mem length take drop append set sum map replicate filter
all any zero cons nil snoc read get not and or if fst snd bool nat int""".split()
KEPT_CAPITALS = {"Q", "P", "S", "D", "H", "Qx", "Qy", "Qh"}


def crates(root):
    for folder, dirs, files in os.walk(os.path.join(root, "crates")):
        dirs[:] = sorted(d for d in dirs if d != "out")
        for f in sorted(files):
            if f.endswith((".rt", ".antt", ".edit")):
                yield os.path.join(folder, f)


def read(path):
    with open(path, encoding="utf-8") as f:
        return f.read()


def is_function_file(path):
    return "/proofs/" in path and os.path.basename(path) in FUNCTION_FILES


def declared(root):
    """Every name that a file of specs/ or of lemmas declares, and of those the ones that stand at the left edge."""
    names, top = set(), set()
    for path in crates(root):
        if not path.endswith(".antt") or is_function_file(path):
            continue
        for line in read(path).split("\n"):
            if line.lstrip().startswith("--") or line.startswith(("use ", "pub use ", "pub mod ", "mod ")):
                continue
            # a record's field or a telescope's names may stand several in a row
            m = SIGNATURE.match(line)
            if m and m.group(4) not in ("where", "let", "in", "module", "unfolding", "elim", "λ", "infix", "infixl", "infixr"):
                names.add(m.group(4))
                if not m.group(1) and not m.group(3).startswith("ruleset"):
                    top.add(m.group(4))
    return names, top


def snake(word):
    """camelCase to snake_case; a word of capitals is one word."""
    if not re.match(r"[a-z]", word):
        return word
    return re.sub(r"([a-z0-9])([A-Z]+)", lambda m: m.group(1) + "_" + m.group(2), word).lower() if re.search(r"[a-z0-9][A-Z]", word) else word


def spelled(name, words):
    parts = name.split("-")
    if not all(parts):
        return snake(name)
    if all(re.fullmatch(r"[A-Z0-9]+", p) for p in parts):
        return "_".join(parts) if len(parts) > 1 else name
    parts = [snake(p) for p in parts]

    def a_name(p):
        return not re.search(r"[A-Za-z]", p) or p.strip("'").lower() in words

    out = parts[0]
    for i in range(1, len(parts)):
        lefts = ["_".join(parts[j:i]) for j in range(i)]
        rights = ["_".join(parts[i:j]) for j in range(i + 1, len(parts) + 1)]
        both = any(a_name(x) for x in lefts) and any(a_name(x) for x in rights)
        out += ("-" if both else "_") + parts[i]
    return out


def table(root):
    names, top = declared(root)
    words = {snake(n).lower() for n in top if "-" not in n and re.search(r"[A-Za-z]", n)} | set(STD)
    turned = {}
    of_std = set()
    for path in crates(root):
        for m in re.finditer(r"use Rattle\.(?:std|core|io)\.[^\n{]*\{([^}]*)\}", read(path)):
            of_std |= set(TOKEN.findall(m.group(1)))
    for n in names - of_std:
        if "-" in n or (re.match(r"[a-z]", n) and re.search(r"[A-Z]", n)):
            turned[n] = spelled(n.replace("getD", "get_or"), words | {"get_or"})
    if "Res" in names:
        turned["Res"] = "res"
        for n in list(turned):
            if n.startswith("Res-"):
                turned[n] = spelled("res-" + n[4:], words | {"res"})
    used = set(names)
    for path in crates(root):
        if path.endswith(".antt") and not is_function_file(path):
            for m in re.finditer(r"(?m)^(?:pub )?use [^\n{]*\{([^}]*)\}", read(path)):
                used |= set(TOKEN.findall(m.group(1)))
    if "placeAt" in names and "place_at" in names:
        # port.py has spelled the lemma `place-at` as the definition is to be spelled
        turned["place_at"] = "place_at_lem"
        used.discard("place_at")
    met = {}
    for n in sorted(turned, key=lambda n: ("-" in n, n)):
        to = turned[n]
        while to != n and (to in met or to in used):
            print(f"respell: {n} would fall together with {met.get(to, to)}: {to}_lem", file=sys.stderr)
            to += "_lem"
        met[to] = n
        turned[n] = to
    return {n: to for n, to in turned.items() if n != to}


def turn(text, names):
    return TOKEN.sub(lambda m: names.get(m.group(0), m.group(0)), text)


def main():
    args = sys.argv[1:]
    source = None
    if "--names" in args:
        at = args.index("--names")
        source = args[at + 1]
        del args[at : at + 2]
    root = args[0] if args else os.path.dirname(os.path.dirname(os.path.realpath(__file__)))
    names = table(source or root)
    count = 0
    for path in crates(root):
        old = read(path)
        new = turn(old, names)
        if new != old:
            count += 1
            with open(path, "w", encoding="utf-8") as f:
                f.write(new)
    print(f"respell: {len(names)} names, {count} files")


if __name__ == "__main__":
    main()
