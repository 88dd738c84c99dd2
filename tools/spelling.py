#!/usr/bin/env python3
"""Brings the repository's own definitions and lemmas to today's spelling, once, after the kit's port.py.

usage: python3 tools/spelling.py [FOLDER]      at the top of the repository, or in FOLDER

A name that a file of specs/ or proofs/ declares, other than a type, becomes snake case. A dash stays where it joins two
names that stand for themselves, as in `sum_by-append`, and behind a type; any other dash becomes an underscore. The
proof of the function f becomes `f_spec`. Functions of src/, constants in capitals, strings and outputs keep their names.
It prints each name that would fall together with another, and says how it is told apart: a lemma gets `_lem`.
"""

import os
import re
import sys

WORD = r"[^\s(){}.;,@\"«»λ∷+&|=⌜⌝:]"
DECLARED = re.compile(rf"^\s*((?:(?:abbrev|unfoldable|pub|ruleset|data|record|mutual|infix[lr]? \d+)\s+)*)([^\s(){{}}.;,:=]+)((?:\s+\{{[^{{}}]*\}})*(?:\s*\([^()]*\))*)\s+:\s")
RULESET = re.compile(r"^\s*(?:pub\s+)?ruleset\s+(\S+)\s*=")
IMPORT = re.compile(r"^(?:ghost )?use ([^\s;{]+)\.\{([^}]*)\}", re.M)
BOUND = re.compile(r"[a-z]+(?:[A-Z][a-z]+)+")
TOKEN = re.compile(r"[^\s(){}.;,@\"«»:]+|[.:]")


def files(top):
    for folder, dirs, names in os.walk(os.path.join(top, "crates")):
        dirs[:] = sorted(d for d in dirs if d != "out")
        for name in sorted(names):
            if name.endswith((".antt", ".rt")):
                yield os.path.join(folder, name)


def read(path):
    with open(path, encoding="utf-8") as f:
        return f.read()


def is_shared(path):
    """Whether the file is one of specs/, or a lemma file of proofs/, and not the proof of one function."""
    parts = path.split(os.sep)
    if not path.endswith(".antt"):
        return False
    return "specs" in parts or parts[-2] == "proofs"


def snake(word):
    return re.sub(r"(?<=[a-z0-9])([A-Z])", lambda m: "_" + m[1].lower(), word)


def new_name(old, names):
    if not old[0].islower() and not old[0] == "_":
        return old
    if re.search(r"[^\w'-]", old):
        return old
    parts = [snake(p) for p in old.split("-")]
    for cut in range(1, len(parts)):
        left, right = "_".join(parts[:cut]), "_".join(parts[cut:])
        if left in names and right in names:
            return left + "-" + right
    return "_".join(parts)


def main():
    top = sys.argv[1] if len(sys.argv) > 1 else "."
    texts = {p: read(p) for p in files(top)}
    declared, lemmas, library, spaces = {}, set(), set(), {}
    for p, t in texts.items():
        for path, items in IMPORT.findall(t):
            parts = path.split(".")
            if parts[0] != "Rattle":
                library.update(i.split(" as ")[0].strip() for i in items.split(","))
        if not is_shared(p):
            continue
        for line in t.split("\n"):
            m = RULESET.match(line)
            if m:
                declared.setdefault(m[1], set()).add(p)
                continue
            m = DECLARED.match(line)
            if not m or line.lstrip().startswith(("--", "let ", "λ", "(", "use ")):
                continue
            declared.setdefault(m[2], set()).add(p)
            if "/proofs/" in p:
                lemmas.add(m[2])
    library = {n for n in library if "-" not in n and re.fullmatch(r"[a-z][\w']*", n)}
    defined = {snake(n) for n in declared if "-" not in n and n[:1].islower() and n not in lemmas}
    names = library | defined
    table = {n: new_name(n, names) for n in declared}
    table = {old: new for old, new in table.items() if old != new}
    # Two names that fall together in one file: the lemma gives way.
    for p, t in sorted(texts.items()):
        present = set(TOKEN.findall(t))
        by_new = {}
        for w in present:
            by_new.setdefault(table.get(w, w), set()).add(w)
        for new, olds in sorted(by_new.items()):
            if len(olds) < 2:
                continue
            gives_way = [o for o in sorted(olds) if o in lemmas or "-" in o]
            if gives_way:
                print(f"meets: {p}: {' '.join(sorted(olds))}: {gives_way[0]} becomes {new}_lem")
                table[gives_way[0]] = new + "_lem"
            elif not is_shared(p):
                print(f"looks: {p}: {' '.join(sorted(olds))}: a function of src/ beside its definition, which no clause can confuse")
            else:
                print(f"MEETS: {p}: {' '.join(sorted(olds))}")
    # No word that stands in src/ alone is touched: a table's names are looked for in clauses, and Rust has none in camel case or with a dash.
    spec = re.compile(r"(?m)^(pub )?([a-z][\w'+-]*-spec) :")
    for p, t in texts.items():
        mine = dict(table)
        if not is_shared(p) and p.endswith("Proof.antt"):
            function = p.split(os.sep)[-2].lstrip("+")
            for m in spec.finditer(t):
                if m[2].replace("-", "_") == function + "_spec":
                    mine[m[2]] = function + "_spec"
        new = TOKEN.sub(lambda m: mine.get(m[0], m[0]), t)
        if p.endswith(".antt"):
            # What is left in camel case is bound by a pattern or a λ.
            new = TOKEN.sub(lambda m: snake(m[0]).lower() if BOUND.fullmatch(m[0]) else m[0], new)
        if new != t:
            with open(p, "w", encoding="utf-8") as f:
                f.write(new)
    with open(os.path.join(os.environ.get("SPELLED", "/tmp"), "spelled.tsv"), "w", encoding="utf-8") as f:
        for old, new in sorted(table.items()):
            f.write(f"{old}\t{new}\n")
    print(f"{len(table)} names spelled anew")


main()
