#!/usr/bin/env python3
"""Spells the repository's own definitions, lemmas, fields and constructors in snake case.

usage: respell.py        at the top of the repository, once, after the kit's port.py

A name that specs/ or proofs/ declare in lower camel case or with dashes gets underscores, in every .antt and .rt file and in every
must-fail edit. Types and modules keep their names. A lemma whose new name is another's gets `_lem`. A name that a file imports from a
library of the kit keeps its spelling in that file. What stands in proofs/F/ of a function F is not turned but for the names declared
elsewhere. Functions of src/, exported names, strings and comments of code keep their names.
"""

import collections
import glob
import os
import re
import sys

# What the kit calls otherwise now, inside a name.
WORDS = {"getD": "get_or"}
# Names that fall together otherwise, and what they are called.
GIVEN = {"gather": {"goes_on": "goes_on_lem"}, "protocol": {"read_done": "read_done_lem"}, "saved_reader": {"too_long": "too_long_lem"}, "heads": {"field-at": "field_at_lem"}}
SIGNATURE = re.compile(r"^(\s*)(?:(?:abbrev|unfoldable|pub) )*([^\s:(){}\[\],;]+)((?: [^\s:(){}\[\],;]+)*)(?: \{[^}]*\})* : ")
USE = re.compile(r"^\s*(?:pub )?(?:ghost )?use ([^\s{;]+?)\.?(?:\{([^}]*)\})?;?\s*(?:as \S+)?$", re.M)
TOKEN = re.compile(r"[^\s(){}\[\],;.\"`]+")


def lower(name):
    return re.match(r"[a-z]", name) is not None


def snake(name):
    for old, new in WORDS.items():
        name = re.sub(rf"{old}(?=[A-Z-]|$)", new, name)
    name = name.replace("′", "'").replace("-", "_")
    return re.sub(r"(?<=[a-z0-9])([A-Z])", lambda m: "_" + m[1].lower(), name)


def own_crates():
    return sorted(os.path.basename(d) for d in glob.glob("crates/*") if os.path.isdir(d))


def files(*patterns):
    return sorted(f for p in patterns for f in glob.glob(p, recursive=True) if "/out/" not in f)


def read(path):
    with open(path, encoding="utf-8") as f:
        return f.read()


def declared():
    """Each name that specs/ and proofs/*.antt declare, with what each declaration is: a case of a data type, a field or another."""
    found = collections.defaultdict(set)
    for path in files("crates/*/specs/**/*.antt", "crates/*/proofs/*.antt"):
        kind = ""
        for line in read(path).splitlines():
            if line.lstrip().startswith("--"):
                continue
            if line and not line[0].isspace():
                head = re.match(r"(?:(?:abbrev|unfoldable|pub) )*(data|record) ", line)
                kind = head[1] if head else ""
            m = SIGNATURE.match(line)
            if m:
                for name in [m[2], *m[3].split()]:
                    found[name].add(kind if m[1] else "")
    return found


def imported_from_kit(text, own):
    """The names that a text imports from a library of the kit."""
    names = set()
    for m in USE.finditer(text):
        parts = m[1].split(".")
        if parts[0] == "Rattle" and len(parts) > 1 and parts[1] in own:
            continue
        for it in (m[2] or "").split(","):
            words = it.split(" as ")
            if words[0].strip():
                names.add(words[-1].strip())
    return names


def renaming(names):
    turned = {}
    for name in sorted(names):
        if lower(name) and (re.search(r"[A-Z]", name) or "-" in name or "′" in name):
            turned[name] = snake(name)
    taken = collections.defaultdict(list)
    for name in names:
        taken[turned.get(name, name)].append(name)
    for new, olds in sorted(taken.items()):
        if len(olds) > 1:
            for old in olds:
                if "-" in old:
                    turned[old] = new + ("_case" if names[old] == {"data"} else "_lem")
            print(f"fall together as {new}: {', '.join(sorted(olds))} -> {[turned.get(o, o) for o in sorted(olds)]}")
    again = collections.Counter(turned.get(n, n) for n in names)
    for new, n in again.items():
        if n > 1:
            print(f"still together: {new}")
    return turned


def turn(text, table, keep, walk=False):
    """In the proof of a function a name behind a dot may be a step of the code: it gets no ending."""

    def one(m):
        name = m[0]
        if name in keep:
            return name
        new = table.get(name, name)
        if walk and m.start() and text[m.start() - 1] == "." and new.endswith(("_lem", "_case")):
            return name
        return new

    return TOKEN.sub(one, text)


def main():
    own = set(own_crates())
    table = renaming(declared())
    dashed = {n for n in table if "-" in n}
    camel = {n: new for n, new in table.items() if n not in dashed}
    for path in files("crates/*/specs/**/*.antt", "crates/*/proofs/**/*.antt", "crates/*/src/**/*.rt"):
        text = read(path)
        keep = imported_from_kit(text, own)
        given = GIVEN.get(path.split("/")[1], {}) if path.endswith(".antt") else {}
        new = turn(text, table | given, keep, path.endswith("/Proof.antt"))
        if keep & set(table):
            print(f"kept in {path}: {', '.join(sorted(keep & set(table)))}")
        if path.endswith(".antt"):
            before = set(TOKEN.findall(text))
            met = {table[t] for t in before if t in table and t not in keep and table[t] in before}
            if met:
                print(f"meets in {path}: {', '.join(sorted(met))}")
        if new != text:
            with open(path, "w", encoding="utf-8") as f:
                f.write(new)
    for path in files("crates/*/must-fail/*.edit"):
        text = read(path)
        new = turn(text, table, set())
        if new != text:
            with open(path, "w", encoding="utf-8") as f:
                f.write(new)
    print(f"{len(table)} names, {len(camel)} of them in camel case")


main()
