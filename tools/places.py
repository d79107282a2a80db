#!/usr/bin/env python3
"""Counts the places of docs/DESIGN-PASS.md in crates/*/src: usage: python3 tools/places.py [ROOT] [--list]"""

import glob
import re
import sys
from collections import Counter, defaultdict

TABLE_PARAMETERS = ("heads", "bytes", "count", "marks")


def sources(root):
    for path in sorted(glob.glob(root + "/crates/*/src/*.rt")):
        with open(path, encoding="utf-8") as f:
            yield path.split("/crates/")[1], [re.sub(r"//.*", "", line).rstrip() for line in f]


def functions(lines):
    """The functions: name, signature with clauses, body."""
    i = 0
    while i < len(lines):
        m = re.match(r"^(\s*)(?:pub )?fn (\w+)", lines[i])
        if not m:
            i += 1
            continue
        indent, j = m.group(1), i
        while j < len(lines) and lines[j] != indent + "}" and not (lines[j].endswith(";") and lines[j].startswith(indent + "    ensures")):
            j += 1
        text = lines[i : j + 1]
        k = next((n for n, line in enumerate(text) if line == indent + "{" or (line.endswith("{") and re.match(indent + r"(?:pub fn|fn|\)) ?", line))), len(text) - 1)
        yield i + 1, m.group(2), "\n".join(text[: k + 1]), "\n".join(text[k + 1 :])
        i = j + 1


def shape(body):
    """A body without its names, numbers and types."""
    words = re.findall(r"[A-Za-z_]\w*|\d\w*|[^\s\w]", body)
    keep = {"if", "else", "match", "for", "while", "in", "return", "let", "mut", "as", "loop"}
    return " ".join(w if w in keep or not re.match(r"\w", w) else "x" for w in words)


def count(root):
    found = defaultdict(list)
    shapes, clauses = defaultdict(list), Counter()
    for path, lines in sources(root):
        for n, line in enumerate(lines, 1):
            at = f"{path}:{n}"
            if re.match(r"\s*(pub )?enum ", line):
                found["1 own enums"].append(at + line)
            if re.match(r"\s*(pub )?const \w+: u(8|16) =", line):
                found["1 numbers with names, of 8 and 16 bits"].append(at + line)
            if re.match(r"\s*(while|loop)\b", line):
                found["3 while and loop"].append(at + line)
            if re.search(r"\bas (u8|u16|u32|u64|usize)\b", line):
                found["4 conversions by as"].append(at + line)
        for n, name, head, body in functions(lines):
            at = f"{path}:{n} {name}"
            shapes[shape(body)].append(at)
            named = [p for p in TABLE_PARAMETERS if re.search(r"\b%s: " % p, head.split(" requires ")[0].split(" ensures ")[0])]
            if len(named) >= 3:
                found["5 functions with three or more of heads, bytes, count, marks"].append(at)
            for clause in set(re.sub(r"\s+", " ", c) for c in re.findall(r"requires(?: \w+)? \{ (.*?) \}", head, re.S)):
                clauses[clause] += 1
    for s, names in shapes.items():
        if len(names) > 1 and len(s.split()) > 12:
            found["2 functions of one shape"].extend(names)
    found["5 facts that three or more functions require"] = [f"{n} times: {c}" for c, n in clauses.items() if n >= 3]
    return found


def main(argv):
    roots = [a for a in argv if not a.startswith("--")] or ["."]
    found = count(roots[0])
    for what in sorted(found):
        print(f"{len(found[what]):4}  {what}")
        if "--list" in argv:
            for place in found[what]:
                print("        " + place)


if __name__ == "__main__":
    main(sys.argv[1:])
