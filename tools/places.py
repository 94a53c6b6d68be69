#!/usr/bin/env python3
"""Counts the places in crates/*/src that docs/DESIGN-PASS.md speaks of, point by point.

python3 tools/places.py [FOLDER] [-v]      FOLDER is a checkout; -v prints each place
"""
import glob
import re
import sys

SEARCHES = [
    ("1 numbers for kinds, fields or refusals", r"\bfield: (usize|[0-9])|refusal\.field\b|\bkind: u8|usize::MAX. where"),
    ("1 results and options wrapped again by hand", r"(Ok|Err|Some)\(\w+\) => (Ok|Err|Some|None)\b|None => (Err|Ok|None)\b|(\b\w+::\w+) => \4\b"),
    ("3 loops with a count or an index kept by hand", r"\bwhile (?!let)|for \w+ in 0\.\.|^\s+\w+ \+= 1\b|saturating_add\(1\)|\w\[i\]"),
    ("4 order, printing and conversion by hand", r"fn (name|words|number|show|of|\w+_words|\w+_text|\w+_line|exact|quoted|is_larger|exceeds|from_\w+|to_\w+)\b(?!.*Formatter)"),
    ("4 values copied field by field", r"^\s+(\w+): (self|\w+)\.\1,$"),
    ("5 facts that stand in many clauses", r"(requires|ensures)( \w+)? \{.*(\b(Placed|ShortTwo|ShortThree|Short|Half|Checked|progress_of|pattern)\b|(dipped|logged)_numbers b\.now|by_numbers)"),
    ("6 buffers with a length beside, parallel arrays", r"\[[\w&' ]+; 15\]|\(\[u8; [0-9]+\], usize\)|out: &mut \[u8\], at: usize"),
    ("7 steps chosen by a match, and functions in tables", r"= match self \{|match (record|visit\.record|kind) \{|: fn\(|\bdyn\b"),
]


def sources(folder):
    return sorted(glob.glob(f"{folder}/crates/*/src/*.rt"))


def code_of(text):
    """The text without comments and clauses."""
    text = re.sub(r"//[^\n]*", "", text)
    return re.sub(r"\n\s*(ensures|requires)( \w+)? \{[^\n]*\}(?=\n)", "", text)


def functions(text):
    for m in re.finditer(r"\bfn (\w+)[^{;]*\{", text):
        depth, i = 1, m.end()
        while depth and i < len(text):
            depth += {"{": 1, "}": -1}.get(text[i], 0)
            i += 1
        yield m.group(1), text[m.start():i]


def shape(code):
    """The tokens of a function with its names, numbers and texts left out."""
    tokens = re.findall(r'"[^"]*"|b\'[^\']*\'|\w+|[^\w\s]', code)
    keep = {"fn", "match", "if", "else", "return", "let", "mut", "for", "in", "while", "self"}
    return tuple(t if t in keep or not re.match(r"[\w\"]", t) else "_" for t in tokens)


def twins(folder):
    groups = {}
    for path in sources(folder):
        for name, code in functions(code_of(open(path).read())):
            s = shape(code)
            if len(s) >= 32:
                groups.setdefault(s, []).append(f"{path[len(folder) + 1:]}: {name}")
    return [g for g in groups.values() if len(g) > 1]


def main():
    args = [a for a in sys.argv[1:] if a != "-v"]
    folder, loud = (args or ["."])[0], "-v" in sys.argv
    found = twins(folder)
    print(f"{sum(len(g) for g in found):4}  2 functions of one shape, in {len(found)} groups")
    if loud:
        for g in found:
            print("       " + "; ".join(g))
    for what, pattern in SEARCHES:
        places = []
        for path in sources(folder):
            for number, line in enumerate(open(path), 1):
                if re.search(pattern, line.rstrip("\n")):
                    places.append(f"{path[len(folder) + 1:]}:{number}: {line.strip()}")
        print(f"{len(places):4}  {what}")
        if loud:
            print("".join(f"       {p[:150]}\n" for p in places), end="")


main()
