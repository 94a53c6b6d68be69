#!/usr/bin/env python3
"""Brings this repository's own definitions, lemmas and their variables to snake case, and its facts to upper camel case.

usage: python3 tools/respell.py [FOLDER]     once, after /opt/rattle/port/port.py; --names prints the table and changes nothing

What is renamed is what specs/ and proofs/ of FOLDER define, by rule alone; goals, library names, strings and the code of src/ keep theirs.
It stops, with nothing written, where two names of one file would fall together.
"""

import os
import re
import sys

WORD = r"[^\s(){}\[\],;:.\"@«»λ]+"
TOKEN = re.compile(r'"(?:\\.|[^"\\])*"|--[^\n]*|//[^\n]*|' + WORD)
DEFINED = re.compile(r"^\s*(?:(?:abbrev|unfoldable|pub|data|record|ruleset)\s+)*(" + WORD + r")(?=\s+(?::|\())")
BOUND = re.compile(r"[({]((?:" + WORD + r"\s+)+):\s")
NAMED = re.compile(r"\blet (" + WORD + r")\s+[:=]\s")
KEPT = {"codes"}


def files(root, ends):
    for folder, dirs, names in os.walk(os.path.join(root, "crates")):
        dirs[:] = sorted(d for d in dirs if d != "out")
        for name in sorted(names):
            if name.endswith(ends):
                yield os.path.join(folder, name)


def read(path):
    with open(path, encoding="utf-8") as f:
        return f.read()


def respelled(name):
    """A fact or a type: upper camel case. All else: snake case; a letter of the subject, as D or E, and a dash before an operator stay."""
    if re.match(r"[A-Z][a-z]", name) or re.match(r"[A-Z]+$", name):
        return re.sub(r"-([A-Za-z])", lambda m: m.group(1).upper(), name)
    name = re.sub(r"(?<=[a-z0-9])([A-Z])", lambda m: "_" + m.group(1).lower(), name)
    return re.sub(r"-(?=[A-Za-z0-9])", "_", name)


def imported(text):
    """What a file takes from outside this repository."""
    for module, items in re.findall(r"^(?:ghost )?use (\S+?)\.\{([^}]*)\}", text, re.M):
        own = re.match(r"Rattle\.(\w+)\.(specs|proofs)\.", module)
        if not own or own.group(1) == "std" or ".declared." in module:
            for item in items.split(","):
                yield item.split(" as ")[0].strip()


def table(root):
    names, outside = set(), set(KEPT)
    for path in files(root, ".antt"):
        text = read(path)
        outside.update(imported(text))
        for line in text.split("\n"):
            if line.lstrip().startswith(("--", "use ", "pub use ")):
                continue
            found = DEFINED.match(line)
            if found and not re.search(r":\s*goal\." + re.escape(found.group(1)) + r"(\s|$)", line):
                names.add(found.group(1))
            for group in BOUND.findall(line):
                names.update(group.split())
            names.update(NAMED.findall(line))
    new = {n: respelled(n) for n in sorted(names - outside) if respelled(n) != n}
    # a lemma that would have its function's name
    taken = names | {new[n] for n in new if "-" not in n}
    new.update({n: n + "_lem" for n in names & {t for n, t in new.items() if "-" not in n}})
    return {n: t + "_lem" if "-" in n and t in taken else t for n, t in new.items()}


def turned(text, names, seen):
    def one(m):
        word = m.group(0)
        if word[0] == '"' or word.startswith(("--", "//")):
            return word
        if text.endswith(("goal.", "proofs."), 0, m.start()) or re.match(r"\S*\.(Goals|Given)\b", text[m.end() : m.end() + 80]):
            return word
        new = names.get(word, word)
        seen.setdefault(new, set()).add(word)
        return new

    return TOKEN.sub(one, text)


def in_clauses(text, names, seen):
    """In src/ only ghost lines and clauses are turned."""
    def part(m):
        return turned(m.group(0), names, seen)

    return re.sub(r"^\s*(?:ghost|requires|ensures)\b[^\n]*(?:\{[^{}]*\}[^\n]*)?", part, text, flags=re.M)


def edited(text, names, seen):
    """In an edit, only a line that shows a clause or a ghost line."""
    return re.sub(r"^(?:old|new): \s*(?:ghost|requires|ensures|use|abbrev|--|[a-z])[^\n]*", lambda m: turned(m.group(0), names, seen), text, flags=re.M)


def main():
    args = [a for a in sys.argv[1:] if a != "--names"]
    root = args[0] if args else "."
    names = table(root)
    if "--names" in sys.argv:
        for old, new in names.items():
            print(old, new)
        return 0
    out, clash = {}, 0
    for end, turn in ((".antt", turned), (".rt", in_clauses), (".edit", edited)):
        for path in files(root, end):
            seen, text = {}, read(path)
            new = turn(text, names, seen)
            for word, olds in seen.items():
                if len(olds) > 1:
                    print(f"{path}: {', '.join(sorted(olds))} fall together")
                    clash += 1
            if new != text:
                out[path] = new
    if clash:
        return 1
    for path, text in out.items():
        with open(path, "w", encoding="utf-8") as f:
            f.write(text)
    print(f"respell: {len(names)} names, {len(out)} files")
    return 0


if __name__ == "__main__":
    sys.exit(main())
