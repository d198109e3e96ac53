#!/usr/bin/env python3
"""Gives the repository's own definitions and lemmas the spelling of the kit: words in snake case, types in camel case.

usage: python3 tools/snake_names.py        at the top of the repository, once, after the kit's own port script
       python3 tools/snake_names.py --list  only prints the names

A name of the repository is one that a file of specs/ or proofs/ declares: a definition, a record's field, a constructor, or a local name.
Names that the check makes (goals, invariants, steps) and names of the library keep their spelling, and so does all text of src/ outside
ghost text: there no name has a dash.
"""

import os
import re
import sys

WORD = r"[^\s(){}\[\].,;:|⌜⌝⟦⟧\"]+"
HEAD = re.compile(r"^(\s*)((?:(?:pub|abbrev|unfoldable|data|record|ruleset|let) )*)(" + WORD + r")((?:\s*[({].*[)}])*)\s*:(?!=)\s*(.*)$")
BINDER = re.compile(r"[({]((?:" + WORD + r"\s+)*" + WORD + r")\s*:(?!=)")
LAMBDA = re.compile(r"λ\s+((?:" + WORD + r"\s+)*" + WORD + r")\.")
LET = re.compile(r"\blet\s+(" + WORD + r")\s*[:=]")
TOKEN = re.compile(WORD)


def files(root, endings):
    for folder, dirs, names in os.walk(os.path.join(root, "crates")):
        dirs[:] = sorted(d for d in dirs if d != "out")
        for n in sorted(names):
            if n.endswith(endings):
                yield os.path.join(folder, n)


def read(path):
    with open(path, encoding="utf-8") as f:
        return f.read()


def code(line):
    """The line without its comment."""
    return re.split(r"(?:^|(?<=\s))(?:--|//) ", line, maxsplit=1)[0]


def spelled(name):
    """The kit's spelling of a name: parts in camel case where it begins with a capital, else joined by underscores."""
    parts = name.split("-")
    if name[0].isupper():
        return "".join(p[:1].upper() + p[1:] for p in parts)
    return "_".join(parts)


def dashed(name):
    """Words joined by dashes, and no operator."""
    return re.fullmatch(r"[A-Za-z0-9_ℕℤ']+(?:-[A-Za-z0-9_ℕℤ']+)+", name) is not None


def own_names(root):
    """The names to respell, and those of them that are fields of records."""
    own, made, library, fields = set(), set(), set(), set()
    for path in files(root, (".antt", ".rt")):
        for use in re.findall(r"use Rattle\.(\w+)[\w.+'-]*\.\{([^}]*)\}", read(path)):
            if not os.path.isdir(os.path.join(root, "crates", use[0])):
                library |= {w.strip().split(" as ")[0] for w in use[1].split(",")}
                own |= {w.strip().split(" as ")[1] for w in use[1].split(",") if " as " in w and dashed(w.strip().split(" as ")[1])}
    for path in files(root, (".antt",)):
        for line in read(path).split("\n"):
            line = code(line)
            m = HEAD.match(line)
            if m:
                (made if m.group(5).startswith("goal.") else own).add(m.group(3))
                if m.group(1) and m.group(2).startswith("pub"):
                    fields.add(m.group(3))
            for words in BINDER.findall(line) + LAMBDA.findall(line):
                own |= set(words.split())
            own |= set(LET.findall(line))
    names = {n for n in own - made - library if dashed(n)}
    return names, names & fields


def turned(text, names, fields):
    """The text with each of the names respelled. Behind a dot stands a field, or a step that the check named."""

    def word(m):
        known = fields if m.string[: m.start()].endswith(".") else names
        return spelled(m.group(0)) if m.group(0) in known else m.group(0)

    out = []
    for line in text.split("\n"):
        body = code(line)
        out.append(TOKEN.sub(word, body) + line[len(body) :])
    return "\n".join(out)


def main(argv):
    root = "."
    names, fields = own_names(root)
    if "--list" in argv:
        print("\n".join(sorted(names)))
        return 0
    new = {}
    for n in sorted(names):
        if new.setdefault(spelled(n), n) != n:
            print(f"two names fall together: {n} and {new[spelled(n)]}")
            return 1
    taken = {t for p in files(root, (".antt",)) for t in TOKEN.findall(read(p))}
    for n in sorted(names):
        if spelled(n) in taken:
            print(f"look: {spelled(n)} stands already, beside {n}")
    count = 0
    for path in files(root, (".antt", ".rt")):
        text = read(path)
        after = turned(text, names, fields)
        if after != text:
            count += 1
            with open(path, "w", encoding="utf-8") as f:
                f.write(after)
    print(f"{len(names)} names respelled in {count} files")
    return 0


if __name__ == "__main__":
    raise SystemExit(main(sys.argv[1:]))
