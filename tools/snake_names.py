#!/usr/bin/env python3
"""Respells this repository's own definitions, lemmas, record fields and constructors from words-with-hyphens to words_with_underscores.

usage: python3 tools/snake_names.py [--dry]     at the top of the repository, once, after the kit's port.py

A name is taken where crates/*/specs/*.antt or crates/*/proofs/*.antt declares it: a definition or lemma at the margin, a field or a constructor indented
below a record or a data type. It is then respelled wherever it stands as a whole word, in .antt and .rt files and in the edits of must-fail/, but not inside
a string. Names that the checker makes (goals, in the folders of proofs/) and names of the library keep their hyphens, but a step of a proof that is named
after a function of src/ is respelled as that function, as the checker now names it. Stops where a name is the library's too, or would become one that a
file declaring it also declares.
"""

import os
import re
import sys

WORD = r"[A-Za-z_«][A-Za-z0-9_'«»-]*"
TOP = re.compile(rf"^(?:(?:abbrev|unfoldable|opaque)\s+)?(?:pub\s+)?(?:record\s+|data\s+)?({WORD})\s*(?::|[({{])")
INNER = re.compile(rf"^  (?:pub )?({WORD})\s*:")
STRING = re.compile(r'"(?:[^"\\]|\\.)*"')


def files(root):
    for folder, dirs, names in os.walk(os.path.join(root, "crates")):
        dirs[:] = sorted(d for d in dirs if d not in ("out", ".git"))
        for n in sorted(names):
            if n.endswith((".rt", ".antt", ".edit")):
                yield os.path.join(folder, n)


def declares(path, root):
    parts = os.path.relpath(path, root).split(os.sep)
    return path.endswith(".antt") and len(parts) == 4 and parts[2] in ("specs", "proofs")


def read(path):
    with open(path, encoding="utf-8") as f:
        return f.read()


def own_names(root):
    names = {}
    for p in files(root):
        if not declares(p, root):
            continue
        for line in read(p).splitlines():
            for pattern in (TOP, INNER):
                m = pattern.match(line)
                if m:
                    names.setdefault(m.group(1), set()).add(os.path.relpath(p, root))
    return names


def functions(root):
    found = set()
    for p in files(root):
        if p.endswith(".rt"):
            found |= set(re.findall(r"\bfn ([a-z0-9_]+)", read(p)))
    return {f.replace("_", "-"): f for f in found if "_" in f}


def library_names(root):
    found = set()
    for p in files(root):
        for m in re.finditer(r"use (?:Rattle\.std|lib|mathlib|native)[^\n{]*\{([^}]*)\}", read(p)):
            found |= {w.strip().split(" as ")[0] for w in m.group(1).split(",")}
    return found


def main(argv):
    root = os.getcwd()
    own = own_names(root)
    old = sorted(n for n in own if "-" in n)
    library = library_names(root)
    for n in old:
        new = n.replace("-", "_")
        if n in library:
            sys.exit(f"{n} is the repository's and the library's")
        if new in own and own[new] & own[n]:
            sys.exit(f"{n} and {new} stand in one file: {own[n] & own[new]}")
    print("\n".join(f"{n} -> {n.replace('-', '_')}   ({', '.join(sorted(own[n]))})" for n in old))
    if "--dry" in argv:
        return
    pattern = re.compile(r"(?<![A-Za-z0-9_'«»-])(" + "|".join(map(re.escape, sorted(old, key=len, reverse=True))) + r")(?![A-Za-z0-9_'«»-])")
    steps = functions(root)
    step = re.compile(r"(?<=\.)(" + "|".join(map(re.escape, sorted(steps, key=len, reverse=True))) + r")(?![A-Za-z0-9_'«»-])")
    changed = 0
    for p in files(root):
        before = text = read(p)
        if f"{os.sep}proofs{os.sep}" in p:
            text = step.sub(lambda x: steps[x.group(1)], text)
        out, at = [], 0
        for m in STRING.finditer(text):
            out += [pattern.sub(lambda x: x.group(1).replace("-", "_"), text[at : m.start()]), m.group(0)]
            at = m.end()
        out.append(pattern.sub(lambda x: x.group(1).replace("-", "_"), text[at:]))
        new = "".join(out)
        if new != before:
            changed += 1
            with open(p, "w", encoding="utf-8") as f:
                f.write(new)
    print(f"{len(old)} names, {changed} files")


if __name__ == "__main__":
    main(sys.argv[1:])
