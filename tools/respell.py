#!/usr/bin/env python3
"""Spells the definitions and lemmas of the crates in snake case, where port.py left them in camel case.

usage: python3 tools/respell.py [ROOT]      run once, after port.py, at the top of the repository

A name that a file of specs/ or proofs/ declares with a small first letter and a capital inside is spelled with underscores, and so is a
field of specs/ with a dash, everywhere in .antt and .rt files (comments too, strings not). Where a lemma has the new spelling of a definition already, the lemma
gets `_lem`, in the files that declare or import it. Every text that changes is a name of this repository; a name from Rust keeps its own.
"""

import os
import re
import sys

ROOT = sys.argv[1] if len(sys.argv) > 1 else "."
INNER = re.compile(r"(?<=[a-z0-9])([A-Z]+)")
DECLARED = re.compile(r"(?m)^\s*(?:(?:abbrev|unfoldable|pub|data|record) )*(?:[^\s(){}.,;:]+ )*?([^\s(){}.,;:]+) : ")
SEVERAL = re.compile(r"(?m)^\s*(?:(?:abbrev|unfoldable|pub) )*((?:[^\s(){}.,;:]+ )+): ")
NAME = r"[^\s(){}.,;:«»\"`/]+"
TOKEN = re.compile(rf"(?<![^\s(){{}}.,;:«»\"`/@!&*\[\]])({NAME})")
STRING = re.compile(r'(b?"(?:[^"\\]|\\.)*")')


def files(*ends):
    for folder, dirs, names in os.walk(os.path.join(ROOT, "crates")):
        dirs[:] = sorted(d for d in dirs if d != "out")
        for n in sorted(names):
            if n.endswith(ends):
                yield os.path.join(folder, n)


def read(path):
    with open(path, encoding="utf-8") as f:
        return f.read()


def bare(text):
    return re.sub(r"--.*", "", text)


def snake(name):
    return INNER.sub(lambda m: "_" + m[1].lower(), name)


def module(path):
    c, kind, rest = re.search(r"crates/(\w+)/(specs|proofs)/(.*)\.antt$", path).groups()
    return f"Rattle.{c}.{kind}." + rest.replace("/", ".")


texts = {p: read(p) for p in files(".antt")}
declared = {}
for p, t in texts.items():
    for m in SEVERAL.finditer(bare(t)):
        for n in m[1].split():
            declared.setdefault(n, set()).add(p)

camel = sorted(n for n in declared if not n[0].isupper() and INNER.search(n))
labels = sorted(n for n in declared if "-" in n and n[0].isalpha() and any("/specs/" in p for p in declared[n]))
new = {n: snake(n) for n in camel} | {n: n.replace("-", "_") for n in labels}
assert len(set(new.values())) == len(new), "two names would fall together"
new |= {n: snake(n) for n in ("isFree", "isOne")}  # arguments that a signature names
taken = {v: declared[v] for v in new.values() if v in declared}

# lemmas that stand where a definition's new name would: `_lem`, where they are declared or imported, but never behind a dot, which is a step of a proof
lemmas = {}
for n, where in taken.items():
    importers = {p for p, t in texts.items() for q in where if re.search(re.escape(module(q)) + r"\.\{[^}]*(?<![\w'-])" + re.escape(n) + r"(?![\w'-])", t)}
    for p in where | importers:
        lemmas.setdefault(p, {})[n] = n + "_lem"


def turned(text, names, behind_dots):
    def one(m):
        return names.get(m[1], m[1]) if behind_dots or text[m.start() - 1 : m.start()] != "." else m[1]

    return TOKEN.sub(one, text)


changed = 0
for p in files(".antt", ".rt"):
    before = after = read(p)
    if p in lemmas:
        after = turned(after, lemmas[p], False)
    if p.endswith(".rt"):
        after = "".join(s if i % 2 else turned(s, new, True) for i, s in enumerate(STRING.split(after)))
    else:
        after = turned(after, new, True)
    if after != before:
        changed += 1
        with open(p, "w", encoding="utf-8") as f:
            f.write(after)
for n in camel + labels:
    print(n, new[n])
for p in sorted(lemmas):
    for n in sorted(lemmas[p]):
        if p in declared[n]:
            print(n, lemmas[p][n], os.path.relpath(p, ROOT))
print(f"respelled: {len(new)} names in {changed} files", file=sys.stderr)
