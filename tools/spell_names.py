#!/usr/bin/env python3
"""Spells the repository's own definitions and lemmas as today's Rattle does.

usage: python3 tools/spell_names.py [--dry]      at the top of the repository, once, after port.py

A definition, lemma or local name of a .antt file that is written with dashes goes to snake case, and one
that begins with a capital to upper camel case, in every .antt file and in every clause and import of a .rt
file. Names of src/, labels, goals that Rattle names, and the library's names stay; so do strings and
comments. Names that fall together are printed. With --dry nothing is written.
"""
import collections
import os
import re
import sys

WORD = r"[A-Za-z][A-Za-z0-9']*(?:[-_][A-Za-z0-9']+)+"
BINDING = re.compile(
    r"^(\s*)(?:(?:abbrev|unfoldable|opaque|pub|record|data|let)\s+)*"
    r"(" + WORD + r")((?:\s*[({][^=:\n]*:[^=\n]*?[)}])*)\s*:(?!=)([^\n]*)",
    re.M,
)
LOCAL = re.compile(r"(?:\blet\s+|[({])(" + WORD + r")\s*[:=]|\bas\s+(" + WORD + r")")
TOKEN = re.compile(r"(?<![A-Za-z0-9_'-])" + WORD + r"(?![A-Za-z0-9_'])")
# what must not be touched: strings, comments of both languages
HIDDEN = re.compile(r'b?"(?:\\.|[^"\\])*"|--(?=\s|$)[^\n]*|//[^\n]*', re.M)


def spelled(name):
    parts = re.split("[-_]", name)
    if name[0].isupper():
        return "".join(p[:1].upper() + p[1:] for p in parts)
    return "_".join(parts)


def files(root):
    for folder, dirs, names in os.walk(os.path.join(root, "crates")):
        dirs[:] = [d for d in dirs if d != "out"]
        for n in sorted(names):
            if n.endswith((".antt", ".rt")):
                yield os.path.join(folder, n)


def read(path):
    with open(path, encoding="utf-8") as f:
        return f.read()


def visible(text):
    return HIDDEN.sub(" ", text)


def own_names(root):
    own = collections.defaultdict(set)
    for path in files(root):
        if not path.endswith(".antt"):
            continue
        text = visible(read(path))
        for m in BINDING.finditer(text):
            name, rest = m.group(2), m.group(4)
            if "goal." not in rest and ("-" in name or name[0].isupper()):
                own[name].add(path)
        for m in LOCAL.finditer(text):
            name = m.group(1) or m.group(2)
            if "-" in name:
                own[name].add(path)
    return own


def main():
    root = os.getcwd()
    own = own_names(root)
    new = {n: spelled(n) for n in own}
    taken = collections.defaultdict(set)
    for path in files(root):
        for m in re.finditer(r"(?<![A-Za-z0-9_'-])[A-Za-z][A-Za-z0-9_']*", visible(read(path))):
            taken[m.group(0)].add(path)
    back = collections.defaultdict(set)
    for n, s in new.items():
        back[s].add(n)
    for s, ns in sorted(back.items()):
        if len(ns) > 1:
            print("together:", s, sorted(ns))
        if s in taken:
            print("taken:", s, "in", sorted(p.split("crates/")[1] for p in taken[s]))
    if "--dry" in sys.argv:
        return
    for path in files(root):
        text = read(path)
        out, at = [], 0
        for m in list(HIDDEN.finditer(text)) + [None]:
            end = m.start() if m else len(text)
            out.append(TOKEN.sub(lambda t: new.get(t.group(0), t.group(0)), text[at:end]))
            if m:
                out.append(m.group(0))
                at = m.end()
        changed = "".join(out)
        if changed != text:
            with open(path, "w", encoding="utf-8") as f:
                f.write(changed)


main()
