#!/usr/bin/env python3
"""Counts places in src/ that docs/DESIGN-PASS.md speaks of: run it at the top of a checkout.

It prints the loops, the enums and flags, the clauses that stand in three or more functions of a crate, and the
parameters that three or more functions of a crate share, each with file and line. A reader judges which of them
are places: the numbers alone say only where to look."""
import collections
import glob
import re
import sys

LOOP = re.compile(r"^\s*(for|while|loop)\b")
ENUM = re.compile(r"\benum [A-Z]")
FLAG = re.compile(r"->\s*(\(.*, *(bool|anyhow::Result.*|Result<.*)\)|Option<u8>|u8|bool)\s*[;{]?$")
HAND = re.compile(r"\bfn (eq|cmp|partial_cmp|clone|fmt|from|try_from|sentence|name|number|refusal|on_line|label)\b")
KIND = re.compile(r"\bmatch (kind|stop|step|self)\b")
CLAUSE = re.compile(r"\b(requires|ensures)\b(?:\s+\w+)?\s*\{\s*(.*?)\s*\}\s*$")
FN = re.compile(r"\bfn (\w+)(?:<[^(]*>)?\(([^)]*)\)", re.S)


def sources():
    for path in sorted(glob.glob("crates/*/src/**/*.rt", recursive=True)):
        yield path, path.split("/")[1], open(path, encoding="utf-8").read()


def lines_of(title, pattern):
    print("==", title)
    total = 0
    for path, _, text in sources():
        for number, line in enumerate(text.splitlines(), 1):
            if pattern.search(line) and not line.lstrip().startswith("//"):
                total += 1
                print(f"{path}:{number}: {line.strip()}")
    print(total)


def shared():
    clauses = collections.defaultdict(set)
    pairs = collections.defaultdict(set)
    for path, crate, text in sources():
        if path.endswith("tests.rt"):
            continue
        function = None
        for line in text.splitlines():
            found = re.search(r"\bfn (\w+)", line)
            function = found.group(1) if found else function
            clause = CLAUSE.search(line)
            if clause:
                clauses[crate, clause.group(1), clause.group(2)].add((path, function))
        for name, parameters in FN.findall(text):
            names = [p.split(":")[0].strip() for p in parameters.split(",") if ":" in p]
            names = [n.replace("mut ", "") for n in names]
            for i, one in enumerate(names):
                for other in names[i + 1:]:
                    pairs[crate, one, other].add((path, name))
    print("== clauses in three or more functions")
    for key, where in sorted(clauses.items()):
        if len(where) >= 3:
            print(*key, sorted(where), sep=" | ")
    print("== pairs of parameters in three or more functions")
    for key, where in sorted(pairs.items()):
        if len(where) >= 3:
            print(*key, sorted(where), sep=" | ")


def main():
    lines_of("enums", ENUM)
    lines_of("flags and numbers", FLAG)
    lines_of("loops", LOOP)
    lines_of("conversions, names and printing by hand", HAND)
    lines_of("matches on a kind", KIND)
    shared()


if __name__ == "__main__":
    sys.exit(main())
