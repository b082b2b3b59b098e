#!/usr/bin/env python3
"""Brings the repository's own definitions and lemmas to snake case.

usage: python3 tools/spell_names.py [FOLDER]     in a checkout, once, after the kit's port.py

A definition `entryAt` becomes `entry_at`, a lemma `first-ext` becomes `first_ext`. A lemma that
would get a definition's name ends in `_lem`; a definition that would get the name of a field or of
a parameter gets a name of its own (APART). Rust names, strings and files that are read or written
by programs stay. Names are read off the signatures in specs/ and proofs/, not off use.
"""

import glob
import os
import re
import sys

SIGNATURE = re.compile(
    r"^\s*(?:(?:abbrev|unfoldable|pub|data|record)\s+)*([^\s:(){}.,;]+)(?:\s*\{[^}]*\})?\s*:(?!=)\s"
)
TOKEN = re.compile(r"[^\s(){}.,;]+")
# These would have the name of a field or of a parameter that clauses read, or of a lemma of the
# standard library that their file imports.
APART = {
    "nan-bits": "nan_bits_lem",
    "targetCase": "case_of_target",
    "extraCase": "case_of_extra",
    "badPreferences": "has_bad_preferences",
    "badCosts": "has_bad_costs",
    "badLevels": "has_bad_levels",
}
# Lemmas of the standard library too: renamed only in a file that states its own.
SHARED = {"mod-lt", "and-true"}


def snake(name):
    return re.sub(r"([a-z0-9])([A-Z])", r"\1_\2", name).lower().replace("-", "_")


def stated(path):
    names = set()
    with open(path, encoding="utf-8") as f:
        for line in f:
            found = SIGNATURE.match(line)
            if found and not line.strip().startswith("--"):
                names.add(found.group(1))
    return names


def spellings(root):
    names = set()
    for folder in ("specs", "proofs"):
        for path in glob.glob(f"{root}/crates/*/{folder}/*.antt"):
            names |= stated(path)
    names = {n for n in names if n[0].islower()}
    camel = {n for n in names if re.search(r"[a-z0-9][A-Z]", n) and "-" not in n}
    dashed = {n for n in names if "-" in n}
    plain = names - camel - dashed
    table = {n: APART.get(n, snake(n)) for n in camel}
    taken = set(table.values())
    for n in sorted(plain & taken):
        table[n] = n + "_lem"
    taken |= plain
    for n in sorted(dashed):
        new = snake(n)
        table[n] = APART.get(n) or (new + "_lem" if new in taken or new in names else new)
    if len(set(table.values())) != len(table):
        sys.exit("two names fall together")
    return table


def spelled(text, table):
    return TOKEN.sub(lambda m: table.get(m.group(0), m.group(0)), text)


def code_of(line, table):
    """A line of antt: its comment names definitions too, but not with a dash."""
    if line.lstrip().startswith("--"):
        return words_of(line, table)
    return spelled(line, table)


def words_of(line, table):
    """Prose and clauses of Rust files: names in camel case alone."""
    return re.sub(
        r"(?<![\w-])[a-z]+[A-Za-z0-9]*(?![\w-])",
        lambda m: table.get(m.group(0), m.group(0)) if re.search("[A-Z]", m.group(0)) else m.group(0),
        line,
    )


def quoted_of(line, table):
    """A page: names between backquotes."""
    return re.sub(r"`[^`]*`", lambda m: spelled(m.group(0)[1:-1], table).join("``"), line)


def rewrite(path, turn):
    with open(path, encoding="utf-8") as f:
        old = f.read()
    new = "".join(turn(line) for line in old.splitlines(keepends=True))
    if new != old:
        with open(path, "w", encoding="utf-8") as f:
            f.write(new)


def main():
    root = sys.argv[1] if len(sys.argv) > 1 else "."
    table = spellings(root)
    for path in sorted(glob.glob(f"{root}/crates/*/specs/**/*.antt", recursive=True)) + sorted(
        glob.glob(f"{root}/crates/*/proofs/**/*.antt", recursive=True)
    ):
        here = {k: v for k, v in table.items() if k not in SHARED or k in stated(path)}
        function = os.path.basename(os.path.dirname(path))
        here[function.replace("_", "-") + "-spec"] = function + "_spec"
        rewrite(path, lambda line: code_of(line, here))
    for path in glob.glob(f"{root}/crates/*/src/**/*.rt", recursive=True):
        rewrite(path, lambda line: words_of(line, table))
    for path in glob.glob(f"{root}/crates/*/must-fail/*.edit"):
        with open(path, encoding="utf-8") as f:
            of_antt = re.match(r"file: \S+\.antt", f.read())
        turn = spelled if of_antt else words_of
        rewrite(path, lambda line: line if line.startswith("file:") else turn(line, table))
    for path in glob.glob(f"{root}/docs/*.md") + [f"{root}/README.md"]:
        rewrite(path, lambda line: quoted_of(line, table))
    print(f"{len(table)} names")


if __name__ == "__main__":
    main()
