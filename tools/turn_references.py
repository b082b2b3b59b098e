#!/usr/bin/env python3
"""Writes what lies behind a reference in clauses as the kit does: `x.now`, `x.old`, `x.new`.

usage: python3 tools/turn_references.py [FOLDER]     in a checkout, once, after tools/spell_names.py

A clause said `old x` and `new x` of each reference x. The kit parts the two kinds: what a `&` points
to is `x.now`, and what a `&mut` points to is `x.old` as the call begins and `x.new` at the return.
"""

import glob
import re
import sys

FUNCTION = re.compile(r'^\s*(?:pub(?:\([a-z]+\))? )?(?:unsafe )?(?:extern "C" )?fn \w+')
PARAMETER = re.compile(r"(\w+)\s*:\s*&(?:'\w+ )?(mut )?")
SELF = re.compile(r"&(?:'\w+ )?(mut )?self\b")


def words_of(signature):
    """The word for each of `old x` and `new x`."""
    words = {}
    for name, mutable in PARAMETER.findall(signature):
        words[name] = ("old", "new") if mutable else ("now", "now")
    for mutable in SELF.findall(signature):
        words["self"] = ("old", "new") if mutable else ("now", "now")
    return words


def turned(clause, words):
    def one(found):
        which, name = found.group(1), found.group(2)
        if name not in words:
            return found.group(0)
        return f"{name}.{words[name][which == 'new']}"

    clause = re.sub(r"(?<![\w.])\((old|new) (\w+)\)", one, clause)
    return re.sub(r"(?<![\w.])(old|new) (\w+)\b", one, clause)


def turn(text):
    out, signature, state = [], "", None
    for line in text.splitlines(keepends=True):
        if FUNCTION.match(line):
            signature, state = "", "signature"
        if state == "signature":
            if re.match(r"\s*(requires|ensures)\b", line):
                state = "clauses"
            else:
                signature += line
                if re.match(r"\s*\{\s*$", line) or re.search(r"\{\s*$", line):
                    state = None
        if state == "clauses":
            if re.match(r"\s*\{\s*$", line):
                state = None
            else:
                line = turned(line, words_of(signature))
        out.append(line)
    return "".join(out)


def main():
    root = sys.argv[1] if len(sys.argv) > 1 else "."
    for path in glob.glob(f"{root}/crates/*/src/**/*.rt", recursive=True):
        with open(path, encoding="utf-8") as f:
            text = f.read()
        new = turn(text)
        if not re.search(r"(?<![\w.])(old|new) \w", re.sub(r"//.*|ghost use.*", "", new)):
            new = re.sub(r"^ghost use Rattle\.counting\.specs\.Lent\.\{[^}]*\};\n", "", new, flags=re.M)
        if new != text:
            with open(path, "w", encoding="utf-8") as f:
                f.write(new)


if __name__ == "__main__":
    main()
