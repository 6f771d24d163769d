#!/usr/bin/env python3
"""Respells this repository's own definitions, lemmas and fields, once, as Rattle's names are spelled.

usage: python3 tools/respell.py [--list]      at the top of the repository; --list only prints OLD NEW, a line each

A word is in snake case (`registry-step` is `registry_step`, `columnsOf` is `columns_of`), a type or a statement in camel case
(`Registry-columns-sound` is `RegistryColumnsSound`). In a lemma a dash stays where it joins two names of functions, as in
`length-remove` and `get_or-padded_used`. Only names that a file of specs/ or proofs/ declares are touched; functions of src/, exported
C names, strings, inputs and outputs keep theirs. It reads crates/ and rewrites .antt and .rt files there.
"""

import glob
import re
import sys

LETTER = r"[\w'\-≢≡◌·₀-₉]"
# functions on lists that lemmas are named after: there a dash joins the function and what it is of
ON_LISTS = ["length", "take", "get_or", "padded", "remove", "how_many", "total", "tally"]
# names that would fall together
APART = {"registry-of": "registry_read"}
# operators of words
OPERATORS = {"◌comes-to◌": "◌comes_to◌", "comes-to": "comes_to", "◌refused-with◌": "◌refused_with◌", "◌refused-with◌back◌": "◌refused_with◌back◌", "refused-with": "refused_with"}


def read(path):
    with open(path, encoding="utf-8") as f:
        return f.read()


def declared():
    """The names that specs/ and proofs/ declare: name -> whether it is a lemma or a local helper (of proofs/)."""
    found = {}
    for path in sorted(glob.glob("crates/*/specs/**/*.antt", recursive=True) + glob.glob("crates/*/proofs/**/*.antt", recursive=True)):
        law = "/proofs/" in path
        for line in read(path).split("\n"):
            m = re.match(r"^\s*((?:abbrev |unfoldable |pub |opaque )*)(record |data )?([^\s(){};,:.|]+)\s+([:({])", line)
            if not m or line.lstrip().startswith(("--", "use ", "module ", "infix", "let ")):
                continue
            if m.group(4) != ":" and not m.group(2):
                continue
            name = m.group(3)
            found[name] = found.get(name, True) and law and not m.group(1).strip().startswith(("abbrev", "unfoldable"))
    return found


def snake(name):
    name = re.sub(r"([a-z0-9])([A-Z])(?=[a-z])", lambda m: m.group(1) + "_" + m.group(2).lower(), name)
    return name.replace("-", "_")


def spelled(name, law):
    if "◌" in name or "≢" in name or "μ" in name or name.startswith("+"):
        return name
    if re.match(r"^[A-Z]", name):
        # a type, or a statement
        if re.match(r"^[A-Z]\d+-\d+$", name):
            return name.replace("-", "_")  # a clause of the original by its number
        return "".join(p[:1].upper() + p[1:] for p in name.split("-"))
    if re.search(r"-spec$", name):
        return snake(name)
    if name in APART:
        return APART[name]
    if name.startswith("getD-"):
        return "get_or-" + snake(name[len("getD-") :])  # std's function on lists has that name
    for f in ON_LISTS:
        if law and snake(name).startswith(f + "_"):
            return f + "-" + snake(name)[len(f) + 1 :]
    return snake(name)


def names():
    found = declared()
    out = {}
    for name, law in found.items():
        new = spelled(name, law)
        if new != name:
            out[name] = new
    out.update(OPERATORS)
    return out, found


def main():
    table, found = names()
    clashes = {}
    for name in found:
        clashes.setdefault(table.get(name, name), []).append(name)
    for new, old in sorted(clashes.items()):
        if len(old) > 1:
            print("falls together:", new, *old, file=sys.stderr)
    if "--list" in sys.argv:
        for old, new in sorted(table.items()):
            print(old, new)
        return
    words = sorted(table, key=len, reverse=True)
    pattern = re.compile(r"(?<!" + LETTER + ")(?:" + "|".join(map(re.escape, words)) + r")(?!" + LETTER + ")")
    for path in sorted(glob.glob("crates/*/**/*.antt", recursive=True) + glob.glob("crates/*/src/**/*.rt", recursive=True)):
        if "/out/" in path:
            continue
        old = read(path)
        new = pattern.sub(lambda m: table[m.group(0)], old)
        if new != old:
            with open(path, "w", encoding="utf-8") as f:
                f.write(new)


main()
