#!/usr/bin/env python3
"""Brings the repository's own definitions and lemmas to the spelling of Rattle's guides: words in snake case.

    python3 tools/spelling.py            rewrites crates/, README.md and docs/ in place, and prints old and new names
    python3 tools/spelling.py --list     prints the names alone

`howMany` becomes `how_many` and `four-ways` becomes `four_ways`. Only names that a file of specs/ or proofs/ declares
are turned: types, modules, functions of src/, goals that Rattle names, and names of its library stay. A name that would
fall together with another is printed and stays as it is.
"""
import re
import sys
from pathlib import Path

ROOT = Path(__file__).resolve().parent.parent
DECLARED = re.compile(
    r"^ *(?:(?:abbrev|unfoldable|pub) )*(?:data |record )?([a-z][\w'-]*)(?: [^:=]*)?(?: :|$)", re.M
)
FIELDS = re.compile(r"^ *(?:pub )?([a-z][\w'-]*(?: [a-z][\w'-]*)*) :", re.M)
LIBRARY = re.compile(r"use (?!Rattle\.(?:CRATES)\.)[\w.]+\.\{([^}]*)\}", re.S)
# Lemmas and a variable whose names would hide a definition that takes its snake case below.
MOVED = {
    "crates/*/proofs/**/*.antt": {
        "agrees_at": "agrees_at_lem", "all_above": "all_above_lem", "one_each": "one_each_lem"
    },
    "crates/writing/proofs/**/*.antt": {"all_codes": "all_codes_lem"},
    "crates/recursion/proofs/**/*.antt": {"cells_at": "cells_at_word"},
    "crates/converting/proofs/Converted.antt": {"is_code": "coded"},
}
SNAKE = {
    "agreesAt": "agrees_at", "allAbove": "all_above", "allCodes": "all_codes", "cellsAt": "cells_at",
    "isCode": "is_code", "noPlace": "no_place", "oneEach": "one_each",
}
# Fields and constructors that would have been called lemmas by the rule below.
PLAIN = {
    "lent_grid_lem": "grid_lent", "is_done_lem": "done_is", "no_outlet_lem": "not_outlet", "is_outlet_lem": "outlet_is",
    "is_end_lem": "end_is", "in_numbers_lem": "numbers_in", "flow_lengths_lem": "flow_lengths_told",
}
WORDS = {"module", "use", "let", "where", "unfolding", "open", "in", "mod", "pub", "elim", "rw", "abbrev", "unfoldable"}


def texts(kind):
    return sorted(ROOT.glob(f"crates/*/{kind}"))


def snake(name):
    name = re.sub(r"(?<=[a-z0-9])([A-Z])", lambda m: "_" + m[1].lower(), name)
    return re.sub(r"-(?=[\w])", "_", name)


def names():
    crates = "|".join(p.name for p in (ROOT / "crates").iterdir())
    library = re.compile(LIBRARY.pattern.replace("CRATES", crates), re.S)
    declared, lent, words = set(), set(), {}
    for file in texts("specs/**/*.antt") + texts("proofs/**/*.antt") + texts("src/*.rt"):
        text = re.sub(r"--.*|//.*", "", file.read_text())
        for found in library.findall(text):
            lent |= {part.split(" as ")[0].strip() for part in found.split(",")}
        if file.suffix == ".antt":
            words[file] = set(re.findall(r"(?<![\w.'-])[a-z][\w'-]*", text))
            declared |= {m[1] for m in DECLARED.finditer(text)}
            for m in FIELDS.finditer(text):
                declared |= set(m[1].split(" "))
        else:
            # In a clause a parameter hides a definition of its name.
            words[file] = set(re.findall(r"([a-z]\w*): ", text))
            words[file] |= set(re.findall(r"(?<![\w'-])[a-z]\w*(?:[A-Z-]\w*)+", text))
    declared -= WORDS | lent
    turned, kept = {}, []
    # Definitions in camel case come first: a lemma that would have the name of one gets `_lem`.
    for name in sorted(declared, key=lambda n: ("-" in n, n)):
        new = snake(name)
        if new == name or name in SNAKE:
            continue
        meets = lambda n: n in lent or n in declared or n in turned.values() or any(
            name in found and n in found for found in words.values()
        )
        if meets(new):
            kept.append((name, new))
            new += "_lem" if "-" in name else "_of"
            if meets(new):
                raise SystemExit(f"{name}: {new} is taken too")
        turned[name] = new
    return {old: PLAIN.get(new, new) for old, new in (turned | SNAKE).items()}, kept


def turn(text, turned):
    return re.sub(
        r"(?<![\w'-])[a-z][\w'-]*(?![\w'-])",
        lambda m: m[0] if text[: m.start()].endswith("tie.") else turned.get(m[0], m[0]),
        text,
    )


def main():
    turned, kept = names()
    for name, new in turned.items():
        print(f"{name} {new}")
    for name, new in kept:
        print(f"taken: {new}, so {name} is {turned[name]}")
    if "--list" in sys.argv:
        return
    for pattern, moved in MOVED.items():
        for file in sorted(ROOT.glob(pattern)):
            text = file.read_text()
            new = re.sub(r"(?<![\w.:'`-])[a-z]\w*(?![\w'-])", lambda m: moved.get(m[0], m[0]), text)
            if new != text:
                file.write_text(new)
    files = texts("specs/**/*.antt") + texts("proofs/**/*.antt") + texts("src/*.rt") + texts("must-fail/*.edit")
    for file in files:
        text = file.read_text()
        new = turn(text, turned)
        if new != text:
            file.write_text(new)
    # In pages a name stands between backquotes.
    for file in [ROOT / "README.md", *sorted((ROOT / "docs").glob("*.md"))]:
        text = file.read_text()
        new = re.sub(r"`[^`\n]*`", lambda m: turned.get(m[0][1:-1], m[0][1:-1]).join("``"), text)
        if new != text:
            file.write_text(new)


main()
