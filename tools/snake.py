#!/usr/bin/env python3
"""Spells the repository's own definitions, lemmas, fields and constructors in snake case: `digitOf` and `head-fails` become
`digit_of` and `head_fails`. Types and modules keep their capitals; names of the library, and of functions in src/, stay.

usage: python3 tools/snake.py [--check]      at the top of the repository, with everything committed; --check only lists

A name whose new spelling another name of the repository or of a file's imports has already is listed as `clash:` and stays.
"""

import glob
import os
import re
import sys

WORD = r"[^\s(){}\[\],;.\"«»]+"
DECLARED = re.compile(r"^ *(?:(?:abbrev|unfoldable) +)*(?:pub +)?(?:(?:record|data) +)?(" + WORD + r")(?: [^=]*)? : ")
TOKEN = re.compile(r"(?<![^\s(){}\[\],;.\"`←@→≡×])(" + WORD + r")(?![^\s(){}\[\],;.\"`])")
FILES = ["crates/*/specs/**/*.antt", "crates/*/proofs/**/*.antt"]


# Names that would fall together with another of their file: where, the name after port.py, and what it becomes.
APART = [
    ("crates/query/**/*.antt", "inOrder", "in_order_of"),
    ("crates/query/src/*.rt", "inOrder", "in_order_of"),
    ("crates/matching/proofs/Tests.antt", "fits_one", "fits_one_lem"),
    ("crates/matching/proofs/judging/fits_at/Proof.antt", "fits_one", "fits_one_lem"),
    ("crates/writer/proofs/**/*.antt", "number_size", "number_size_lem"),
]


def snake(name):
    name = re.sub(r"(?<=[a-z0-9])([A-Z])", lambda m: "_" + m[1].lower(), name)
    name = name.replace("′", "'")
    return re.sub(r"(?<=[A-Za-z0-9'₀₁₂])-(?=[A-Za-z0-9])", "_", name)


def below(patterns):
    return sorted({f for p in patterns for f in glob.glob(p, recursive=True) if "/out/" not in f})


def read(f):
    with open(f, encoding="utf-8") as it:
        return it.read()


def declared(files):
    """The names that the files declare, with the file of each."""
    out = {}
    for f in files:
        data = False
        for line in read(f).split("\n"):
            if line.startswith(("use ", "pub use ", "--", "ghost use ")):
                continue
            m = DECLARED.match(line)
            if m and "(" not in m[1] and (not line.startswith(" " * 4) or data or line.startswith("    pub ")):
                out.setdefault(m[1], set()).add(f)
            if re.match(r" *(pub )?data ", line):
                data = True
            elif line and not line.startswith(" "):
                data = False
    return out


def imported(files):
    """The names that the files import, with the files of each."""
    out = {}
    for f in files:
        for m in re.finditer(r"^(?:pub |ghost )*use [^{\n]*\{([^}]*)\}", read(f), re.M):
            for it in m[1].split(","):
                out.setdefault(it.strip().split(" as ")[-1], set()).add(f)
    return out


def foreign(text):
    """The names that a file imports from the library."""
    crates = {os.path.basename(c) for c in glob.glob("crates/*")}
    out = set()
    for m in re.finditer(r"^(?:pub |ghost )*use ([^{\n]*)\{([^}]*)\}", text, re.M):
        parts = m[1].split(".")
        if parts[0] != "Rattle" or parts[1] not in crates:
            out |= {it.strip().split(" as ")[0] for it in m[2].split(",")}
    return out


def main():
    if "--check" not in sys.argv:
        for where, name, new in APART:
            for f in below([where]):
                text = read(f)
                with open(f, "w", encoding="utf-8") as it:
                    it.write(re.sub(r"(?<![\w.'-])" + name + r"(?![\w'-])", new, text))
    files = below(FILES)
    own = declared(files)
    sources = below(["crates/*/src/**/*.rt"])
    words_of = {f: set(re.findall(WORD, read(f))) for f in files + sources}
    every = imported(files + below(["crates/*/src/**/*.rt"]))
    table, clashes = {}, []
    # definitions before lemmas
    for name in sorted(own, key=lambda it: ("-" in it, it)):
        first = name.lstrip("_")[:1]
        new = snake(name)
        if new == name or name.startswith(("Need-", "After-")) or "◌" in name or name.endswith("-spec") and "-" in name:
            continue
        if first.isupper():
            # a type's name before a dash keeps its capitals
            head, dash, rest = name.partition("-")
            new = head + ("-" + snake(rest) if dash else "")
            if new == name:
                continue
        if new in table.values():
            if "-" not in name:
                clashes.append((name, new))
                continue
            # a lemma that would have its definition's name
            new += "_lem"
        if new in own or new in every and name not in every:
            # a function of src/ may have the name of what it computes
            both = [f for f, words in words_of.items() if f.endswith(".antt") and name in words and new in words]
            if both:
                clashes.append((name, new, both))
                continue
        table[name] = new
    for name, new, *both in clashes:
        print(f"clash: {name} -> {new}: {sorted(own[name])[0]}; {' '.join(both[0]) if both else ''}")
    print(f"{len(table)} names, {len(clashes)} clashes")
    if "--check" in sys.argv:
        return
    texts = files + below(["crates/*/src/**/*.rt", "crates/*/must-fail/*.edit"])
    for f in texts:
        old = read(f)
        theirs = foreign(old)
        new = TOKEN.sub(lambda m: m[1] if m[1] in theirs else table.get(m[1], m[1]), old)
        if new != old:
            with open(f, "w", encoding="utf-8") as it:
                it.write(new)
    pages(files)


def pages(files):
    """In docs/ and the README a name in backticks is spelled as it is declared."""
    own = declared(files)
    for f in below(["docs/**/*.md", "README.md", "crates/*/src/**/*.rt"]):
        old = read(f)
        new = re.sub(r"`(\.?)([a-z][\w'-]*)`", lambda m: f"`{m[1]}{snake(m[2])}`" if snake(m[2]) in own else m[0], old)
        if new != old:
            with open(f, "w", encoding="utf-8") as it:
                it.write(new)


main()
