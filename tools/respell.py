#!/usr/bin/env python3
"""Brings the repository's own definitions and lemmas to snake case, once, right after the kit's port.py.

usage: python3 tools/respell.py          at the top of the repository: rewrites the files in place
       python3 tools/respell.py --list   prints each old and new name, and those that are left because they would fall together

A name in camel case that a file of specs/ or proofs/ declares becomes one in snake case. A dash that joins two names stays, as today's library has it.
Names of the library, types, and names that Rattle makes of the code (the goals of proofs/F/) stay.
"""

import os
import re
import subprocess
import sys

KIT = os.path.dirname(subprocess.run(["rt", "doc"], capture_output=True, text=True, check=True).stdout.split()[0])
WORD = r"[^\s:(){}\[\].,;«»|=→λ]+"
MARKS = r"(?:(?:pattern|unfoldable|abbrev|pub|record|data|axiom) )*"
TOP = re.compile(rf"{MARKS}({WORD})(?: \{{[^}}]*\}})*(?: [({{].*)? :(?= |$)")
FIELD = re.compile(rf"\s+(?:pub )?({WORD})(?: \{{[^}}]*\}})* :(?= |$)")
TOKEN = re.compile(r"[A-Za-z_Ͱ-Ͽ₀-₉'’′0-9ᴰ][A-Za-z_Ͱ-Ͽ₀-₉'′0-9ᴰ]*(?:-[A-Za-z_Ͱ-Ͽ₀-₉'′0-9ᴰ]+)*")
CAMEL = re.compile(r"(?<=[a-z0-9])(?=[A-Z])")
# Two names of one file that would fall together; every other name that a snake case is already is a Rust function's, which has a module of its own.
INSTEAD = {"sameNext": "equal_next"}
# Names bound within a proof.
BOUND = {"cacheAt": "cache_at", "timeAt": "time_at"}


def files(suffixes, tops):
    for top in tops:
        for folder, dirs, names in os.walk(top):
            dirs[:] = sorted(d for d in dirs if d not in ("out", "target", ".git"))
            for name in sorted(names):
                if name.endswith(suffixes):
                    yield os.path.join(folder, name)


def read(path):
    with open(path, encoding="utf-8") as f:
        return f.read()


def snake(name):
    if name[0].isupper() or not CAMEL.search(name):
        return name
    return "_".join(part[0].lower() + part[1:] if i else part for i, part in enumerate(CAMEL.split(name)))


def declared():
    own = set()
    for path in files((".antt",), ["crates"]):
        for line in read(path).split("\n"):
            top = TOP.match(line) if line[:1].strip() else FIELD.match(line)
            if top and not line.lstrip().startswith("--"):
                own.add(top[1])
    return own


def library():
    names = set()
    for path in files((".antt",), [os.path.join(KIT, d) for d in ("rattle", "rlibs")]):
        names.update(TOKEN.findall(read(path)))
    return names


def mapping():
    lib = library()
    turned, left = dict(BOUND), []
    for name in sorted(declared()):
        new = INSTEAD.get(name, snake(name))
        if new == name:
            continue
        if name in lib:
            left.append((name, "a name of the library too"))
        elif new in turned.values():
            left.append((name, f"{new} comes of two names"))
        else:
            turned[name] = new
    return turned, left


def respell(text, turned):
    return TOKEN.sub(lambda m: turned.get(m[0], m[0]), text)


def main():
    turned, left = mapping()
    if "--list" in sys.argv:
        for old, new in turned.items():
            print(old, new)
        for name, why in left:
            print("left:", name, why)
        return
    for path in files((".antt", ".rt", ".edit"), ["crates"]):
        text = respell(read(path), turned)
        with open(path, "w", encoding="utf-8") as f:
            f.write(text)
    for path in [*files((".md",), ["docs"]), "README.md"]:
        text = re.sub(r"`[^`\n]+`", lambda m: respell(m[0], turned), read(path))
        with open(path, "w", encoding="utf-8") as f:
            f.write(text)
    print(len(turned), "names turned,", len(left), "left")


main()
