#!/usr/bin/env python3
"""Respells the repository's own words as today's Rattle spells words: fooBar and foo-bar become foo_bar.

usage: python3 tools/respell.py        at the top of the repository, once, right after the kit's port.py

Turned are the names that .antt files of crates/ declare (definitions, lemmas, fields of records), wherever they stand:
in .antt files, in the clauses of .rt files, in must-fail edits, and between backticks in pages. Kept are types,
modules and constructors, which begin with a capital; names of Rust; names that a file takes from a library of the kit;
and the labels that Rattle makes, which stand behind a dot. Where a definition and a lemma fall together, the lemma
gets `_lem`. What TABLE says goes before the rule.
"""
import collections
import glob
import os
import re
import sys

# A name whose plain spelling is taken in a file that cites it.
TABLE = {}

NAME = re.compile(r"[^\s(){}.;,@\"«»:\[\]`]+")
DECLARED = re.compile(r"^( *)((?:unfoldable |abbrev |opaque |pub |infixl |infixr |infix )*)([^\s(){}.;,:]+)((?: \{[^}]*\})*) :(?: |$)")
USE = re.compile(r"^(?:ghost |pub )*use ([^\s;{]+)(?:\{([^}]*)\})?", re.M)
# In the proof of a function, a lemma that is named for a goal that Rattle makes.
MADE = re.compile(r"/Proof\.antt$")
MIRRORS = re.compile(r"\s*tie\.")
LABEL = re.compile(r"(loop|returns|invariant|decreases)-|.*-(requires|spec)(-\d+)?$|.*-\d+$")
KIT = re.compile(r"Rattle\.(core|std\w*|libc|io|os)\.")


def plain(name):
    return re.sub(r"(?<=[a-z0-9])[A-Z]", lambda m: "_" + m[0].lower(), name).replace("-", "_")


def lower(name):
    return name[0].islower() and name.isascii()


def of_kit(text):
    names = set()
    for path, inner in USE.findall(text):
        if KIT.match(path):
            names |= {w.split(" as ")[-1].strip() for w in inner.split(",")} if inner else {path.split(".")[-1]}
    return names


def read(path):
    with open(path, encoding="utf-8") as f:
        return f.read()


def declarations(files):
    words, fields = set(), set()
    for path in files:
        in_record = False
        made = MADE.search(path)
        for line in read(path).split("\n"):
            if line.startswith("--") or not line.strip():
                continue
            if not line.startswith(" "):
                in_record = bool(re.match(r"(pub )?record ", line))
            m = DECLARED.match(line)
            if m and lower(m[3]):
                if m[1] and in_record:
                    fields.add(m[3])
                elif not (made and (MIRRORS.match(line[m.end():]) or LABEL.match(m[3]) and not m[3].endswith("-spec"))):
                    words.add(m[3])
    return words, fields


def table(words, fields):
    turned = {}
    falls = collections.defaultdict(list)
    for name in sorted(words | fields):
        falls[plain(name)].append(name)
    for to, names in falls.items():
        first = min(names, key=lambda n: (not re.search("[a-z][A-Z]", n), n != to))
        for name in names:
            new = TABLE.get(name, to if name == first else to + "_lem")
            if new != name:
                turned[name] = new
    return turned


def turn(text, turned, fields, kept, rust):
    def one(m):
        name = m[0]
        if name not in turned or name in kept:
            return name
        if not re.search("[a-z][A-Z]", name) and (rust or text[:m.start()].endswith(".") and name not in fields):
            return name
        return turned[name]
    return NAME.sub(one, text)


def main():
    antt = [p for p in glob.glob("crates/*/*/**/*.antt", recursive=True) if "/out/" not in p]
    code = [p for p in glob.glob("crates/*/src/**/*.rt", recursive=True)]
    edits = glob.glob("crates/*/must-fail/*.edit")
    words, fields = declarations(antt)
    turned = table(words, fields)
    if "--table" in sys.argv:
        for a, b in sorted(turned.items()):
            print(a, b)
        return
    for path in antt + code + edits:
        text = read(path)
        new = turn(text, turned, fields, of_kit(text), path.endswith(".rt"))
        if new != text:
            with open(path, "w", encoding="utf-8") as f:
                f.write(new)
    print(len(turned), "names")


if __name__ == "__main__":
    main()
