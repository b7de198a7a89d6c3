#!/usr/bin/env python3
"""Respells this repository's own definitions and lemmas, once, after the toolchain's own script.

Run at the top of the repository. A name of specs/ or proofs/ that is written with dashes is put into snake case;
a dash stays only in a lemma of proofs/, between two names of definitions, as in `depths-append`. Functions of src/,
strings, inputs and outputs keep their names, and so do the names that the toolchain makes. It prints each pair of
names, and stops before it writes anything where two names would fall together.
"""
import glob
import re
import sys

SIG = re.compile(
    r"^\s*(?:(?:abbrev|unfoldable|pub|ruleset|record|data|mutual|\|)\s+)*(?P<name>[^\s:(){}=|;,.]+)"
    r"\s*(?:\([^=]*?\)\s*|\{[^=]*?\}\s*)*:\s(?P<type>.*)$",
    re.M,
)
# names that the toolchain makes, or asks for: goals, invariants and measures
MADE = re.compile(r"^(?:goal|need|given)\.")
# functions of the library that a lemma may be named after
LIBRARY = {"length", "append", "take", "drop", "set", "map", "eqb", "cond", "suc", "get_or", "snoc", "bit_and", "bit_or", "pow"}
# where the plain rule would give a name that stands already
OTHERWISE = {"bit-and": "bit-bit_and", "bit-or": "bit-bit_or", "depths-snoc-kind": "depths_snoc_kind", "front-goes-on": "front_goes_on", "name-bytes-of": "name_bytes_of"}
# words that stand already, but only as the name of a function of src/, in a path
APART = {"whole_kind"}
TOKEN = re.compile(r"""b?"(?:[^"\\\n]|\\.)*"|--.*$|[^\s(){}\[\];,.«»`]+""", re.M)


def files(*patterns):
    return sorted(p for pattern in patterns for p in glob.glob(pattern, recursive=True))


def read(path):
    with open(path, encoding="utf-8") as f:
        return f.read()


def main():
    specs, lemmas, all_words = set(), set(), set()
    for path in files("crates/*/specs/**/*.antt", "crates/*/proofs/**/*.antt"):
        text = read(path)
        for m in SIG.finditer(text):
            if not MADE.match(m["type"]):
                (specs if "/specs/" in path else lemmas).add(m["name"])
        all_words.update(m[0] for m in TOKEN.finditer(text))
    plain = {n.replace("-", "_") for n in specs} | LIBRARY
    respelled = {}
    for name in sorted(specs | lemmas):
        if "-" not in name.strip("-"):
            continue
        parts = name.split("-")
        new = parts[0]
        for before, after in zip(parts, parts[1:]):
            keeps = name not in specs and before in plain and after in plain
            new += ("-" if keeps else "_") + after
        new = OTHERWISE.get(name, new)
        if new != name:
            respelled[name] = new
    clashes = [f"{a} -> {b}: this name stands already" for a, b in respelled.items() if b in all_words - APART]
    targets = {}
    for a, b in respelled.items():
        targets.setdefault(b, []).append(a)
    clashes += [f"{' and '.join(v)} -> {b}: they fall together" for b, v in targets.items() if len(v) > 1]
    if clashes and "--anyway" not in sys.argv:
        print("\n".join(clashes))
        sys.exit(1)
    for path in files("crates/**/*.antt", "crates/*/src/**/*.rt"):
        text = read(path)
        dotted = []

        def one(m):
            word = m[0]
            if word[0] in 'b"' and '"' in word or word.startswith("--"):
                return word
            if word in respelled and m.start() and text[m.start() - 1] == ".":
                dotted.append(word)
            return respelled.get(word, word)

        new = TOKEN.sub(one, text)
        for word in dotted:
            print(f"look: {path}: .{word}")
        if new != text:
            with open(path, "w", encoding="utf-8") as f:
                f.write(new)
    for path in files("docs/*.md", "README.md"):
        text = read(path)
        new = re.sub(r"`([^`\n]+)`", lambda m: "`" + respelled.get(m[1], m[1]) + "`", text)
        if new != text:
            with open(path, "w", encoding="utf-8") as f:
                f.write(new)
    for a, b in respelled.items():
        print(f"{a} -> {b}")


main()
