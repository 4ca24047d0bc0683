#!/usr/bin/env python3
"""Gives the repository's own definitions and lemmas the spelling of today's Rattle, once, right after port.py.

usage: tools/respell.py        at the top of the repository

Words are in snake case and types in camel case. A service's number (2A, 2E, 2F, 3E) keeps the spelling that the source has, as in `service2A`.
In a lemma's name a dash joins two names, and any other word is added by `_`; a lemma that would have its definition's name gets `_lem`.
`eqb`, `ltb` and `leb` of std are `nat_eq`, `nat_lt` and `nat_le` in definitions and clauses: the same functions by their names of today.
Functions, types, constants and fields of src/ keep their names, and so do strings. Only .antt files, and clauses, `ghost use` items and comments of .rt files
are touched. It prints each name that changed and what falls together.
"""
import collections
import os
import re
import sys

WORD = re.compile(r'[^\s(){}\[\].;,@"«»`|/:]+')
DECLARED = re.compile(r"(?m)^ *(?:(?:pub|abbrev|unfoldable|axiom) +)*(?:(?:record|data) +)?([^\s(){}.;,@\"«»:]+)(?: +\{[^{}\n]*\}| +\([^()\n]*\))* *:(?= |$)")
LIBRARY = re.compile(r"use (?:mathlib|lib|Prim|borrow|denote|native|antt|Rattle\.std)[^\s{]*\{([^}]*)\}")
CLAUSE = re.compile(r"ghost use\b[^;]*;|\b(?:requires|ensures)\b\*?\s*(?:\w+\s*)?\{")
TESTS = {"eqb": "nat_eq", "ltb": "nat_lt", "leb": "nat_le"}
# What is added to a function's name, which keeps its own spelling: no name of a definition.
ENDINGS = {"settled", "spec", "reads", "requires"}
# The standard's own words, which comments keep; the names of specs/Iso.antt join them.
STANDARD = {"requestSeed", "sendKey", "powerDownTime"}
# Two lemmas that would fall together with a definition that their own module imports.
APART = {"crates/model/": {"two_bytes": "two_bytes_lem", "reserved-level": "reserved_level_departs"}}


def files(ending):
    for folder, folders, names in os.walk("crates"):
        folders[:] = sorted(f for f in folders if f != "out")
        for name in sorted(names):
            if name.endswith(ending):
                yield os.path.join(folder, name)


def read(path):
    with open(path, encoding="utf-8") as f:
        return f.read()


def is_walk(path):
    return path.endswith("/Proof.antt")


def snake(part):
    if not part[:1].islower():
        return part
    part = re.sub(r"(?<=[a-z])[A-Z]", lambda m: "_" + m[0].lower(), part)
    return re.sub(r"(?<=[0-9])[A-Z](?=[a-z])", lambda m: "_" + m[0].lower(), part)


def table():
    """The new spelling of each name that specs/ and proofs/ declare, but for the names inside the walks of one function."""
    words, lemmas, std, functions = set(), set(), set(), set()
    for path in files(".antt"):
        text = re.sub(r"--[^\n]*", "", read(path))
        for found in LIBRARY.finditer(text):
            std.update(one.split(" as ")[0].strip() for one in found[1].split(","))
        if not is_walk(path):
            (words if "/specs/" in path else lemmas).update(found[1] for found in DECLARED.finditer(text))
    for path in files(".rt"):
        functions.update(re.findall(r"\bfn (\w+)", read(path)))
    known = ({snake(w) for w in words} | std | functions) - ENDINGS

    def turned(name):
        parts = [snake(part) for part in name.split("-")]
        if parts[-1] in ENDINGS:
            return "_".join(parts)
        new = parts[0]
        for a, b in zip(parts, parts[1:]):
            new += ("-" if a in known and b in known else "_") + b
        return new

    taken = {turned(w) for w in words}
    new = {name: turned(name) for name in words | lemmas}
    for name in lemmas - words:
        if new[name] != name and new[name] in taken:
            new[name] += "_lem"
    return {old: to for old, to in new.items() if old != to}


def respelled(text, path, names):
    """The code of a text with each name in its new spelling, and the comments with those that are not the standard's own words."""
    apart = {old: new for below, table in APART.items() if path.startswith(below) for old, new in table.items()}

    def one(found):
        word = found[0]
        if is_walk(path) and "-" in word and found.string[: found.start()].endswith("."):
            return word
        new = apart.get(word) or names.get(word)
        if not new and path.endswith(".antt") and word[:1].islower():
            new = "-".join(snake(part) for part in word.split("-"))
        return new or word

    def in_comment(found):
        return WORD.sub(lambda word: word[0] if word[0] in STANDARD else names.get(word[0], word[0]), found[0])

    pieces = re.split(r"((?:--|//)[^\n]*)" if not path.endswith(".antt") else r"((?<![^\s(){}.;,@«»])--[^\n]*)", text)
    return "".join(in_comment(re.match(r"(?s).*", piece)) if k % 2 else WORD.sub(one, piece) for k, piece in enumerate(pieces))


def with_tests(text):
    return WORD.sub(lambda found: TESTS.get(found[0], found[0]), text)


def turned_rt(text, path, names):
    """The clauses, `ghost use` items and comments of a source file."""
    out, at, spans = [], 0, []
    for found in CLAUSE.finditer(text):
        if found.start() < at:
            continue
        end = found.end()
        if not found[0].startswith("ghost use"):
            depth = 1
            while depth:
                depth += {"{": 1, "}": -1}.get(text[end], 0)
                end += 1
        spans.append((found.start(), end))
        at = end
    at = 0
    for start, end in spans + [(len(text), len(text))]:
        out.append(re.sub(r"//[^\n]*", lambda found: respelled(found[0], path, names), text[at:start]))
        out.append(with_tests(respelled(text[start:end], path, names)))
        at = end
    return "".join(out)


def main():
    names = table()
    STANDARD.update(found[1] for found in DECLARED.finditer(read("crates/model/specs/Iso.antt")))
    seen = collections.defaultdict(lambda: collections.defaultdict(set))
    for path in list(files(".antt")) + list(files(".rt")):
        old = read(path)
        if path.endswith(".antt"):
            new = respelled(old, path, names)
            if "/specs/" in path:
                new = with_tests(new)
        else:
            new = turned_rt(old, path, names)
        for a, b in zip(WORD.findall(old), WORD.findall(new)):
            if re.match(r"[a-z]", b):
                seen[path][b].add(a)
        if new != old:
            with open(path, "w", encoding="utf-8") as f:
                f.write(new)
    for old, new in sorted(names.items()):
        print(f"{old} {new}")
    for path, words in sorted(seen.items()):
        for new, olds in sorted(words.items()):
            if len(olds) > 1 and new not in TESTS.values():
                print(f"look: {path}: {' and '.join(sorted(olds))} are both {new} now", file=sys.stderr)


if __name__ == "__main__":
    main()
