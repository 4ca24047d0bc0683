#!/usr/bin/env python3
"""Counts the places in src/ that are written as an older Rattle had to: the eight points of docs/DESIGN-PASS.md.

usage: tools/places.py [--list] [FOLDER]        FOLDER: a checkout; this one where none is given

For each point, and what is counted under it, one line with the number of places; with --list also each place as FILE:LINE and its text.
"""
import collections
import os
import re
import sys

ITEM = re.compile(r"^ *(?:pub(?:\([a-z]+\))? )?(?:const )?(?:extern \"C\" )?fn (\w+)")


def sources(top):
    for folder, folders, names in os.walk(os.path.join(top, "crates")):
        folders[:] = sorted(f for f in folders if f != "out")
        for name in sorted(names):
            if name.endswith(".rt") and os.path.basename(folder) == "src":
                yield os.path.join(folder, name)


def functions(lines):
    """(first line, name, head, body) of each function; a head is one line, however it was broken."""
    i = 0
    while i < len(lines):
        m = ITEM.match(lines[i])
        if not m:
            i += 1
            continue
        indent = len(lines[i]) - len(lines[i].lstrip())
        start, head = i, []
        while i < len(lines) and not re.match(r"^ {%d}\{$" % indent, lines[i]) and not lines[i].rstrip().endswith(" {"):
            head.append(lines[i].strip())
            i += 1
        if i == len(lines):
            break
        if not re.match(r"^ {%d}\{$" % indent, lines[i]):
            head.append(lines[i].strip().rstrip("{"))
        body = []
        i += 1
        while i < len(lines) and not re.match(r"^ {%d}\}$" % indent, lines[i]):
            body.append(lines[i])
            i += 1
        yield start + 1, m.group(1), " ".join(head), body


def parameters(head):
    inside = head[head.index("(") + 1:]
    depth, out, word = 0, [], ""
    for c in inside:
        if c == ")" and depth == 0:
            break
        depth += c in "([<{"
        depth -= c in ")]>}"
        if c == "," and depth == 0:
            out.append(word.strip())
            word = ""
        else:
            word += c
    out.append(word.strip())
    return [p for p in out if p]


def shape(body):
    """A body without its numbers, constants and the names of services: twins have the same."""
    text = "\n".join(re.sub(r"//.*", "", line) for line in body)
    text = re.sub(r"0x[0-9A-Fa-f_]+|\b\d[\d_]*\b", "N", text)
    text = re.sub(r"\b[A-Z][A-Z0-9_]+\b", "C", text)
    text = re.sub(r"\b[a-z]+::", "m::", text)
    text = re.sub(r"\b(?:find|ask|service|with|run|none|is)_?[0-9A-Z]?\w*\(", "f(", text)
    return re.sub(r"\s+", " ", text).strip()


def main():
    args = [a for a in sys.argv[1:] if a != "--list"]
    listed = "--list" in sys.argv[1:]
    top = args[0] if args else "."
    found = collections.OrderedDict()

    def place(point, path, number, text):
        found.setdefault(point, []).append("%s:%d: %s" % (os.path.relpath(path, top), number, text.strip()))

    points = (
        "1 enum of two variants", "1 flag or number beside a value", "1 number for a kind or refusal",
        "2 functions with the same body but for names and numbers", "3 loop that counts an index by hand",
        "4 widening or narrowing by `as`", "4 ladder of tests in place of &&",
        "4 function that is only a conversion", "5 function of seven parameters or more", "6 array in a field or a type's name",
        "7 number or flag that says which step to run", "8 answers and invariants", "8 answers that repeat a term of 100 signs",
    )
    for point in points:
        found[point] = []
    twins = collections.defaultdict(list)
    for path in sources(top):
        with open(path, encoding="utf-8") as f:
            lines = f.read().split("\n")
        program = path.split(os.sep)[-3].endswith(("_main", "_bench"))
        for n, line in enumerate(lines, 1):
            code = re.sub(r"//.*", "", line)
            if re.match(r" *(pub )?enum ", code):
                end = next(k for k in range(n, len(lines)) if lines[k] == "}")
                variants = [x for x in lines[n:end] if re.match(r"    [A-Z]\w*[ ,({]?", x)]
                if len(variants) == 2:
                    place(points[0], path, n, code)
            if re.match(r" *pub (on: bool|result: u8|err: u8|waits: bool|number: u8),", code):
                place(points[1], path, n, code)
            if re.match(r"pub const [A-Z_]+: u8 = \d+;", code) and path.endswith("result.rt"):
                place(points[2], path, n, code)
            if re.match(r" *while ", code):
                place(points[4], path, n, code)
            for m in re.finditer(r"\bas (u8|u16|u32|u64|usize)\b", code):
                place(points[5], path, n, code)
            if re.match(r" *(pub )?(\w+: |type \w+ = )\[u(8|32|64); \w+\][,;]", code):
                place(points[9], path, n, code)
            if re.search(r"\b(fn\(|dyn )|match (kind|step|mode)\b", code):
                place(points[10], path, n, code)
        for n, name, head, body in functions(lines):
            code = [re.sub(r"//.*", "", x).strip() for x in body if x.strip()]
            text = " ".join(code)
            if re.search(r"\) -> u8 *(requires|ensures|$)", head) and re.search(r"Nrc::|result::|DONE|STATE_NOT_VALID", text) and not program:
                place(points[2], path, n, head.split(" ensures")[0])
            ladder = [k for k in range(len(code) - 1) if code[k].startswith("if ") and code[k].endswith("{") and code[k + 1] == "return false;"]
            if ladder and len(code) > 3 and (code[-1] in ("true", "false") or re.match(r"^[\w.:&!(), <=]+$", code[-1])) and "-> bool" in head:
                place(points[6], path, n, head.split(" ensures")[0])
            if len(code) == 1 and re.match(r"^\(?\w+( % 256)?\)? as \w+$", code[0]):
                place(points[7], path, n, head.split(" ensures")[0])
            if len(parameters(head)) >= 7 and 'extern "C"' not in head:
                place(points[8], path, n, "fn %s, %d parameters" % (name, len(parameters(head))))
            if len(text) > 60 and not program:
                twins[path, shape(body)].append((n, name))
    for (path, _), group in sorted(twins.items()):
        if len(group) > 1:
            for n, name in group:
                place(points[3], path, n, name)
    for folder, folders, names in os.walk(os.path.join(top, "crates")):
        folders[:] = sorted(f for f in folders if f != "out")
        for name in sorted(names):
            if name in ("Answers.antt", "Invariants.antt"):
                path = os.path.join(folder, name)
                with open(path, encoding="utf-8") as f:
                    lines = f.read().split("\n")
                place(points[11], path, 1, name)
                terms = collections.Counter()
                for line in lines:
                    for m in re.finditer(r"\([^()]{100,}\)", line):
                        terms[m.group(0)] += 1
                if any(k > 1 for k in terms.values()):
                    place(points[12], path, 1, "%d times" % max(terms.values()))
    for point, places in found.items():
        print("%4d  %s" % (len(places), point))
        if listed:
            for p in places:
                print("        " + p)


main()
