#!/usr/bin/env python3
"""Counts the places of docs/DESIGN-PASS.md in the sources of a tree: python3 tools/places.py [TOP] [--list].

Each count is by a rule that is said beside it. --list names the places, crate and item.
"""
import pathlib
import re
import sys

TOP = pathlib.Path(next((a for a in sys.argv[1:] if not a.startswith("-")), "."))
LIST = "--list" in sys.argv


def crates():
    for line in (TOP / "crates.txt").read_text().splitlines():
        line = line.split("#")[0].strip()
        if line:
            yield line.split(":")[0].split()[0]


SOURCES = {c: "\n".join(p.read_text() for p in sorted((TOP / "crates" / c / "src").rglob("*.rt"))) for c in crates()}


def code(text):
    return "\n".join(re.sub(r"(^|\s)//.*", "", line) for line in text.splitlines())


def items(text, word):
    """Each item that begins with the word: name, and its text up to the line with the closing brace."""
    for m in re.finditer(r"^( *)(?:pub )?(?:extern \"C\" )?%s (\w+)" % word, text, re.M):
        end = re.compile(r"^%s\}|^%s\S.*;$" % (m[1], m[1]), re.M).search(text, m.end())
        yield m[2], text[m.start():end.end() if end else len(text)]


def functions():
    for crate, text in SOURCES.items():
        for name, body in items(code(text), "fn"):
            yield crate, name, body


def head(body):
    """The parameters of a function, as a list of `name: type`."""
    depth, start = 0, body.index("(")
    parts, last = [], start + 1
    for at in range(start, len(body)):
        c = body[at]
        depth += c in "([{<"
        depth -= c in ")]}" or (c == ">" and body[at - 1] != "-")
        if depth == 1 and c == ",":
            parts.append(body[last:at])
            last = at + 1
        if depth == 0:
            parts.append(body[last:at])
            break
    return [p.strip() for p in parts if p.strip()]


def variants(body):
    inner = body[body.index("{") + 1:body.rindex("}")]
    inner = re.sub(r"\([^)]*\)", "()", inner)
    while re.search(r"\{[^{}]*\}", inner):
        inner = re.sub(r"\{[^{}]*\}", "()", inner)
    return [v.strip() for v in inner.split(",") if v.strip()]


COUNTS = []


def count(point, rule, places):
    COUNTS.append((point, rule, sorted(places)))


# 1
found = []
for crate, text in SOURCES.items():
    for name, body in items(code(text), "enum"):
        vs = variants(body)
        if len(vs) == 2 and sum("(" in v for v in vs) >= 1:
            found.append("%s::%s" % (crate, name))
count("1", "enums of two cases of which one or both hold a value", found)
found = []
for crate, text in SOURCES.items():
    for name, body in items(code(text), "struct"):
        if re.search(r"\b(outcome: Outcome|found: bool)", body):
            found.append("%s::%s" % (crate, name))
count("1", "structs that hold a flag or an outcome beside a value", found)
found = [
    "%s::%s" % (c, n)
    for c, n, b in functions()
    if len(re.findall(r"=> *(?:\[?\d+\]?),?$", b, re.M)) >= 2
]
count("1", "functions with two or more match arms that are a bare number", found)
# 2
shapes = {}
for crate, name, body in functions():
    text = re.sub(r"\b(u8|u32|u64|usize|i32|i64)\b", "N", body.split("\n{", 1)[-1])
    text = re.sub(r"\b\d+(?:usize|u8|u32|u64)?\b", "0", text)
    names = {}
    text = re.sub(r"[a-z_][a-z_0-9]*", lambda m: names.setdefault(m[0], "v%d" % len(names)), text)
    text = re.sub(r"\s+", "", text)
    if len(text) > 60:
        shapes.setdefault(text, []).append("%s::%s" % (crate, name))
count("2", "functions whose body is another's but for names, number types and numbers", [" = ".join(v) for v in shapes.values() if len(v) > 1])
shapes = {}
for crate, text in SOURCES.items():
    for name, body in items(code(text), "struct"):
        fields = re.findall(r"pub (\w+): (\w+)", body)
        if any(n == "next" for n, _ in fields):
            shapes.setdefault(len(fields), []).append("%s::%s" % (crate, name))
count("2", "structs of a value and the position past it", [" = ".join(v) for v in shapes.values() if len(v) > 1])
# 3
found = []
for crate, name, body in functions():
    for m in re.finditer(r"^( *)while (.*)\{", body, re.M):
        loop = body[m.start():re.compile(r"^%s\}" % m[1], re.M).search(body, m.end()).end()]
        if re.search(r"\b(\w+) \+= 1;", loop) and re.search(r"\b%s\b" % re.search(r"\b(\w+) \+= 1;", loop)[1], m[2]):
            found.append("%s::%s" % (crate, name))
count("3", "`while` loops whose test reads a variable that the loop raises by 1", found)
count("3", "other `while` loops", [
    "%s::%s" % (c, n) for c, n, b in functions() for _ in re.findall(r"^ *while ", b, re.M)
    if "%s::%s" % (c, n) not in found
])
# 4
count("4", "types that derive neither equality nor Debug", [
    "%s::%s" % (c, m[1])
    for c, t in SOURCES.items()
    for m in re.finditer(r"#\[derive\(Clone, Copy\)\]\n(?:pub )?(?:struct|enum) (\w+)", t)
])
found = []
for crate, name, body in functions():
    inner = body.split("\n{", 1)[-1].strip().rstrip("}").strip()
    if re.fullmatch(r"if \w+ < \w+ \{ [^{}]+ \} else \{ [^{}]+ \}|\w+ as \w+|\w+(\[\w+\])? as \w+|\(\w+\.x == \w+\.x\).*|if \w+ \{ 1 \} else \{ 0 \}", inner):
        found.append("%s::%s" % (crate, name))
    elif re.search(r"!\(!\w+ as i32\)|\(!\w+\) as u64", inner) and len(inner) < 200:
        found.append("%s::%s" % (crate, name))
count("4", "functions that are one comparison, conversion or cast that the library has", found)
# 5
count("5", "functions of eight or more parameters", ["%s::%s" % (c, n) for c, n, b in functions() if len(head(b)) >= 8])
groups = {"the ground: width, height, cells, words": ("width", "height", "cells", "words"), "a window: w, h, left, top": ("w", "h", "left", "top")}
for title, names in groups.items():
    count("5", "functions that are passed %s, apart" % title, [
        "%s::%s" % (c, n) for c, n, b in functions() if set(names) <= {p.split(":")[0].strip() for p in head(b)}
    ])
# 6
found = []
for crate, name, body in functions():
    ps = head(body)
    for a, b in zip(ps, ps[1:]):
        if re.search(r": \[\w+; \d+\]$", a) and re.fullmatch(r"(n|count): usize", b):
            found.append("%s::%s" % (crate, name))
count("6", "an array by value with its length beside it", found)
# 7
count("7", "tables of functions, function pointers, numbers that choose a step", [
    "%s::%s" % (c, n) for c, n, b in functions() if re.search(r": fn\(|\[fn\(", b)
])
# 8
for word in ("Answers", "Invariants", "Proof"):
    files = [p for c in SOURCES for p in (TOP / "crates" / c / "proofs").glob("**/%s.antt" % word) if p.parent.parent.name != c]
    COUNTS.append(("8", "%s files (lines)" % word, ["%d (%d)" % (len(files), sum(len(p.read_text().splitlines()) for p in files))]))
laws = [p for c in SOURCES for p in (TOP / "crates" / c / "proofs").glob("*.antt")]
COUNTS.append(("8", "files of laws (lines)", ["%d (%d)" % (len(laws), sum(len(p.read_text().splitlines()) for p in laws))]))

for point, rule, places in COUNTS:
    if point == "8":
        print("8  %s: %s" % (rule, places[0]))
        continue
    print("%s  %3d  %s" % (point, len(places), rule))
    if LIST:
        for place in places:
            print("          %s" % place)
