#!/usr/bin/env python3
"""Respells the repository's own definitions and lemmas: words in snake case, types in upper camel case.

usage: python3 tools/respell.py          at the top: rewrites crates/, README.md and docs/ in place
       python3 tools/respell.py --list   prints the renamings, and names that would fall together, and writes nothing

Renamed are names that a file of specs/ or proofs/ declares (a definition, a lemma, a field, a constructor) and that have a dash, or a capital
after a small letter: `row-below` and `rowBelow` become `row_below`, and a type `Free-start` becomes `FreeStart`. In a proofs/F/Proof.antt the
names after which Rattle asks keep theirs, and a name of that file alone is renamed there alone. Names of functions, strings, and words of
comments outside backticks stay. A derive of Drop becomes one of Clone and Copy: every type here is plain data.
"""
import os
import re
import sys

NAME = r"[A-Za-z_ℕℤ0-9'′°⁺⁻₀-₉α-ωΑ-Ω\-]+"
DECLARED = re.compile(r"^\s*(?:\|\s*)?(?:(?:abbrev|unfoldable|opaque|private|pub|instance|data|record|ruleset|syntax)\s+)*(" + NAME + r")\s*(?:[({][^=]*)?(?::(?!=)|$| where)")
GOAL = re.compile(r"^\s*(" + NAME + r")\s*:\s*tie\.Need-")
TOKEN = re.compile(r"(?<![A-Za-z_ℕℤ0-9'′\-◌])(" + NAME + r")(?![◌])")
BACKTICKED = re.compile(r"`([^`\n]*)`")
LITERAL = re.compile(r'"(?:[^"\\\n]|\\.)*"')


# A lemma or a value that would fall together with a definition of the same words, and a value that another crate's lemma is called after.
APART = {
    "blocked-before": "blocked_before_in_parts",
    "in-i32": "fits_in_i32",
    "issue-line": "issue_line_in_parts",
    "placement-line": "placement_line_in_parts",
    "report-text": "report_text_in_parts",
    "run-stops": "run_stops_as_flat",
    "side-x": "side_x_free",
    "side-y": "side_y_free",
    "no-building": {"report": "no_building_left", "": "building_of_zeros"},
    "no-rect": "rect_of_zeros",
    "area_in": "area_of_header",
    "bits_in": "bits_of_header",
}


def old_form(name):
    if name.startswith("-") or name.endswith("-") or re.match(r"[A-ZΔΦ]-", name):
        return False
    return "-" in name or (name[0].islower() and re.search(r"[a-z0-9][A-Z]", name) is not None)


def new_form(name):
    if name[0].isupper():
        return "".join(p[:1].upper() + p[1:] for p in name.split("-"))
    name = re.sub(r"([a-z0-9])([A-Z])", lambda m: m.group(1) + "_" + m.group(2).lower(), name)
    return name.replace("-", "_")


def files(top, ends):
    for folder, dirs, names in os.walk(top):
        dirs[:] = sorted(d for d in dirs if d not in ("out", ".git", "target"))
        for n in sorted(names):
            if n.endswith(ends):
                yield os.path.join(folder, n)


def read(path):
    with open(path, encoding="utf-8") as f:
        return f.read()


def is_walk(path):
    return os.path.basename(path) == "Proof.antt"


def split_comment(line, mark):
    """(code, comment) of a line; the mark inside a string literal is none."""
    at = 0
    while True:
        at = line.find(mark, at)
        if at < 0:
            return line, ""
        if line[:at].count('"') % 2 == 0:
            return line[:at], line[at:]
        at += len(mark)


def own(source):
    """The names of old form that the text of a specs or proofs file declares."""
    found = set()
    for line in source.splitlines():
        code = split_comment(line, "--")[0]
        m = DECLARED.match(code)
        if m and old_form(m.group(1)):
            found.add(m.group(1))
        for v in re.findall(r"^\s*(?:pub\s+)?\|\s*(" + NAME + r")\s*:", code):
            if old_form(v):
                found.add(v)
    return found


def from_kit(sources):
    """The names that files import from modules that are not of this repository."""
    names = set()
    for text in sources:
        for module, listed in re.findall(r"use ([^\s{;]+?)\.\{([^}]*)\}", text):
            if not re.match(r"Rattle\.(?!std\b)", module):
                names.update(n.strip().split(" as ")[0] for n in listed.split(","))
    return names


def turn(text, names, fields=True):
    def one(m):
        name = m.group(1)
        if name not in names:
            return name
        if m.start() > 0 and text[m.start() - 1] == ".":
            if not fields:
                return name
            if isinstance(APART.get(name), dict) or name == "no-rect":  # what a call of that function gave
                return new_form(name)
        return names[name]
    return TOKEN.sub(one, text)


def turn_line(line, names, mark, fields=True):
    code, comment = split_comment(line, mark)
    out, at = [], 0
    for m in LITERAL.finditer(code):
        out += [turn(code[at:m.start()], names, fields), m.group(0)]
        at = m.end()
    out.append(turn(code[at:], names, fields))
    return "".join(out) + BACKTICKED.sub(lambda m: "`" + turn(m.group(1), names, fields) + "`", comment)


def main():
    listing = sys.argv[1:] == ["--list"]
    antt = {p: read(p) for p in files("crates", ".antt")}
    rt = {p: read(p) for p in files("crates", ".rt")}
    kit = from_kit(list(antt.values()) + list(rt.values()))
    shared = set()
    for p, text in antt.items():
        if not is_walk(p):
            shared |= own(text)
    clash = sorted(shared & kit)
    shared -= kit
    names = {n: new_form(n) for n in sorted(shared)}
    for n, to in APART.items():
        names[n] = to if isinstance(to, str) else to[""]

    def of_crate(path):
        crate = path.split(os.sep)[1]
        return {**names, **{n: to[crate] for n, to in APART.items() if isinstance(to, dict) and crate in to}}

    taken = set()
    for text in list(antt.values()) + list(rt.values()):
        taken.update(TOKEN.findall(text))
    meets = sorted(n for n in names if names[n] in taken)
    together = {}
    for n in names:
        together.setdefault(names[n], []).append(n)
    if listing:
        for n in sorted(names):
            print(n, "->", names[n])
        print("of the kit, too:", clash)
        print("the new name stands somewhere:", [(n, names[n]) for n in meets])
        print("fall together:", [v for v in together.values() if len(v) > 1])
        return

    for p, text in antt.items():
        local, goals = {}, set()
        if is_walk(p):
            goals = {m.group(1) for m in map(GOAL.match, text.splitlines()) if m}
            function = os.path.basename(os.path.dirname(p))
            local = {n: new_form(n) for n in own(text) - kit - goals - shared}
            local[function.replace("_", "-") + "-spec"] = function + "_spec"
        here = of_crate(p)
        shown = {n: here[n] for n in here if n not in goals}
        lines = []
        for line in text.split("\n"):
            line = turn_line(line, shown, "--")
            if local:
                line = turn_line(line, local, "--", fields=False)
            lines.append(line)
        new = "\n".join(lines)
        if new != text:
            with open(p, "w", encoding="utf-8") as f:
                f.write(new)

    for p, text in rt.items():
        new = "\n".join(turn_line(line, names, "//") for line in text.split("\n"))
        new = new.replace("#[derive(Drop)]", "#[derive(Clone, Copy)]")
        if new != text:
            with open(p, "w", encoding="utf-8") as f:
                f.write(new)

    for p in files("crates", ".edit"):
        text = read(p)
        lines = []
        for line in text.split("\n"):
            if line.startswith(("old: ", "new: ")):
                line = line[:5] + turn(line[5:], names)
            else:
                line = BACKTICKED.sub(lambda m: "`" + turn(m.group(1), names) + "`", line)
            lines.append(line)
        new = "\n".join(lines)
        if new != text:
            with open(p, "w", encoding="utf-8") as f:
                f.write(new)

    for p in ["README.md"] + list(files("docs", ".md")):
        text = read(p)
        new = BACKTICKED.sub(lambda m: "`" + turn(m.group(1), names) + "`", text)
        if new != text:
            with open(p, "w", encoding="utf-8") as f:
                f.write(new)


main()
