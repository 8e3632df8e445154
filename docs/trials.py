#!/usr/bin/env python3
"""Makes docs/TRIALS.md from the must-fail edits and from what the gate says of them.

    .ci/run && python3 docs/trials.py

For each edit it says which wrong program it is (the edit's first line) and the first fact that the prover refuses, by target/gate.log. An edit
that is bad, is not refused, or is refused only because a name is gone, ends it with a message."""
import pathlib
import re
import sys

ROOT = pathlib.Path(__file__).resolve().parent.parent
HEAD = """# Trials

Each is a wrong program, or a wrong definition, that keeps the shape of the right one: an edit in `crates/CRATE/must-fail`, which the gate applies to a copy of the crate and which the prover must refuse. The last column says where the prover stops first: a function
and the fact of it that no longer holds, or a file of laws and the law. `python3 docs/trials.py` makes this list from what a run of the gate says.
"""
SAID = re.compile(r"rt: must-fail (\w+)/([\w.-]+)\.edit: refused, as it must be: (.*)$")
LAW = re.compile(r"(?:proofs|specs)/(\S+?):\d+:\d+: error: `([^`]+)`")
SHAPE = re.compile(r"only because a proof file names|has no field|is not in scope|no clause covers|was not admitted")
GOAL = re.compile(r"(src/\S+?):(\d+):\d+: (.*)$")


def function_at(source, line):
    """The function that stands at the line, its attributes included, or the last one before it."""
    lines = source.splitlines()
    while lines[line - 1].lstrip().startswith("#["):
        line += 1
    names = re.findall(r"(?m)^\s*(?:pub )?(?:extern \"C\" )?fn (\w+)", "\n".join(lines[:line]))
    return names[-1] if names else None


def fact(crate, said):
    """The first fact that the prover refuses, or None where only the code's shape is refused."""
    if SHAPE.search(said):
        return None
    law = LAW.search(said)
    if law:
        *folders, file = law.group(1).split("/")
        return f"`{'::'.join(folders) or file}`, `{law.group(2)}`"
    goal = GOAL.search(said)
    if goal:
        named = re.search(r"\(`([^`]+)`\)", goal.group(3))
        function = function_at((ROOT / "crates" / crate / goal.group(1)).read_text(), int(goal.group(2)))
        return f"`{function}`, " + (f"`{named.group(1)}`" if named else goal.group(3).split(" (")[0])
    return None


def main():
    log = (ROOT / "target" / "gate.log").read_text()
    said = {(m.group(1), m.group(2)): m.group(3) for m in map(SAID.match, log.splitlines()) if m}
    text = HEAD
    lost = []
    for crate in [line.split(':')[0].split()[0] for line in (ROOT / "crates.txt").read_text().splitlines() if line.strip() and not line.startswith("#")]:
        edits = sorted((ROOT / "crates" / crate / "must-fail").glob("*.edit"))
        if not edits:
            continue
        text += f"\n## {crate}\n\n| trial | wrong program | refused first at |\n|---|---|---|\n"
        for edit in edits:
            at = fact(crate, said.get((crate, edit.stem), ""))
            if at is None:
                lost.append(f"{crate}/{edit.stem}")
            wrong = edit.read_text().splitlines()[0].removeprefix("# ")
            text += f"| {edit.stem} | {wrong} | {at} |\n"
    if lost:
        sys.exit("trials: refused at no fact, or not run: " + " ".join(lost))
    (ROOT / "docs" / "TRIALS.md").write_text(text)


main()
