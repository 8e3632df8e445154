#!/usr/bin/env python3
"""Writes the cases in data/, numbered as they stand here, and what document 01 says of each, in stdout.

A case is how many places the areas 2 to 8 have, two bytes each, and a packed query. The answers come from examples/plain.py and the numbers of document 01, and not from the program.
"""
import os
import sys

sys.dont_write_bytecode = True
here = os.path.dirname(os.path.abspath(__file__))
examples = os.path.join(here, "..", "..", "examples")
sys.path.insert(0, examples)
from pack import pack, read
import plain

KINDS = ["OutOfMap", "UnbuildableTerrain", "OverlapsObstacle", "OverlapsBuilding"]
VERDICTS = ["StartBlocked", "EndBlocked", "Open", "AlreadyDisconnected", "BlockedWithinWindow"]
ALL = [24, 4226, 4226, 8193, 4097, 4097, 4097]

B = "building 0 0 1 1 16 16 15 15\n"
K1 = "map 8 8\nwindow 30 30 36 36\nstart 31 32\nend 32 31\n" + B
K2 = "map 8 8\nwindow 40 40 41 41\nstart 40 40\nend 40 40\n"
WHOLE = "map 8 8\nwindow 0 0 64 64\n"
FENCE = "obstacle 20 0 24 64\n"


def still(x, y):
    return "start %d %d\nend %d %d\n" % (x, y, x, y)


def strip(width, height):
    return "map 129 1\nwindow 0 0 %d %d\n" % (width, height) + still(0, 0)


def needs(q):
    """The number of each area, 2 to 8."""
    n, b = len(q["obstacle"]), len(q["building"])
    left, top, right, bottom = q["window"][0]
    w, h = right - left, bottom - top
    return [b * (n + b + 1), (w + 1) * (h + 1), (w + 1) * (h + 1), 2 * w * h, w * h, w * h, w * h]


def short(text, *areas):
    """As many places as are needed, but one less in these areas."""
    return [n - (k + 2 in areas) for k, n in enumerate(needs(read(text)))]


CASES = [
    ("K1", K1, ALL),
    ("K2", K2, ALL),
    ("K3", "map 8 8\nwindow 0 0 20 20\n" + still(10, 10) + B, ALL),
    ("K4", K2 + B + "obstacle 32 0 64 32\n", ALL),
    ("K4, left 31", K2 + B + "obstacle 31 0 64 32\n", ALL),
]
CASES += [("K5, x %d" % x, WHOLE + still(x, 10) + "mover 3 0 4 0\n", ALL) for x in (2, 3, 59, 60)]
CASES += [("K6, x %d" % x, WHOLE + FENCE + still(x, 10) + "mover 2 0 1 0\n", ALL) for x in (18, 19, 25, 26)]
CASES += [
    ("K5, from x 3 to x 60", WHOLE + "start 3 10\nend 60 10\nmover 3 0 4 0\n", ALL),
    ("K7", WHOLE + FENCE + "start 10 10\nend 40 10\n", ALL),
    ("K7 with B", WHOLE + FENCE + "start 10 10\nend 40 10\n" + B, ALL),
    ("K8", WHOLE + "start 0 0\nend 2 1\n", ALL),
    ("K9", K2.replace("map 8 8", "map 8 8\ncell 0 0 16") + "building 0 0 1 1 17 16 15 15\n", ALL),
    ("K10, right 46", K2 + "building 67108862 0 1 1 0 0 46 0\n", ALL),
    ("K10, right 47", K2 + "building 67108862 0 1 1 0 0 47 0\n", ALL),
    ("1,024 by 1 on a map of 129 by 1 cells", strip(1024, 1), ALL),
    ("1,025 by 1", strip(1025, 1), ALL),
    ("1 by 8", strip(1, 8), ALL),
    ("1,033 by 1: past the map", strip(1033, 1), ALL),
]

TWO = K1 + "building 1 1 1 1 0 0 0 0\nobstacle 0 0 1 1\n"
for name, text in (("K1", K1), ("two buildings and an obstacle", TWO)):
    CASES.append((name + ", each area exactly", text, short(text)))
    CASES += [("%s, area %d one short" % (name, k), text, short(text, k)) for k in range(2, 9)]
CASES += [
    ("areas 4 and 7 short", K1, short(K1, 4, 7)),
    ("all areas short, and 16 before 17", K2 + "building 67108862 0 1 1 0 0 47 0\n", [0] * 7),
    ("no building needs no issues", K2, short(K2)),
    ("each kind of issue", open(os.path.join(examples, "places.txt")).read(), ALL),
    ("a wall that is closed", open(os.path.join(examples, "corner.txt")).read(), ALL),
    ("a wall that leaks", open(os.path.join(examples, "pass-zergling.txt")).read(), ALL),
]


def refusal(q, places):
    """The refusals that these cases meet, with their values."""
    for k, (x, y, w, h, *extents) in enumerate(q["building"]):
        if any(side >= 2**31 for side in plain.footprint(q["building"][k]) + plain.collision(q["building"][k])):
            return "16 %d" % k
    for k, (has, number) in enumerate(zip(places, needs(q))):
        if has < number:
            return "17 %d" % (k + 2)


def answer(text, places):
    q = read(text)
    left, top, right, bottom = q["window"][0]
    if right > 8 * q["map"][0]:
        refused = "10"
    elif right - left > 1024:
        refused = "11 %d %d" % (right - left, bottom - top)
    else:
        refused = refusal(q, places)
    if refused:
        yield "refused " + refused
        yield "zero 0 0 0 0 0"
        yield "kept " + " ".join(str(n) for n in ALL)
        return
    p = {"map": q["map"], "cells": q["cells"], "obstacles": q["obstacle"], "window": q["window"][0], "mover": q["mover"][0], "buildings": q["building"]}
    start, end = tuple(q["start"][0]), tuple(q["end"][0])
    before, after = plain.free(p, []), plain.free(p, p["buildings"])
    points, baseline = plain.route(after, start, end), plain.route(before, start, end)
    verdict = 0 if start not in after else 1 if end not in after else 2 if points else 3 if not baseline else 4
    issues = [list(plain.issues(p, k)) for k in range(len(p["buildings"]))]
    yield "ok"
    for b, found in zip(p["buildings"], issues):
        yield "placement " + " ".join(str(n) for n in plain.footprint(b) + plain.collision(b) + [len(found)])
    yield "passage %d %d %d" % (verdict, bool(baseline), len(points))
    for k, found in enumerate(issues):
        for kind, index in found:
            yield "issue %d %d" % (k << 11 | KINDS.index(kind) << 9, index)
    for x, y in points:
        yield "point %d %d" % (x, y)
    used = needs(q)
    yield "zero %d %d %d %d %d" % tuple(used[1:6])
    used[0], used[6] = sum(map(len, issues)), len(points)
    yield "kept " + " ".join(str(has - n) for has, n in zip(ALL, used))


if __name__ == "__main__":
    with open(os.path.join(here, "stdout"), "w") as stdout:
        for k, (name, text, places) in enumerate(CASES):
            with open(os.path.join(here, "data", "%02d" % k), "wb") as file:
                file.write(b"".join(n.to_bytes(2, "big") for n in places) + pack(read(text)))
            said = list(answer(text, places))
            stdout.write("%02d\n" % k + "".join(line + "\n" for line in said))
            if len(sys.argv) > 1:
                print("%02d %-45s %s" % (k, name, said[0] if said[0] != "ok" else [s for s in said if s.startswith("passage")][0]))
