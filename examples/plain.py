#!/usr/bin/env python3
"""plain.py FILE: what document 01 says that the program prints for a packed query, by the shortest reading and no care for speed.

It shares nothing with the proved crates, and is proved by nobody: it is there to be compared with them.
"""
import sys
from itertools import islice

STEPS = [(1, 0), (0, 1), (-1, 0), (0, -1), (1, 1), (-1, 1), (-1, -1), (1, -1)]


class Refused(Exception):
    pass


def refuse_if(test, number):
    if test:
        raise Refused(number)


def field(data, at, bits):
    number = int.from_bytes(data, "big")
    return number >> (8 * len(data) - at - bits) & (1 << bits) - 1


def signed(word):
    return word - 2**32 if word >= 2**31 else word


def header(data):
    return field(data, 0, 10) + 1, field(data, 10, 10) + 1, field(data, 20, 14), field(data, 34, 6)


def read(data):
    refuse_if(len(data) < 5, 18)
    width, height, obstacles, buildings = header(data[:5])
    refuse_if(width > 64 or height > 64 or obstacles > 32, 20)
    words_at = 40 + 5 * width * height
    bits = words_at + 32 * (4 * obstacles + 12 + 8 * buildings)
    size = (bits + 7) // 8
    refuse_if(len(data) < size, 18)
    refuse_if(len(data) > size or field(data, bits, 8 * size - bits) != 0, 19)
    cells = [field(data, 40 + 5 * k, 5) for k in range(width * height)]
    words = iter([field(data, words_at + 32 * k, 32) for k in range((bits - words_at) // 32)])
    take = lambda n: list(islice(words, n))
    rect = lambda: [signed(w) for w in take(4)]
    return {
        "map": (width, height), "cells": cells, "obstacles": [rect() for _ in range(obstacles)], "window": rect(),
        "start": take(2), "end": take(2), "mover": take(4), "buildings": [take(8) for _ in range(buildings)],
    }


def holds(r, x, y):
    return r[0] <= x < r[2] and r[1] <= y < r[3]


def meet(a, b):
    return a[0] < b[2] and b[0] < a[2] and a[1] < b[3] and b[1] < a[3]


def around(x, y, e):
    return [x - e[0], y - e[1], x + e[2] + 1, y + e[3] + 1]


def footprint(b):
    return [32 * b[0], 32 * b[1], 32 * (b[0] + b[2]), 32 * (b[1] + b[3])]


def collision(b):
    return around(32 * b[0] + 16 * b[2], 32 * b[1] + 16 * b[3], b[4:])


def in_map(q, r):
    width, height = q["map"]
    return r[0] >= 0 and r[1] >= 0 and r[2] <= 8 * width and r[3] <= 8 * height


def hollow(r):
    return r[0] >= r[2] or r[1] >= r[3]


def check(q):
    """Refusals 1 to 17, as far as a packed query within the program's limit can meet them."""
    refuse_if(any(cell >> 1 & 3 == 3 for cell in q["cells"]), 4)
    refuse_if(any(hollow(o) for o in q["obstacles"]), 7)
    refuse_if(max(q["mover"]) > 8192, 8)
    refuse_if(len(q["buildings"]) > 32, 9)
    w = q["window"]
    refuse_if(hollow(w) or not in_map(q, w), 10)
    refuse_if(not holds(w, *q["start"]), 13)
    refuse_if(not holds(w, *q["end"]), 13)
    for b in q["buildings"]:
        refuse_if(not (1 <= b[2] <= 256 and 1 <= b[3] <= 256), 14)
        refuse_if(max(b[4:]) > 8192, 15)
        refuse_if(any(not -2**31 <= side < 2**31 for side in footprint(b) + collision(b)), 16)
    width, height = w[2] - w[0], w[3] - w[1]
    refuse_if((width + 1) * (height + 1) > 41 * 41 or width * height > 1600, 17)


def issues(q, k):
    width = q["map"][0]
    mine = footprint(q["buildings"][k])
    inside = in_map(q, mine)
    if not inside or not in_map(q, collision(q["buildings"][k])):
        yield "OutOfMap", 0
    if inside and any(q["cells"][y * width + x] & 24 != 24 for y in range(mine[1] // 8, mine[3] // 8) for x in range(mine[0] // 8, mine[2] // 8)):
        yield "UnbuildableTerrain", 0
    for i, o in enumerate(q["obstacles"]):
        if meet(o, mine):
            yield "OverlapsObstacle", i
    for i, b in enumerate(q["buildings"]):
        if i != k and meet(footprint(b), mine):
            yield "OverlapsBuilding", i


def free(q, buildings):
    """The window's centers where the mover's box lies within the map and meets nothing."""
    width = q["map"][0]
    stops = [[8 * (k % width), 8 * (k // width), 8 * (k % width) + 8, 8 * (k // width) + 8] for k, cell in enumerate(q["cells"]) if cell < 16]
    stops += q["obstacles"] + [collision(b) for b in buildings]
    w = q["window"]
    boxes = {(x, y): around(x, y, q["mover"]) for x in range(w[0], w[2]) for y in range(w[1], w[3])}
    return {at for at, box in boxes.items() if in_map(q, box) and not any(meet(box, s) for s in stops)}


def route(centers, start, end):
    """Chains of fewest steps, and of those the first by the steps' places in their order: each round goes on from the chains in that order."""
    if start not in centers or end not in centers:
        return []
    seen, chains = {start}, [[start]]
    while chains:
        longer = []
        for chain in chains:
            x, y = chain[-1]
            if (x, y) == end:
                return chain
            for dx, dy in STEPS:
                if {(x + dx, y + dy), (x + dx, y), (x, y + dy)} <= centers and (x + dx, y + dy) not in seen:
                    seen.add((x + dx, y + dy))
                    longer.append(chain + [(x + dx, y + dy)])
        chains = longer
    return []


def report(data):
    q = read(data)
    check(q)
    start, end = tuple(q["start"]), tuple(q["end"])
    before, after = free(q, []), free(q, q["buildings"])
    points, baseline = route(after, start, end), route(before, start, end)
    verdict = (
        "StartBlocked" if start not in after else "EndBlocked" if end not in after else "Open" if points
        else "AlreadyDisconnected" if not baseline else "BlockedWithinWindow"
    )
    yield "check ok"
    for k, b in enumerate(q["buildings"]):
        found = list(issues(q, k))
        yield "placement %d footprint %d %d %d %d collision %d %d %d %d issues %d" % (k, *footprint(b), *collision(b), len(found))
        for kind, index in found:
            yield "issue %s %d" % (kind, index)
    yield "passage " + verdict
    yield "baseline %d" % bool(baseline)
    yield "route %d" % len(points)
    for x, y in points:
        yield "%d %d" % (x, y)


def prints(data):
    try:
        return "".join(line + "\n" for line in report(data))
    except Refused as refusal:
        return "refused %d\n" % refusal.args


if __name__ == "__main__":
    with open(sys.argv[1], "rb") as file:
        sys.stdout.write(prints(file.read()))
