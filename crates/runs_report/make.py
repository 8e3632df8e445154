#!/usr/bin/env python3
"""Writes the inputs in data/, numbered as they stand here, and what document 01 says that the program prints for each, in stdout.

The answers come from examples/plain.py, and not from the program.
"""
import os
import sys

sys.dont_write_bytecode = True
here = os.path.dirname(os.path.abspath(__file__))
examples = os.path.join(here, "..", "..", "examples")
sys.path.insert(0, examples)
from pack import pack, read
from plain import prints

BASE = """
map 8 8
window 30 30 36 36
start 31 32
end 32 31
"""
B = "building 0 0 1 1 16 16 15 15\n"


def query(text, **changes):
    q = read(text)
    q.update(changes)
    return q


def packed(text, **changes):
    return pack(query(text, **changes))


def sized(width, height, obstacles=0, buildings=0):
    return packed("map %d %d\n" % (width, height) + BASE.replace("map 8 8", "") + "obstacle 0 0 1 1\n" * obstacles + B * buildings)


def window(left, top, right, bottom):
    return packed("map 64 64\nwindow %d %d %d %d\nstart %d %d\nend %d %d\n" % (left, top, right, bottom, left, top, right - 1, bottom - 1))


k1 = packed(BASE + B)
wide = sized(65, 1)
filled = packed("map 3 1\nwindow 0 0 20 8\nstart 0 0\nend 3 2\n")
crowded = packed("map 64 64\ncell 0 0 16\n" + "obstacle 0 0 8 8\n" * 32 + "window 100 100 140 140\nstart 100 100\nend 139 139\n" + "building 0 0 1 1 17 16 15 15\n" * 32)

CASES = [
    # lengths, and what the header alone decides
    ("nothing", b""),
    ("four bytes", k1[:4]),
    ("a header alone", k1[:5]),
    ("a header alone, 65 cells wide", wide[:5]),
    ("a header alone, 65 cells high", sized(1, 65)[:5]),
    ("a header alone, 33 obstacles", sized(8, 8, 33)[:5]),
    ("a header alone, as much as the program takes", sized(64, 64, 32, 63)[:5]),
    ("four bytes of a map 65 cells wide", wide[:4]),
    ("65 cells wide, whole", wide),
    ("65 cells wide, one byte long", wide + b"\0"),
    ("one byte short", k1[:-1]),
    ("one byte long", k1 + b"\0"),
    ("a filling bit set", filled[:-1] + bytes([filled[-1] | 1])),
    ("no filling bit set", filled),
    ("20,000 bytes", k1.ljust(20000, b"\0")),
    ("20,000 bytes, 65 cells wide", wide.ljust(20000, b"\0")),
    # what the program has room for
    ("63 buildings", sized(64, 64, 32, 63)),
    ("63 buildings, one byte long", sized(64, 64, 32, 63) + b"\0"),
    ("33 buildings", sized(8, 8, 0, 33)),
    ("32 buildings", sized(8, 8, 0, 32)),
    ("2,080 issues", crowded),
    ("a window of 40 by 40", window(8, 8, 48, 48)),
    ("a window of 41 by 39", window(8, 8, 49, 47)),
    ("a window of 40 by 41", window(8, 8, 48, 49)),
    ("a window of 41 by 40", window(8, 8, 49, 48)),
    ("a window of 3 by 419", window(8, 8, 11, 427)),
    ("a window of 3 by 420", window(8, 8, 11, 428)),
    # each other refusal that the program can give
    ("elevation 3", packed("map 8 8\ncell 7 7 30\n" + BASE.replace("map 8 8", ""))),
    ("elevation 2", packed("map 8 8\ncell 7 7 29\n" + BASE.replace("map 8 8", ""))),
    ("an obstacle with no width", packed(BASE + "obstacle 5 5 5 9\n")),
    ("an obstacle upside down", packed(BASE + "obstacle 5 9 6 5\n")),
    ("a mover's extent of 8,193", packed(BASE + "mover 0 0 0 8193\n")),
    ("a mover's extent of 8,192", packed(BASE + "mover 0 0 0 8192\n")),
    ("an empty window", packed(BASE + "window 30 30 30 36\n")),
    ("a window past the map", packed(BASE + "window 30 30 36 65\n")),
    ("a window left of the map", packed(BASE + "window -1 30 36 36\n")),
    ("start outside the window", packed(BASE + "start 29 32\n")),
    ("end outside the window", packed(BASE + "end 32 36\n")),
    ("a footprint with no width", packed(BASE + "building 0 0 0 1 0 0 0 0\n")),
    ("a footprint of 257 tiles", packed(BASE + "building 0 0 1 257 0 0 0 0\n")),
    ("a collision extent of 8,193", packed(BASE + "building 0 0 1 1 8193 0 0 0\n")),
    ("the first faulty building decides", packed(BASE + "building 0 0 1 1 8193 0 0 0\nbuilding 0 0 0 1 0 0 0 0\n")),
    ("a side outside i32", packed(BASE + "building 67108863 0 1 1 0 0 0 0\n")),
]

for name in sorted(os.listdir(examples)):
    if name.endswith(".txt"):
        with open(os.path.join(examples, name)) as file:
            CASES.append(("the example " + name[:-4], packed(file.read())))

if __name__ == "__main__":
    with open(os.path.join(here, "stdout"), "w") as stdout:
        for k, (name, data) in enumerate(CASES):
            with open(os.path.join(here, "data", "%02d" % k), "wb") as file:
                file.write(data)
            stdout.write("%02d\n%s" % (k, prints(data)))
            if len(sys.argv) > 1:
                print("%02d %-45s %5d bytes: %s" % (k, name, len(data), prints(data).split("\n")[0]))
