#!/usr/bin/env python3
"""pack.py FILE.txt..: writes the packed query of each readable file beside it, without the .txt.

A readable query has one thing to a line; '#' starts a comment that stands alone on its line.

    map WIDTH HEIGHT                    in cells; all of them plain ground, 24
    row Y CELLS                         the cells of row Y from the left, a letter each:
                                        '.' plain ground (24)  'u' walkable, not buildable (16)  'x' neither (0)  'r' a ramp (17)
    cell X Y BYTE                       one cell by its byte, 0 to 31
    obstacle LEFT TOP RIGHT BOTTOM      in pixels, any number of them
    window LEFT TOP RIGHT BOTTOM
    start X Y
    end X Y
    mover LEFT TOP RIGHT BOTTOM         extents around the center; all 0 where the line is missing
    building X Y WIDTH HEIGHT LEFT TOP RIGHT BOTTOM
                                        tile, size in tiles, collision extents; any number of them

What a query of the program may not hold can still be written here: it is there to be refused.
"""
import sys

CELLS = {".": 24, "u": 16, "x": 0, "r": 17}


def read(text):
    query = {"obstacle": [], "building": [], "mover": [[0, 0, 0, 0]]}
    for line in text.splitlines():
        words = line.split()
        if not words or words[0].startswith("#"):
            continue
        name, values = words[0], words[1:]
        if name == "map":
            width, height = int(values[0]), int(values[1])
            query["map"] = (width, height)
            query["cells"] = [24] * (width * height)
        elif name == "row":
            for x, letter in enumerate(values[1]):
                query["cells"][int(values[0]) * width + x] = CELLS[letter]
        elif name == "cell":
            x, y, byte = map(int, values)
            query["cells"][y * width + x] = byte
        elif name in ("obstacle", "building"):
            query[name].append([int(v) for v in values])
        else:
            query[name] = [[int(v) for v in values]]
    return query


def pack(query):
    """The fields, each a number and its bits, most significant first; zero bits fill the last byte."""
    width, height = query["map"]
    fields = [(width - 1, 10), (height - 1, 10), (len(query["obstacle"]), 14), (len(query["building"]), 6)]
    fields += [(cell, 5) for cell in query["cells"]]
    for name in ("obstacle", "window", "start", "end", "mover", "building"):
        fields += [(value % 2**32, 32) for values in query[name] for value in values]
    number, bits = 0, 0
    for value, size in fields:
        number, bits = number << size | value, bits + size
    filling = -bits % 8
    return (number << filling).to_bytes((bits + filling) // 8, "big")


if __name__ == "__main__":
    for name in sys.argv[1:]:
        with open(name) as file:
            packed = pack(read(file.read()))
        with open(name.removesuffix(".txt"), "wb") as file:
            file.write(packed)
