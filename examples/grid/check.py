#!/usr/bin/env python3
"""Holds the drawing to what it has to be and, where rules are left out, to what was recorded.

    check.py SOURCE [SIZE]

SIZE is 64, the default (half a minute), or 24 (two seconds). Ends with status 1 where something is otherwise.
"""
import io
import math
import sys
import zlib
from collections import Counter

import field
from ask import ask
from mesh import RULES, Faults, draw, write_obj, write_ply
from picture import GREY, write_png
from source import Tables
from trust import alternating, trusts
from winding import places

# Noise of seed 1: what is left without a rule, and without all of them.
NOISE = {
    24: {"turn": Faults(0, 80, 0, 0, 0), "own row": Faults(32, 0, 0, 0, 0), "centre": Faults(0, 0, 0, 11, 0),
         "all": Faults(32, 88, 0, 11, 0)},
    64: {"turn": Faults(0, 1500, 39, 0, 0), "own row": Faults(240, 0, 39, 0, 0), "centre": Faults(0, 0, 39, 299, 0),
         "all": Faults(240, 1560, 39, 299, 0)},
}
FOURFOLD = {24: 0, 64: 39}

# Noise of seed 1: its faces whose corners alternate by their trust, and times 2^-10.
TRUSTS = {24: ({"sure": 3701}, {"sure": 3012, "turned": 671, "unknown": 18}),
          64: ({"sure": 86811}, {"sure": 70473, "turned": 15932, "unknown": 406})}

# Whole numbers of seed 1, by the rules: open edges where zeros are kept.
ZEROS_KEPT = {24: 708, 64: 15248}

failures = 0


def hold(what, found, wanted):
    global failures
    failures += found != wanted
    print(f"{what}: {found}" + ("" if found == wanted else f", FAILS: {wanted} is wanted"))


def check_winding(tables):
    found = Counter((name, winding) for name, _, _, _, winding in places(tables) if winding != "right")
    hold("places wound the other way round", dict(sorted(found.items())),
         {("10_1_2", "turned"): 6, ("12_1_2", "turned"): 24, ("13_5_2", "turned"): 8})


def check_noise(tables, size):
    values = field.make("noise", size, 1)
    cubes = ask(tables, values, size)
    hold("noise, by the rules", draw(tables, values, size, cubes).faults(), Faults(0, 0, FOURFOLD[size], 0, 0))
    for rule, wanted in NOISE[size].items():
        rules = RULES - {rule} if rule in RULES else frozenset()
        hold(f"noise, without {rule}", draw(tables, values, size, cubes, rules).faults(), wanted)


def check_zeros(tables, size):
    for zeros, wanted in ("keep", ZEROS_KEPT[size]), ("above", 0), ("below", 0):
        values = field.make("whole", size, 1, zeros)
        faults = draw(tables, values, size, ask(tables, values, size)).faults()
        hold(f"whole numbers, zeros {zeros}: open, wrongly wound", faults[:2], (wanted, 0))


def check_trust(size):
    squares = list(alternating(field.make("noise", size, 1), size))
    for power, wanted in zip((0, -10), TRUSTS[size]):
        hold(f"noise times 2^{power}, faces by their trust", dict(trusts(squares, power)), wanted)


def read_ply(text):
    head, body = text.split("end_header\n")
    lines = [line.split() for line in body.splitlines()]
    count = int(head.split("element vertex ")[1].split()[0])
    return [list(map(float, line)) for line in lines[:count]], [list(map(int, line[1:])) for line in lines[count:]]


def read_obj(text):
    lines = [line.split() for line in text.splitlines()]
    return ([list(map(float, line[1:])) for line in lines if line[0] == "v"],
            [[int(number) - 1 for number in line[1:]] for line in lines if line[0] == "f"])


def volume(points, triangles):
    """Above 0 where the triangles, counter-clockwise, are seen from outside."""
    total = 0.0
    for a, b, c in ([points[vertex] for vertex in triangle] for triangle in triangles):
        total += a[0] * (b[1] * c[2] - b[2] * c[1]) + a[1] * (b[2] * c[0] - b[0] * c[2]) \
            + a[2] * (b[0] * c[1] - b[1] * c[0])
    return total / 6


def check_sphere(tables, size):
    values = field.make("sphere", size, 1)
    mesh = draw(tables, values, size, ask(tables, values, size))
    text = io.StringIO()
    write_ply(text, *mesh.numbered())
    points, triangles = read_ply(text.getvalue())
    text = io.StringIO()
    write_obj(text, *mesh.numbered())
    hold("sphere: the same in OBJ", read_obj(text.getvalue()) == (points, triangles), True)
    hold("sphere: points - edges + triangles", len(points) - len(triangles) // 2, 2)
    radius, middle = 0.4 * size, 3 * [size / 2 - 0.3]
    hold("sphere: points within 0.05 voxels", all(abs(math.dist(p, middle) - radius) < 0.05 for p in points), True)
    exact = 4 / 3 * math.pi * radius ** 3
    hold("sphere: volume within 1 %", abs(volume(points, triangles) / exact - 1) < 0.01, True)
    check_picture(*mesh.numbered())


def check_picture(points, triangles, side=64):
    file = io.BytesIO()
    write_png(file, points, triangles, side)
    data = file.getvalue().split(b"IDAT")[1]
    rows = zlib.decompressobj().decompress(data)
    pixels = [rows[y * (3 * side + 1) + 1 + 3 * x:][:3] for y in range(side) for x in range(side)]
    hold("picture: red points", sum(r > 2 * g for r, g, b in pixels), 0)
    seen = sum(r >= GREY[0] // 4 for r, g, b in pixels) / (math.pi * (0.46 * side) ** 2)
    hold("picture: a disc within 3 %", abs(seen - 1) < 0.03, True)


def main(checkout, size="64"):
    if size not in ("24", "64"):
        sys.exit("check.py SOURCE [SIZE]: SIZE is 24 or 64")
    tables, size = Tables(checkout), int(size)
    check_winding(tables)
    check_noise(tables, size)
    check_zeros(tables, size)
    check_sphere(tables, size)
    check_trust(size)
    sys.exit(f"{failures} failed" if failures else 0)


if __name__ == "__main__":
    main(*sys.argv[1:])
