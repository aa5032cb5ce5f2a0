#!/usr/bin/env python3
"""Makes a field of distances, asks the chooser layer by layer, draws the tilings and counts what is wrong.

    draw.py SOURCE --field rough --picture rough.png --mesh rough.ply

SOURCE is a checkout of baby_shark, whose tilings are drawn. Needs target/staticlib/libmc33.so.
"""
import argparse
from pathlib import Path

import field
from ask import ask
from mesh import RULES, draw, write_obj, write_ply
from picture import write_png
from source import Tables


def arguments():
    parser = argparse.ArgumentParser(description="From a grid of distances to a mesh.")
    parser.add_argument("source", help="a checkout of baby_shark")
    parser.add_argument("--field", choices=field.FIELDS, default="noise")
    parser.add_argument("--size", type=int, default=64, help="values along each side (64)")
    parser.add_argument("--seed", type=int, default=1)
    parser.add_argument("--zeros", choices=["above", "below", "keep"], default="above",
                        help="lift values nearer to 0 than 1e-6, zeros to this side; or keep them")
    parser.add_argument("--as-answered", action="store_true", help="draw without the rules of docs/USING.md")
    parser.add_argument("--mesh", metavar="FILE", help="write a mesh, .ply or .obj")
    parser.add_argument("--picture", metavar="FILE", help="write a picture, .png")
    given = parser.parse_args()
    if given.size < 2:
        parser.error("--size: a cube needs 2")
    if given.mesh and Path(given.mesh).suffix not in (".ply", ".obj"):
        parser.error("--mesh: a name that ends in .ply or .obj")
    return given


def main():
    given = arguments()
    tables = Tables(given.source)
    values = field.make(given.field, given.size, given.seed, given.zeros)
    cubes = ask(tables, values, given.size)
    mesh = draw(tables, values, given.size, cubes, frozenset() if given.as_answered else RULES)
    faults = mesh.faults()
    print(f"{(given.size - 1) ** 3} cubes, {len(cubes)} of them not empty; {len(mesh.triangles)} triangles")
    print(f"open edges {faults.open}, wrongly wound edges {faults.wrongly_wound}, "
          f"edges of four triangles {faults.fourfold}")
    print(f"centres outside their cube {faults.astray}, cubes without a tiling {faults.untiled}")
    if given.mesh:
        with open(given.mesh, "w") as file:
            (write_ply if given.mesh.endswith(".ply") else write_obj)(file, *mesh.numbered())
    if given.picture:
        with open(given.picture, "wb") as file:
            write_png(file, *mesh.numbered())


if __name__ == "__main__":
    main()
