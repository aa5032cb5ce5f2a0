#!/usr/bin/env python3
"""How many ambiguous cubes get another tiling where all distances are scaled by a power of two.

    scale.py SOURCE [FIELD [SIZE]]
"""
import sys
from array import array

import field
from ask import ask
from chooser import mc33
from mesh import draw
from source import Tables

AMBIGUOUS = (3, 4, 6, 7, 10, 12, 13)
POWERS = (-4, -8, -10, -12, 31, 32, 62, 64, 100)


def is_ambiguous(choice):
    return choice.code == mc33.NO_TILING or int(choice.name.split("_")[0]) in AMBIGUOUS


def tilings(cubes):
    return [choice[:3] for _, choice in cubes if is_ambiguous(choice)]


def main(checkout, name="rough", size="64"):
    tables, size = Tables(checkout), int(size)
    values = field.make(name, size, 1)
    plain = tilings(ask(tables, values, size))
    print(f"{name}, {size} values a side: {len(plain)} ambiguous cubes")
    for power in POWERS:
        scaled = array("f", (value * 2.0 ** power for value in values))
        cubes = ask(tables, scaled, size)
        other = sum(a != b for a, b in zip(plain, tilings(cubes)))
        faults = draw(tables, scaled, size, cubes).faults()
        print(f"2^{power}: {other} get another tiling, {other / len(plain):.2%}; open edges {faults.open}, "
              f"wrongly wound {faults.wrongly_wound}, cubes without a tiling {faults.untiled}")


if __name__ == "__main__":
    main(*sys.argv[1:])
