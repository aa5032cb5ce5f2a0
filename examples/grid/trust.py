#!/usr/bin/env python3
"""How many faces of a grid can be trusted, as it is and where all distances are scaled by a power of two.

    trust.py [FIELD [SIZE]]
"""
import sys
from collections import Counter

import field
from chooser import mc33
from scale import POWERS


def alternating(values, size):
    """The values of each face whose corners alternate, in the order of corners 0, 1, 2, 3 of face 5."""
    steps = (1, size), (size, size ** 2), (size ** 2, 1)
    last = size - 1
    for place in range(size ** 3):
        ends = place % size == last, place // size % size == last, place // size ** 2 == last
        for axis, (u, v) in enumerate(steps):
            if not ends[axis] and not ends[(axis + 1) % 3]:
                square = [values[place + step] for step in (0, u, u + v, v)]
                if [value > 0 for value in square] in ([True, False, True, False], [False, True, False, True]):
                    yield square


def trusts(squares, power):
    """How many faces have which trust, scaled by 2^power."""
    return Counter(mc33.trust_face([value * 2.0 ** power for value in square + square], 5).trust for square in squares)


def main(name="rough", size="64"):
    size = int(size)
    squares = list(alternating(field.make(name, size, 1), size))
    print(f"{name}, {size} values a side: {len(squares)} faces whose corners alternate")
    for power in (0, *POWERS):
        found = trusts(squares, power)
        print(f"2^{power}:", ", ".join(f"{trust} {found[trust]}" for trust in ("sure", "turned", "unknown")))


if __name__ == "__main__":
    main(*sys.argv[1:])
