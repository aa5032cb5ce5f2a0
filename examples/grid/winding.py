#!/usr/bin/env python3
"""Which way round each tiling is wound, for every place that a choice can name.

    winding.py SOURCE

A line that a tiling draws on a face of the cube is right if, seen from outside the cube, the corners above 0 lie to
its left, and turned if they lie to its right. Such a triangle, counter-clockwise, is seen from the side above 0.
"""
import sys
from collections import Counter

from chooser import mc33
from source import Tables


def face_lines(tiling):
    """The lines that one triangle alone runs; every other has to be run once in each direction."""
    runs = Counter()
    for a, b, c in zip(tiling[::3], tiling[1::3], tiling[2::3]):
        runs.update([(a, b), (b, c), (c, a)])
    assert set(runs.values()) == {1}
    return [(start, end) for start, end in runs if (end, start) not in runs]


def middle(tables, edge):
    first, second = (tables.offsets[corner] for corner in tables.edges[edge])
    return [(a + b) / 2 for a, b in zip(first, second)]


def is_right(tables, above, line):
    """Whether the corner above 0 of the edge where the line starts lies to the line's left."""
    start, end = (middle(tables, edge) for edge in line)
    [corner] = [corner for corner in tables.edges[line[0]] if above >> corner & 1]
    along = [b - a for a, b in zip(start, end)]
    aside = [b - a for a, b in zip(start, tables.offsets[corner])]
    [axis] = [axis for axis in range(3) if start[axis] == end[axis] in (0, 1)]
    across, last = (axis + 1) % 3, (axis + 2) % 3
    turn = along[across] * aside[last] - along[last] * aside[across]
    return (turn > 0) == (start[axis] == 1)


def rows_of(name, configuration):
    """The rows that a choice of this tiling can name for a configuration."""
    others = {"10_1_2": 5, "12_1_2": 23, "13_5_2": 1}
    own = [configuration] if name != "13_5_2" else []
    return own + ([others[name] - configuration] if name in others else [])


def judge(tables, above, tiling):
    sides = {is_right(tables, above, line) for line in face_lines(tiling)}
    return "mixed" if len(sides) == 2 else "right" if sides == {True} else "turned"


def places(tables):
    """Every place that a choice can name: name, configuration, row, column, and what the winding is there."""
    for above in range(256):
        case, configuration = mc33.family_of(above)
        for code, name in mc33.TILINGS.items():
            if int(name.split("_")[0]) == case:
                for row in rows_of(name, configuration):
                    for column, tiling in enumerate(tables.tilings[code][row]):
                        yield name, configuration, row, column, judge(tables, above, tiling)


def main(checkout):
    tables = Tables(checkout)
    found = list(places(tables))
    print(dict(Counter(winding for *_, winding in found)))
    turned = Counter((name, row == configuration) for name, configuration, row, _, winding in found
                     if winding != "right")
    for (name, own), number in turned.items():
        print(f"{name}, row {'of the configuration' if own else 'of another configuration'}: {number} turned")
    [code] = [code for code, name in mc33.TILINGS.items() if name == "13_5_2"]
    families = [(above, *mc33.family_of(above)) for above in range(256)]
    own = [judge(tables, above, tiling) for above, case, row in families if case == 13
           for tiling in tables.tilings[code][row]]
    print(f"13_5_2, drawn at the configuration's own row: {dict(Counter(own))}")


if __name__ == "__main__":
    main(sys.argv[1])
