"""The family of each set of corners, by document 02's rule, which is worked out here anew."""
import unittest

import mc33

OFFSETS = [(0, 0, 0), (1, 0, 0), (1, 1, 0), (0, 1, 0), (0, 0, 1), (1, 0, 1), (1, 1, 1), (0, 1, 1)]
FIRSTS = 1, 3, 5, 65, 7, 21, 37, 15, 39, 85, 23, 30, 165, 29

# Where a quarter turn about z, and one about x, brings a corner. All rotations are made of these two.
ABOUT_Z = [OFFSETS.index((1 - y, x, z)) for x, y, z in OFFSETS]
ABOUT_X = [OFFSETS.index((x, 1 - z, y)) for x, y, z in OFFSETS]


def corners(number):
    return [corner for corner in range(8) if number >> corner & 1]


def turned(number, turn):
    return sum(1 << turn[corner] for corner in corners(number))


def made(first):
    """What the rotations and taking the complement make of a set."""
    found, new = set(), {first, 255 - first}
    while new:
        found |= new
        new = {turned(number, turn) for number in new for turn in (ABOUT_Z, ABOUT_X)} - found
    return found


def rows(first):
    """By size, then by dictionary order of the sorted corners."""
    return sorted(made(first), key=lambda number: (len(corners(number)), corners(number)))


class Families(unittest.TestCase):
    def test_by_the_rule(self):
        wanted = {0: (0, -1), 255: (0, -1)}
        for case, first in enumerate(FIRSTS, 1):
            wanted.update((number, (case, row)) for row, number in enumerate(rows(first)))
        self.assertEqual({number: mc33.family_of(number) for number in range(256)}, wanted)

    def test_each_case_has_its_configurations(self):
        for case, first in enumerate(FIRSTS, 1):
            self.assertEqual(range(len(made(first))), mc33.CONFIGURATIONS[case])

    def test_no_reflection(self):
        mirror = [OFFSETS.index((1 - x, y, z)) for x, y, z in OFFSETS]
        other = [case for case, first in enumerate(FIRSTS, 1) if turned(first, mirror) not in made(first)]
        self.assertEqual(other, [11, 14])

    def test_names(self):
        self.assertEqual(mc33.family_of(5)._asdict(), {"case": 3, "configuration": 0})
