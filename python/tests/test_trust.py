"""Whether a face answer is the true join, by exact fractions."""
import math
import unittest
from array import array
from fractions import Fraction
from itertools import product
from random import Random

import mc33

from .support import TIED, said

# The corners of each face, a to d, as document 01 has them.
CORNERS = {1: (0, 4, 5, 1), 2: (1, 5, 6, 2), 3: (2, 6, 7, 3), 4: (3, 7, 4, 0), 5: (0, 3, 2, 1), 6: (4, 7, 6, 5)}
SIGNED = [*CORNERS, *(-face for face in CORNERS)]

# The corner that a cube at y = 1, x = 1 or z = 1 beside this one has in the place of this one's.
BESIDE = {3: (1, {3: 0, 2: 1, 6: 5, 7: 4}), 2: (4, {1: 0, 2: 3, 5: 4, 6: 7}), 6: (5, {4: 0, 5: 1, 6: 2, 7: 3})}


def single(value):
    return array("f", [value])[0]


def of_bits(*bits):
    return memoryview(array("I", bits)).cast("B").cast("f").tolist()


# The range's ends, and the values beside them.
BELOW, LEAST, MOST, ABOVE = of_bits(0x358637BC, 0x358637BD, 0x5F000000, 0x5F000001)


def at(face, a, b, c, d):
    """A cube with these values round the face."""
    values = dict(zip(CORNERS[abs(face)], (a, b, c, d)))
    return [values.get(corner, -1.0) for corner in range(8)]


def exact(a, b, c, d):
    """E and S."""
    first, second = Fraction(a) * Fraction(c), Fraction(b) * Fraction(d)
    return first - second, abs(first) + abs(second)


def is_known(a, b, c, d):
    in_range = all(LEAST <= abs(x) <= MOST for x in (a, b, c, d))
    return in_range and (a > 0) == (c > 0) != (b > 0) == (d > 0)


def trust_of(answer, face, a, b, c, d):
    if not is_known(a, b, c, d):
        return "unknown"
    difference = exact(a, b, c, d)[0]
    return "sure" if difference == 0 or answer == (face * Fraction(a) * difference > 0) else "turned"


def signed(random, a, b, c, d):
    """The magnitudes with signs that alternate."""
    side = random.choice((1, -1))
    return side * a, -side * b, side * c, -side * d


def near_tie(random, magnitude):
    """a×c and b×d are some units in the last place apart."""
    a, b, c = (single(magnitude(random)) for _ in range(3))
    d = single(a * c / b * (1 + random.randint(-4, 4) * 2.0**-24))
    return signed(random, a, b, c, d)


def usual(random):
    return random.uniform(0.01, 2)


def small(random):
    return 10 ** random.uniform(-5, -3)


def wide(random):
    return 2 ** random.uniform(-12, 25)


class Trust(unittest.TestCase):
    def held(self, face, *values):
        """What is said of a face is what exact numbers say; gives the trust."""
        cube = at(face, *values)
        said = mc33.trust_face(cube, face)
        self.assertEqual(said.answer, mc33.test_face(cube, face), cube)
        self.assertEqual(said.trust, trust_of(said.answer, face, *values), (face, cube))
        difference, total = exact(*values)
        if is_known(*values) and abs(difference) >= Fraction(1, 2**22) * max(1, total):
            self.assertEqual(said.trust, "sure")
        return said.trust

    def test_by_hand(self):
        for corners, trusted in (
                ([2, -1, 2, -1], (True, "sure")), ([1, -2, 1, -2], (False, "sure")), ([1, -1, 1, -1], (True, "sure")),
                ([1e-4, -2e-4, 1e-4, -2e-4], (True, "turned")), ([4096, -24929, 4096, -673], (True, "turned")),
                ([1, 1, 1, 1], (True, "unknown")), ([0, -1, 1, -1], (True, "unknown"))):
            with self.subTest(corners=corners):
                said = mc33.trust_face(corners + [-1] * 4, 5)
                self.assertEqual((said, (said.answer, said.trust)), (trusted, trusted))

    def test_one_premise_is_not_enough(self):
        # |E| is 2^-24, 1.06 × 2^-23, and 2 where the products are above 2^24: ties, and turned.
        for bits in ((0xBA000000, 0x39800000, 0xB9800000, 0x39800000), (0xBF0AAAAF, 0x3F3B1287, 0xBEEC4EC4, 0x3EAF2982),
                     (0xC5045000, 0x42E20000, 0xC5F7A800, 0x4810FDC0)):
            for face in SIGNED:
                self.assertEqual(self.held(face, *of_bits(*bits)), "turned")
                self.assertEqual(mc33.trust_face(at(face, *of_bits(*bits)), face).answer, face > 0)

    def test_the_range(self):
        self.assertEqual((LEAST, MOST), (single(1e-6), 2.0**63))
        for a, c in product((BELOW, LEAST, MOST, ABOVE), repeat=2):
            known = BELOW not in (a, c) and ABOVE not in (a, c)
            for face in SIGNED:
                self.assertEqual(self.held(face, a, -1, c, -1) != "unknown", known)
                self.assertEqual(self.held(face, -1, a, -1, c) != "unknown", known)

    def test_alternating_alone_is_known(self):
        for signs in product((1, -1, 0.0, -0.0), repeat=4):
            known = signs in ((1, -1, 1, -1), (-1, 1, -1, 1))
            self.assertEqual(self.held(5, *signs) != "unknown", known)

    def test_near_ties(self):
        random = Random(8)
        for magnitude in usual, small, wide:
            seen = {self.held(random.choice(SIGNED), *near_tie(random, magnitude)) for _ in range(3000)}
            self.assertLessEqual({"sure", "turned"}, seen, magnitude.__name__)

    def test_usual_faces_are_sure(self):
        random = Random(9)
        for _ in range(5000):
            values = signed(random, *(single(usual(random)) for _ in range(4)))
            self.assertEqual(self.held(random.choice(SIGNED), *values), "sure")

    def test_both_cubes_at_a_face_tell_the_same(self):
        random = Random(10)
        for _ in range(2000):
            face, (other, corners) = random.choice(list(BESIDE.items()))
            cube = at(face, *near_tie(random, random.choice((usual, small, wide))))
            beside = [random.uniform(-2, 2) for _ in range(8)]
            for ours, theirs in corners.items():
                beside[theirs] = cube[ours]
            side = random.choice((1, -1))
            self.assertEqual(mc33.trust_face(cube, side * face), mc33.trust_face(beside, side * other))

    def test_refusals(self):
        answered = [face for face in range(-128, 128) if said(mc33.trust_face, TIED, face) != 4]
        self.assertEqual(answered, sorted(SIGNED))
        for value in math.nan, math.inf, -math.inf:
            for corner in range(8):
                broken = TIED[:corner] + [value] + TIED[corner + 1:]
                self.assertEqual(said(mc33.trust_face, broken, 5), 3)
                self.assertEqual(said(mc33.trust_face, broken, 7), 4)
