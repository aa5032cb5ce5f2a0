"""The routines for a single cube, on document 01's cubes and at the edges of their numbers."""
import math
import unittest
from array import array
from itertools import product
from random import Random
from unittest import mock

import mc33
from mc33 import routines
from mc33.library import ChoiceRecord, EdgeRecord, FaceRecord, FaceTrustRecord

from .support import LEVEL, TIED, needs_numpy, numpy, said

# Document 01, 'Cubes to check by hand': case, configuration, corners that are not the last number, name, row, and
# unsettled where it is said there or in document 02, Change 2; then readings by Change 7. A diagonal matches in each
# that picks an edge.
BY_HAND = [
    (3, 0, {0: 2, 2: 2}, -1, "3_2", 0, None, 1),
    (3, 0, {0: 1, 2: 1, 1: -2, 3: -2}, -1, "3_1", 0, None, 1),
    (3, 0, {0: 1, 2: 1}, -1, "3_2", 0, None, 1),
    (3, 12, {5: -1, 7: -1}, 1, "3_1", 12, None, 1),
    (3, 0, {0: 1, 2: 1, 1: -(1 + 2**-23)}, -1, "3_1", 0, None, 1),
    (3, 0, {0: 1, 2: 1 - 2**-24}, -1, "3_2", 0, None, 1),
    (4, 0, {0: 1, 6: 1}, -1, "4_1", 0, None, 3),
    (4, 0, {0: 9, 6: 9}, -1, "4_2", 0, 0, 3),
    (4, 0, {0: 3, 6: 3}, -1, "4_2", 0, 3, 3),
    (4, 0, {}, 1, "4_2", 0, 3, 3),
    (7, 0, {0: 1, 2: 1, 5: 1}, -1, "7_4_2", 0, None, 6),
    (10, 0, {0: 1, 1: 1, 6: 1, 7: 1}, -1, "10_1_2", 5, 1, 3),
    (12, 0, {0: 1, 1: 1, 2: 1, 7: 1}, -1, "12_1_2", 23, 2, 4),
    (13, 0, {0: 1, 2: 1, 5: 1, 7: 1}, -1, "13_1_", 0, None, 6),
    (13, 0, {0: 1, 2: 1, 5: 1, 7: 1}, -2, "13_1", 0, None, 6),
]
WITH_CENTRE = {"7_3", "10_2", "10_2_", "12_2", "12_2_", "13_3", "13_3_", "13_4"}


class Choose(unittest.TestCase):
    def test_cubes_by_hand(self):
        for case, configuration, named, other, name, row, unsettled, readings in BY_HAND:
            with self.subTest(case=case, corners=named):
                choice = mc33.choose(case, configuration, [named.get(corner, other) for corner in range(8)])
                self.assertEqual((choice.name, choice.row), (name, row))
                self.assertIn(unsettled, (None, choice.unsettled))
                self.assertEqual((choice.unmatched, choice.readings), (0, readings))

    def test_a_cube_without_a_tiling(self):
        self.assertEqual(mc33.choose(13, 0, [1, 2, 1, 2, 1, 4, 1, 4]), (mc33.NO_TILING, 0, 5, 0, 0, 0, 6))
        self.assertEqual(mc33.choose(0, -1, TIED), (mc33.EMPTY, 0, 0, 0, 0, 0, 0))

    def test_picks_without_a_match(self):
        # As docs/DIFFERENCES.md, F11, has them from the Rust: one pick, two and three; and edge 0 by a match.
        for case, configuration, corners, choice in (
                (4, 0, [-1, -1, 1, -1, -1, 1, -1, -1], (6, 0, 0, 0, 0, 3, 3)),
                (4, 0, [-1, 1, -1, -1, -1, -1, -1, 1], (5, 0, 0, 0, 0, 0, 3)),
                (6, 24, [-1, 1, 1, 2, 1, -1, 1, -1], (8, 24, 0, 0, 0, 1, 2)),
                (7, 7, [-1, -1, -1, 2, 1, -2, 1, 1], (14, 7, 0, 0, 0, 3, 6)),
                (10, 1, [-1, 2, 1, 1, -1, 1, 2, -1], (19, 1, 0, 0, 0, 1, 3)),
                (12, 0, [-1, -1, 1, 1, 3, 1, 1, 1], (25, 0, 0, 0, 0, 2, 4))):
            with self.subTest(case=case, corners=corners):
                self.assertEqual(mc33.choose(case, configuration, corners), choice)

    def test_every_case_and_configuration(self):
        for case in range(-2, 17):
            for configuration in range(-128, 128):
                answer = said(mc33.choose, case, configuration, TIED)
                if case not in mc33.CONFIGURATIONS:
                    self.assertEqual(answer, 1)
                elif configuration not in mc33.CONFIGURATIONS[case]:
                    self.assertEqual(answer, 2)
                else:
                    self.assertIsInstance(answer, mc33.Choice)

    def test_readings(self):
        # Document 02, Change 7: the least and the most of each case, each met, and none else.
        figures = {3: {1}, 4: {3}, 6: {1, 2}, 7: {3, 6}, 10: {2, 3}, 12: {2, 4}, 13: {6, 7}}
        random = Random(2)
        for case, configurations in mc33.CONFIGURATIONS.items():
            cubes = ([random.uniform(-2, 2) for _ in range(8)] for _ in range(1000))
            seen = {mc33.choose(case, random.choice(configurations), cube).readings for cube in cubes}
            self.assertEqual((case, seen), (case, figures.get(case, {0})))
            self.assertEqual(mc33.MOST_READINGS[case], max(seen))

    def test_names_are_of_their_case(self):
        random, seen = Random(1), set()
        for _ in range(20000):
            case = random.choice((1, 2, 3, 4, 5, 6, 7, 8, 9, 10, 11, 12, 13, 13, 13, 13, 14))
            configuration = random.choice(mc33.CONFIGURATIONS[case])
            choice = mc33.choose(case, configuration, [random.uniform(-2, 2) for _ in range(8)])
            if choice.code != mc33.NO_TILING:
                seen.add(choice.name)
                self.assertEqual(choice.name.split("_")[0], str(case))
                self.assertEqual(choice.centre, choice.name in WITH_CENTRE)
        self.assertGreater(len(seen), 35)

    def test_names_are_in_order(self):
        def parts(name):
            return [int(part or -1) for part in name.split("_")]

        self.assertEqual(sorted(mc33.TILINGS), list(range(1, 39)))
        names = [mc33.TILINGS[code] for code in range(1, 39)]
        self.assertEqual(sorted(set(names), key=parts), names)

    def test_corners_of_any_kind(self):
        for corners in (tuple(LEVEL), array("d", LEVEL), iter(LEVEL), map(float, LEVEL)):
            self.assertEqual(mc33.choose(4, 0, corners), (6, 0, 0, 0, 3, 0, 3))

    @needs_numpy
    def test_numpy(self):
        for kind in ("f4", "f8", "i4", ">f4"):
            level = numpy.array(LEVEL, kind)
            self.assertEqual(mc33.choose(numpy.int8(4), numpy.int64(0), level), (6, 0, 0, 0, 3, 0, 3))
            self.assertEqual(mc33.choose_signs(level), (6, 0, 0, 0, 3, 0, 3))

    def test_refusals(self):
        self.assertEqual(said(mc33.choose, 4, 0, LEVEL[:7] + [math.inf]), 3)
        with self.assertRaises(mc33.Refused) as caught:
            mc33.choose(15, 99, LEVEL[:7] + [math.nan])
        self.assertEqual((caught.exception.number, caught.exception.place), (1, None))

    def test_a_code_and_a_number_that_are_not_known(self):
        library = mock.Mock()
        with mock.patch.object(routines, "loaded", lambda: library):
            library.mc33_choose.return_value = ChoiceRecord(0, 200)
            with self.assertRaisesRegex(ValueError, "code 200"):
                mc33.choose(3, 0, TIED)
            library.mc33_choose.return_value = ChoiceRecord(13)
            with self.assertRaisesRegex(mc33.Refused, "^refused 13: .*does not know"):
                mc33.choose(3, 0, TIED)
            library.mc33_choose_signs.return_value = ChoiceRecord(0, 39)
            with self.assertRaisesRegex(ValueError, "code 39"):
                mc33.choose_signs(TIED)
            library.mc33_edge.return_value = EdgeRecord(0, 9)
            with self.assertRaisesRegex(ValueError, "kind 9"):
                mc33.read_edge(TIED, 0)
            library.mc33_face.return_value = FaceRecord(11)
            with self.assertRaisesRegex(mc33.Refused, "refused 11"):
                mc33.test_face(TIED, 1)
            for trust in 0, 4, 255:
                library.mc33_trust_face.return_value = FaceTrustRecord(0, 1, trust)
                with self.assertRaisesRegex(ValueError, f"trust {trust}"):
                    mc33.trust_face(TIED, 1)
            library.mc33_trust_face.return_value = FaceTrustRecord(11)
            with self.assertRaisesRegex(mc33.Refused, "refused 11"):
                mc33.trust_face(TIED, 1)


class Signs(unittest.TestCase):
    def test_choices_are_those_of_the_family(self):
        random = Random(4)
        for number, off in product(range(256), (-0.75, 0.0, -0.0)):
            cube = [2 - random.random() if number >> corner & 1 else off for corner in range(8)]
            self.assertEqual(mc33.choose_signs(cube), mc33.choose(*mc33.family_of(number), cube))

    def test_without_zeros_no_pick_is_without_a_match(self):
        random = Random(6)
        cubes = ([random.choice((-1, 1)) * (2 - random.random()) for _ in range(8)] for _ in range(5000))
        choices = [mc33.choose_signs(cube) for cube in cubes]
        self.assertEqual({choice.unmatched for choice in choices}, {0})
        self.assertEqual({choice.name.split("_")[0] for choice in choices}, {"", *map(str, range(1, 15))})

    def test_cubes_by_hand(self):
        # The first two are in document 01, with the family that their signs have. No zero counts as above 0.
        self.assertEqual(mc33.choose_signs([2, -1, 2, -1, -1, -1, -1, -1]).name, "3_2")
        self.assertEqual(mc33.choose_signs([1, -2, 1, -2, -1, -1, -1, -1]).name, "3_1")
        self.assertEqual(mc33.choose_signs([-1] * 8), (mc33.EMPTY, 0, 0, 0, 0, 0, 0))
        self.assertEqual(mc33.choose_signs([0.0, -0.0] * 4), (mc33.EMPTY, 0, 0, 0, 0, 0, 0))
        self.assertEqual(mc33.choose_signs([2**-149] + [0.0, -0.0] * 3 + [-1]).name, "1")

    def test_refusals(self):
        for value in math.nan, math.inf, -math.inf:
            for corner in range(8):
                self.assertEqual(said(mc33.choose_signs, LEVEL[:corner] + [value] + LEVEL[corner + 1:]), 3)


class Faces(unittest.TestCase):
    def test_faces(self):
        self.assertIs(mc33.test_face(TIED, 5), True)
        self.assertIs(mc33.test_face(TIED, -5), False)
        answered = [face for face in range(-128, 128) if said(mc33.test_face, TIED, face) != 4]
        self.assertEqual(answered, [-6, -5, -4, -3, -2, -1, 1, 2, 3, 4, 5, 6])
        self.assertEqual(said(mc33.test_face, TIED[:7] + [math.nan], 5), 3)
        self.assertEqual(said(mc33.test_face, TIED[:7] + [math.nan], 0), 4)


class Edges(unittest.TestCase):
    def test_each_kind(self):
        self.assertEqual(mc33.read_edge(LEVEL, 0), ("crossed", 0.5, 0.0))
        self.assertEqual(mc33.read_edge([9, -1, -1, -1, -1, -1, 9, -1], 8), ("crossed", 0.5, 15.0))
        self.assertEqual(mc33.read_edge(TIED, 0), ("beyond", math.inf, None))
        self.assertEqual(mc33.read_edge([1] * 8, 0), ("blank", None, None))
        self.assertEqual(mc33.read_edge([1, 0, 0, 0, 0, 0, 0, 1], 0), ("rising", None, None))
        reading = mc33.read_edge(LEVEL, 0)
        self.assertEqual((reading.kind, reading.t, reading.product), tuple(reading))

    def test_refusals(self):
        answered = [edge for edge in range(-128, 128) if said(mc33.read_edge, TIED, edge) != 5]
        self.assertEqual(answered, list(range(12)))
        self.assertEqual(said(mc33.read_edge, TIED[:7] + [math.inf], 0), 3)


class Roots(unittest.TestCase):
    def test_root(self):
        self.assertEqual([mc33.root(x) for x in (6.25, 0, 4, math.inf)], [2.5, 0, 2, math.inf])
        self.assertEqual(math.copysign(1, mc33.root(-0.0)), -1)
        self.assertTrue(math.isnan(mc33.root(-1)) and math.isnan(mc33.root(math.nan)))

    def test_root_bits(self):
        pairs = {0x40000000: 0x3FB504F3, 0xFF800000: 0x7FC00000, 0xFFFFFFFF: 0x7FC00000, 0x80000000: 0x80000000}
        self.assertEqual({bits: mc33.root_bits(bits) for bits in pairs}, pairs)

    def test_version(self):
        self.assertEqual(mc33.version() // 1000, int(mc33.__version__.split(".")[0]))


class Unfit(unittest.TestCase):
    """Numbers that do not fit are told, and not cut."""

    def test_numbers(self):
        for words, routine, *arguments in (
                ("case is 259, .*-128..127", mc33.choose, 259, 0, TIED),
                ("case is -129", mc33.choose, -129, 0, TIED),
                ("configuration is 256", mc33.choose, 3, 256, TIED),
                ("corner_set is 256, .*0..255", mc33.family_of, 256),
                ("corner_set is -1", mc33.family_of, -1),
                (r"corners\[0\] is 1e\+39, .*f32", mc33.choose_signs, [1e39] + TIED[1:]),
                ("face is 261", mc33.test_face, TIED, 261),
                ("face is -129", mc33.trust_face, TIED, -129),
                ("edge is 256", mc33.read_edge, TIED, 256),
                (r"bits is 4294967296, .*0\.\.4294967295", mc33.root_bits, 2**32),
                ("bits is -1", mc33.root_bits, -1),
                (r"x is 1e\+39, .*f32", mc33.root, 1e39),
                (r"corners\[1\] is -1e\+39", mc33.choose, 3, 0, [1, -1e39] + TIED[2:])):
            with self.assertRaisesRegex(OverflowError, words):
                routine(*arguments)

    def test_no_numbers(self):
        for words, routine, *arguments in (
                ("case is 3.0, .*whole", mc33.choose, 3.0, 0, TIED),
                ("edge is '0'", mc33.read_edge, TIED, "0"),
                ("corner_set is 5.0, .*whole", mc33.family_of, 5.0),
                (r"corners\[0\] is '1'", mc33.test_face, "11111111", 5),
                ("x is None", mc33.root, None)):
            with self.assertRaisesRegex(TypeError, words):
                routine(*arguments)

    def test_cubes_of_another_size(self):
        for corners in (TIED[:7], TIED + [1], [], [TIED]):
            with self.assertRaisesRegex(ValueError, f"8 corner values.*{len(corners)}"):
                mc33.choose(3, 0, corners)
            with self.assertRaisesRegex(ValueError, f"8 corner values.*{len(corners)}"):
                mc33.choose_signs(corners)
