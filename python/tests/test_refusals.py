"""Refusals: their numbers, words, and that they can be pickled."""
import copy
import pickle
import unittest

import mc33


class Refusals(unittest.TestCase):
    def test_all_eight_have_a_text(self):
        self.assertEqual(sorted(mc33.REFUSALS), list(range(1, 9)))
        for number, text in mc33.REFUSALS.items():
            self.assertEqual(mc33.refusal_text(number), text)
            self.assertIn(f"refused {number}: {text}", str(mc33.Refused(number, 0)))

    def test_words(self):
        self.assertEqual(str(mc33.Refused(3, 17)), "cube 17 refused 3: a corner is a NaN or infinite")
        self.assertEqual(str(mc33.Refused(4)), "refused 4: the face number is not -6..-1 or 1..6")
        self.assertEqual(str(mc33.Refused(7, 0)), "refused 7: the list has fewer than 6 answer bytes a cube")

    def test_a_number_that_is_not_known(self):
        for number in (0, 9, 10, 14, 2**64 - 1):
            self.assertIn("does not know", mc33.refusal_text(number))
            self.assertRegex(str(mc33.Refused(number, 5)), f"cube 5 refused {number}: .*does not know")

    def test_pickles(self):
        for refused in (mc33.Refused(3, 17), mc33.Refused(4), mc33.Refused(12, 2**40)):
            refused.marked = "by a caller"
            for protocol in range(pickle.HIGHEST_PROTOCOL + 1):
                again = pickle.loads(pickle.dumps(refused, protocol))
                self.assertIs(type(again), mc33.Refused)
                self.assertEqual((again.number, again.place), (refused.number, refused.place))
                self.assertEqual((str(again), again.marked), (str(refused), refused.marked))
            self.assertEqual(str(copy.copy(refused)), str(refused))
