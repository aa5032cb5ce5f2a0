"""Rows as choices and as columns."""
import unittest
from array import array
from random import Random
from unittest import mock

import mc33

from .support import ROWS, needs_numpy, numpy

CHOICES = [(4, 0, 0, 0, 0, 0, 1), (6, 0, 0, 0, 3, 0, 3), (255, 0, 5, 0, 0, 0, 6)]
READERS = (mc33.choices, mc33.columns)
# The rows of ROWS as versions before 5.0 wrote them.
OLD_ROWS = bytes([4, 0, 0, 0, 6, 0, 0, 6, 255, 0, 5, 0])


def random_row(random):
    code = random.choice((0, *mc33.TILINGS, 255))
    if code == mc33.EMPTY:
        return bytes(mc33.ROW)
    behind = (0, 0, 6) if code == mc33.NO_TILING else map(random.randrange, (8, 4, 8))
    return bytes([code, random.randrange(48), random.randrange(12), *behind])


def random_rows(count):
    random = Random(1)
    return b"".join(random_row(random) for _ in range(count))


def told(answers):
    """What both readers tell of bytes that are no rows; nothing where they take them."""
    words = []
    for reader in READERS:
        try:
            reader(answers)
            words.append("")
        except ValueError as error:
            words.append(str(error))
    return words[0] if words[0] == words[1] else words


class Rows(unittest.TestCase):
    def test_choices(self):
        for answers in (ROWS, bytearray(ROWS), memoryview(ROWS), array("B", ROWS), list(ROWS)):
            self.assertEqual(mc33.choices(answers), CHOICES)
        choice = mc33.Choice(13, 2, 1, centre=1, unsettled=3, unmatched=2, readings=5)
        self.assertEqual(mc33.choices(bytes([13, 2, 1, 7, 2, 5])), [choice])
        self.assertEqual(mc33.choices(bytes(mc33.ROW)), [(0, 0, 0, 0, 0, 0, 0)])
        self.assertEqual(mc33.choices(b""), [])

    def test_names(self):
        self.assertEqual([choice.name for choice in mc33.choices(ROWS)], ["3_2", "4_2", ""])
        self.assertEqual(mc33.Choice(0, 0, 0, 0, 0, 0, 0).name, "")

    def test_columns_are_those_of_the_choices(self):
        self.assertEqual(mc33.Columns._fields, mc33.Choice._fields)
        for answers in (random_rows(1000), b""):
            columns = [list(column) for column in mc33.columns(answers)]
            choices = mc33.choices(answers)
            self.assertEqual(columns, [[choice[field] for choice in choices] for field in range(7)])

    def test_columns_are_copies(self):
        answers = bytearray(ROWS)
        columns = mc33.columns(answers)
        answers[0] = 3
        answers.clear()
        self.assertEqual(list(columns.code), [4, 6, 255])

    def test_columns_without_numpy(self):
        with mock.patch.dict("sys.modules", numpy=None):
            columns = b"\4\6\xff", bytes(3), b"\0\0\5", bytes(3), b"\0\3\0", bytes(3), b"\1\3\6"
            self.assertEqual(mc33.columns(ROWS), columns)

    @needs_numpy
    def test_columns_with_numpy(self):
        answers = numpy.frombuffer(ROWS, "u1").reshape(-1, mc33.ROW)
        for column in mc33.columns(answers):
            self.assertEqual((type(column), column.dtype, column.shape), (numpy.ndarray, numpy.uint8, (3,)))
        self.assertEqual(mc33.columns(answers).unsettled.tolist(), [0, 3, 0])
        self.assertEqual(mc33.columns(answers).readings.tolist(), [1, 3, 6])
        self.assertEqual(mc33.choices(answers), CHOICES)

    def test_parts_of_rows(self):
        for reader in READERS:
            for length in (1, len(ROWS) - 1, len(ROWS) - mc33.ROW + 1):
                with self.assertRaisesRegex(ValueError, f"{length} bytes.*rows of {mc33.ROW}"):
                    reader(ROWS[:length])

    def test_rows_of_four_bytes(self):
        for reader in READERS:
            with self.assertRaisesRegex(ValueError, "4 bytes.*rows of 6"):
                reader(OLD_ROWS[:4])
            with self.assertRaisesRegex(ValueError, r"shape \(3, 4\).*\(n, 6\)"):
                reader(memoryview(OLD_ROWS).cast("B", (3, 4)))
            with self.assertRaisesRegex(ValueError, "row 1 has code 0 and row 6,"):
                reader(OLD_ROWS)
        # Three empty ones are two of six bytes.
        self.assertEqual(mc33.choices(bytes(3 * 4)), 2 * [(0, 0, 0, 0, 0, 0, 0)])

    def test_codes_of_no_row(self):
        for reader in READERS:
            for code in (39, 200, 254):
                with self.assertRaisesRegex(ValueError, f"row 3 has code {code},"):
                    reader(ROWS + bytes([code, 0, 0, 0, 0, 0]) + bytes([40, 0, 0, 0, 0, 0]))

    def test_each_byte_behind_each_code(self):
        # What row, column, centre + 2 * unsettled, unmatched and readings can be.
        names = "row", "column", "centre + 2 * unsettled", "unmatched", "readings"
        any_, zero = range(256), range(1)
        tiled, untiled = (any_, any_, range(8), range(4), range(8)), (any_, any_, zero, zero, {6})
        for code, fits in {0: 5 * [zero], **dict.fromkeys(mc33.TILINGS, tiled), 255: untiled}.items():
            right = bytes([code, *map(max, fits)])
            self.assertEqual(told(right), "")
            for place, name in enumerate(names):
                for byte in (*range(10), 16, 32, 64, 128, 255):
                    rows = 2 * (ROWS + right[:place + 1] + bytes([byte]) + right[place + 2:])
                    words = f"row 3 has code {code} and {name} {byte}, which no row of this version has"
                    self.assertEqual(told(rows), "" if byte in fits[place] else words)

    def test_buffers_that_do_not_fit(self):
        for reader in READERS:
            for answers, error in (
                    (array("i", list(ROWS)), TypeError), (memoryview(2 * ROWS)[::2], BufferError), (4, TypeError),
                    (memoryview(ROWS).cast("B", (6, 3)), ValueError), ([4, 0, 0, 0, 0, 256], OverflowError),
                    ("rows", TypeError)):
                with self.assertRaises(error):
                    reader(answers)
