"""Lists: what is taken and how, what is refused in words, and that the memory is held."""
import ctypes
import mmap
import unittest
from array import array
from random import Random
from unittest import mock

import mc33
from mc33 import lists
from mc33.library import OutcomeRecord

from .support import CORNERS, LEVEL, NUMBERS, ROWS, ROWS_BY_SIGNS, TIED, UNTILED, needs_numpy, numpy, run

# The other thread runs where the call lets it, and not before.
SHRINK = """
import sys, threading
from array import array
import mc33
cubes, which, kept = 1_000_000, int(sys.argv[1]), int(sys.argv[2])
lent = [array("f", [3, -1, -1, -1, -1, -1, 3, -1]) * cubes, array("b", [4, 0]) * cubes, bytearray(mc33.ROW * cubes)]
mc33.version()
begun, told = threading.Event(), []
def shrink():
    begun.wait()
    try:
        del lent[which][kept:]
        told.append("shrunk")
    except BufferError:
        told.append("held")
thread = threading.Thread(target=shrink)
thread.start()
sys.setswitchinterval(60)
begun.set()
rows = mc33.choose_list(*lent)
thread.join()
right = rows == bytes([6, 0, 0, 6, 0, 3]) * cubes
del lent[which][kept:]
print(told[0], right, len(lent[which]))
"""

POOL = """
import multiprocessing
import mc33
with multiprocessing.Pool(1) as pool:
    try:
        pool.apply_async(mc33.choose_list, ([1] * 16, [3, 0, 15, 0])).get(20)
    except mc33.Refused as refused:
        print(refused.number, refused.place)
"""


def fake_list(refusal=0, place=0):
    """A library whose lists give this outcome; their arguments can be looked at."""
    library = mock.Mock()
    library.mc33_list.return_value = library.mc33_list_signs.return_value = OutcomeRecord(refusal, place)
    return library


class Held(unittest.TestCase):
    def test_a_second_thread_cannot_shrink_what_is_lent(self):
        for which, kept in enumerate((8, 2, mc33.ROW)):
            with self.subTest(("corners", "numbers", "answers")[which]):
                ended = run("-c", SHRINK, which, kept)
                self.assertEqual((ended.returncode, ended.stdout), (0, b"held True %d\n" % kept), ended.stderr)

    def test_nothing_is_held_after_an_error(self):
        for numbers in ([3, 0, 15, 0], array("i", [3, 0, 4, 0]), ["x"]):
            corners, answers = array("f", TIED + LEVEL), bytearray(2 * mc33.ROW)
            with self.assertRaises((mc33.Refused, TypeError)) as caught:
                mc33.choose_list(corners, numbers, answers)
            self.assertIsNotNone(caught.exception)
            corners.append(1)
            answers.append(1)

    def test_a_refused_list_comes_back_from_a_pool(self):
        ended = run("-c", POOL)
        self.assertEqual((ended.returncode, ended.stdout), (0, b"1 1\n"), ended.stderr)


class Chosen(unittest.TestCase):
    def test_each_byte(self):
        # These were put to the Rust.
        for case, configuration, corners, row in (
                (3, 0, [2, -1, 2, -1, -1, -1, -1, -1], (4, 0, 0, 0, 0, 1)),
                (3, 0, [1, -2, 1, -2, -1, -1, -1, -1], (3, 0, 0, 0, 0, 1)),
                (4, 0, LEVEL, (6, 0, 0, 6, 0, 3)),
                (4, 0, [-1] * 8, (6, 0, 0, 6, 3, 3)),
                (12, 0, [1] * 8, (26, 23, 0, 4, 2, 4)),
                (13, 0, UNTILED, (255, 0, 5, 0, 0, 6)),
                (0, -1, TIED, (0, 0, 0, 0, 0, 0))):
            with self.subTest(case=case, corners=corners):
                self.assertEqual(tuple(mc33.choose_list(corners, [case, configuration])), row)

    def test_rows_are_the_single_choices(self):
        random = Random(3)
        pairs = [(case, configuration) for case, all_ in mc33.CONFIGURATIONS.items() for configuration in all_]
        cubes = [[random.choice((-2, -1, 1, 2, 3)) for _ in range(8)] for _ in range(20 * len(pairs))]
        rows = mc33.choose_list(sum(cubes, []), [number for pair in 20 * pairs for number in pair])
        self.assertEqual(mc33.choices(rows), [mc33.choose(*pair, cube) for pair, cube in zip(20 * pairs, cubes)])


class Taken(unittest.TestCase):
    def rows(self, corners=CORNERS, numbers=NUMBERS, answers=None):
        given = mc33.choose_list(corners, numbers, answers)
        self.assertEqual(bytes(given), ROWS)
        return given

    def addresses(self, *lent):
        library = fake_list()
        with mock.patch.object(lists, "loaded", lambda: library):
            mc33.choose_list(*lent)
        return library.mc33_list.call_args.args

    def test_iterables_of_numbers(self):
        self.assertIsInstance(self.rows(), bytearray)
        self.rows(tuple(CORNERS), tuple(NUMBERS))
        self.rows(iter(CORNERS), (number for number in NUMBERS))
        self.rows(map(float, CORNERS), NUMBERS)

    def test_buffers(self):
        floats, bytes_ = array("f", CORNERS), array("b", NUMBERS)
        for corners in (floats, memoryview(floats), memoryview(floats.tobytes()).cast("f"),
                        (ctypes.c_float * 24)(*CORNERS), memoryview(floats.tobytes()).cast("f", (3, 8)),
                        (ctypes.c_float * 8 * 3).from_buffer(floats)):
            self.rows(corners)
        for numbers in (bytes_, memoryview(bytes_), memoryview(bytes_.tobytes()).cast("b"),
                        (ctypes.c_int8 * 6)(*NUMBERS), memoryview(bytes_.tobytes()).cast("b", (3, 2))):
            self.rows(numbers=numbers)

    def test_answers(self):
        room = bytearray(len(ROWS))
        for answers in (room, memoryview(room), array("B", room), (ctypes.c_uint8 * len(room))(),
                        memoryview(bytearray(room)).cast("B", (3, mc33.ROW))):
            self.assertIs(self.rows(answers=answers), answers)
        with mmap.mmap(-1, len(ROWS)) as answers:
            mc33.choose_list(CORNERS, NUMBERS, answers)
            self.assertEqual(answers[:], ROWS)

    def test_bytes_past_the_last_row_stay(self):
        answers = bytearray(b"\7" * (len(ROWS) + 5))
        self.assertEqual(mc33.choose_list(CORNERS, NUMBERS, answers), ROWS + b"\7" * 5)

    def test_no_cubes(self):
        odd = (ctypes.c_float * 0).from_buffer(bytearray(4), 1)
        for corners, numbers in (([], []), (array("f"), array("b")), (odd, [])):
            self.assertEqual(mc33.choose_list(corners, numbers), b"")
            self.assertEqual(mc33.choose_list(corners, numbers, bytearray(b"\7")), b"\7")

    def test_no_copy_is_made(self):
        corners, numbers, answers = array("f", CORNERS), array("b", NUMBERS), array("B", ROWS)
        wanted = (*corners.buffer_info(), *numbers.buffer_info(), *answers.buffer_info())
        self.assertEqual(self.addresses(corners, numbers, answers), wanted)
        self.assertEqual(self.addresses(*map(memoryview, (corners, numbers, answers))), wanted)

    @needs_numpy
    def test_numpy(self):
        corners, numbers = numpy.array(CORNERS, "f4"), numpy.array(NUMBERS, "i1")
        answers = numpy.zeros((3, mc33.ROW), "u1")
        for shape in (24, (3, 8)):
            for pairs in (6, (3, 2)):
                lent = corners.reshape(shape), numbers.reshape(pairs), answers
                self.assertIs(self.rows(*lent), answers)
                self.assertEqual(self.addresses(*lent)[::2], tuple(values.ctypes.data for values in lent))
        self.rows(corners, numbers, answers.reshape(-1))
        corners.flags.writeable = numbers.flags.writeable = False
        self.assertIsInstance(self.rows(corners, numbers), bytearray)
        self.assertEqual(mc33.choose_list(numpy.empty((0, 8), "f4"), numpy.empty((0, 2), "i1")), b"")


class Unfit(unittest.TestCase):
    """Buffers and values that do not fit: an error in words, no answer byte changed, no call."""

    def unfit(self, error, words, corners=CORNERS, numbers=NUMBERS, answers=None):
        library = fake_list()
        with mock.patch.object(lists, "loaded", lambda: library):
            with self.assertRaisesRegex(error, words):
                mc33.choose_list(corners, numbers, answers)
        library.mc33_list.assert_not_called()

    def test_other_types(self):
        self.unfit(TypeError, "corners .*'d'.*f32", array("d", CORNERS))
        self.unfit(TypeError, "corners .*'i'", array("i", CORNERS))
        self.unfit(TypeError, "corners .*'B'", bytes(32))
        self.unfit(TypeError, "numbers .*'B'.*i8", numbers=bytes(NUMBERS))
        self.unfit(TypeError, "numbers .*'h'", numbers=array("h", NUMBERS))
        self.unfit(TypeError, "answers .*'b'.*u8", answers=array("b", bytes(len(ROWS))))
        self.unfit(TypeError, "answers .*'f'", answers=array("f", bytes(4 * len(ROWS))))

    def test_foreign_byte_orders(self):
        self.unfit(TypeError, "corners .*'>f'", (ctypes.c_float.__ctype_be__ * 24)())

    def test_strides(self):
        self.unfit(BufferError, "corners .*contiguous", memoryview(array("f", 48 * [1]))[::2])
        self.unfit(BufferError, "numbers .*contiguous", numbers=memoryview(array("b", 12 * [1]))[::2])
        self.unfit(BufferError, "answers .*contiguous", answers=memoryview(bytearray(2 * len(ROWS)))[::2])

    def test_shapes(self):
        floats, old = memoryview(bytes(96)), memoryview(bytearray(12))
        self.unfit(ValueError, r"corners .*\(6, 4\).*\(n, 8\)", floats.cast("f", (6, 4)))
        self.unfit(ValueError, r"corners .*\(8, 3\)", floats.cast("f", (8, 3)))
        self.unfit(ValueError, r"corners .*\(1, 3, 8\)", floats.cast("f", (1, 3, 8)))
        self.unfit(ValueError, r"corners .*\(\)", ctypes.c_float(1))
        self.unfit(ValueError, r"numbers .*\(2, 3\).*\(n, 2\)", numbers=memoryview(bytes(6)).cast("b", (2, 3)))
        self.unfit(ValueError, r"answers .*\(3, 4\).*\(n, 6\)", answers=old.cast("B", (3, 4)))

    def test_odd_addresses(self):
        self.unfit(BufferError, "corners .*multiple of 4", memoryview(bytes(97))[1:].cast("f"))

    def test_answers_that_cannot_be_written(self):
        for answers in (ROWS, memoryview(bytearray(ROWS)).toreadonly()):
            self.unfit(BufferError, "answers .*read-only", answers=answers)
        for answers in (list(ROWS), len(ROWS), "answers"):
            self.unfit(TypeError, "answers .*no buffer", answers=answers)

    def test_answers_that_overlap(self):
        memory = memoryview(bytearray(96 + 6 + len(ROWS)))
        corners, numbers = memory[:96].cast("f"), memory[96:102].cast("b")
        self.unfit(ValueError, "answers overlap corners", corners, NUMBERS, memory[95:-7])
        self.unfit(ValueError, "answers overlap numbers", corners, numbers, memory[101:-1])
        self.unfit(ValueError, "answers overlap numbers", corners, numbers, memory[97:98])
        numbers[::2] = memoryview(b"\1\1\1").cast("b")
        row = bytes([1, 0, 0, 0, 0, 0])
        self.assertEqual(bytes(mc33.choose_list(corners, numbers, memory[102:])), 3 * row)
        self.assertEqual(bytes(mc33.choose_list(corners[3:11], [1, 0], memory[6:12])), row)

    def test_values(self):
        self.unfit(TypeError, r"corners\[7\] is 'x', which is no number", TIED[:7] + ["x"])
        self.unfit(TypeError, r"corners\[0\] is \[1, -1", [TIED, LEVEL])
        self.unfit(OverflowError, r"corners\[2\] is 1e\+39, .*f32", [1, float("inf"), 1e39, 1])
        self.unfit(OverflowError, r"corners\[1\] is 1000.*f32", [1, 10**400])
        self.unfit(OverflowError, r"numbers\[3\] is 128, .*-128\.\.127", numbers=[3, 0, 4, 128])
        self.unfit(OverflowError, r"numbers\[0\] is -129", numbers=[-129, 0])
        self.unfit(TypeError, r"numbers\[1\] is 0.0, which is no whole number", numbers=[3, 0.0])
        self.unfit(TypeError, "corners is None", None)
        self.unfit(TypeError, "numbers is 3,", numbers=3)

    @needs_numpy
    def test_numpy(self):
        corners, answers = numpy.ones((3, 8), "f4"), numpy.zeros((3, mc33.ROW), "u1")
        self.unfit(TypeError, "corners .*'d'", corners.astype("f8"))
        self.unfit(TypeError, "corners .*'>f'", corners.astype(">f4"))
        self.unfit(TypeError, "numbers .*'l'", numbers=numpy.array(NUMBERS))
        self.unfit(BufferError, "corners .*contiguous", corners[::2])
        self.unfit(BufferError, "corners .*contiguous", numpy.asfortranarray(corners))
        self.unfit(ValueError, r"corners .*\(8, 3\)", numpy.ones((8, 3), "f4"))
        self.unfit(ValueError, r"answers .*\(6, 3\)", answers=answers.reshape(6, 3))
        self.unfit(ValueError, r"answers .*\(3, 4\).*\(n, 6\)", answers=numpy.zeros((3, 4), "u1"))
        self.unfit(TypeError, "answers .*'?'", answers=answers.astype(bool))
        self.unfit(ValueError, "answers overlap corners", corners, answers=corners.view("u1").reshape(-1)[90:])
        answers.flags.writeable = False
        self.unfit(BufferError, "answers .*read-only", answers=answers)


class RefusedLists(unittest.TestCase):
    def refused(self, number, place, corners, numbers, room=len(ROWS)):
        answers = bytearray(b"\7" * room)
        with self.assertRaises(mc33.Refused) as caught:
            mc33.choose_list(corners, numbers, answers)
        self.assertEqual((caught.exception.number, caught.exception.place), (number, place))
        self.assertEqual(answers, b"\7" * room)

    def test_each_refusal(self):
        self.refused(1, 2, CORNERS, [3, 0, 4, 0, 15, 0])
        self.refused(2, 1, CORNERS, [3, 0, 4, 8, 15, 0])
        self.refused(3, 1, TIED + [float("inf")] + CORNERS[9:], NUMBERS)
        self.refused(3, 0, [float("nan")] + CORNERS[1:], NUMBERS)
        self.refused(6, 0, CORNERS[:-1], NUMBERS)
        self.refused(6, 0, TIED, [3, 0, 4, 0])
        self.refused(7, 0, CORNERS, NUMBERS, len(ROWS) - 1)
        self.refused(7, 0, CORNERS, NUMBERS, 3 * 4)  # room for the rows of versions before 5.0

    def test_a_number_that_is_not_known(self):
        with mock.patch.object(lists, "loaded", lambda: fake_list(12, 3)):
            with self.assertRaisesRegex(mc33.Refused, "^cube 3 refused 12: .*does not know"):
                mc33.choose_list(CORNERS, NUMBERS)


class BySigns(unittest.TestCase):
    """Lists without numbers: the same memory is taken, but for the numbers."""

    def rows(self, corners=CORNERS, answers=None):
        given = mc33.choose_list_signs(corners, answers)
        self.assertEqual(bytes(given), ROWS_BY_SIGNS)
        return given

    def addresses(self, *lent):
        library = fake_list()
        with mock.patch.object(lists, "loaded", lambda: library):
            mc33.choose_list_signs(*lent)
        library.mc33_list.assert_not_called()
        return library.mc33_list_signs.call_args.args

    def test_rows_are_the_single_choices(self):
        random = Random(5)
        cubes = [[random.choice((-2, -1, -0.0, 0.0, 1, 2, 3)) for _ in range(8)] for _ in range(5000)]
        choices = mc33.choices(mc33.choose_list_signs(sum(cubes, [])))
        self.assertEqual(choices, [mc33.choose_signs(cube) for cube in cubes])
        self.assertEqual({choice.name.split("_")[0] for choice in choices}, {"", *map(str, range(1, 15))})

    def test_what_is_taken(self):
        self.assertIsInstance(self.rows(), bytearray)
        floats, room = array("f", CORNERS), bytearray(len(ROWS))
        for corners in (iter(CORNERS), floats, memoryview(floats.tobytes()).cast("f", (3, 8))):
            self.rows(corners)
        for answers in (room, memoryview(room), memoryview(bytearray(room)).cast("B", (3, mc33.ROW))):
            self.assertIs(self.rows(answers=answers), answers)
        self.assertEqual(mc33.choose_list_signs(CORNERS, bytearray(b"\7" * 20)), ROWS_BY_SIGNS + b"\7" * 2)
        self.assertEqual(mc33.choose_list_signs([]), b"")

    def test_no_copy_is_made(self):
        corners, answers = array("f", CORNERS), array("B", ROWS)
        self.assertEqual(self.addresses(corners, answers), (*corners.buffer_info(), *answers.buffer_info()))

    @needs_numpy
    def test_numpy(self):
        corners, answers = numpy.array(CORNERS, "f4").reshape(3, 8), numpy.zeros((3, mc33.ROW), "u1")
        self.assertIs(self.rows(corners, answers), answers)
        self.assertEqual(self.addresses(corners, answers), (corners.ctypes.data, 24, answers.ctypes.data, 18))
        self.rows(corners.reshape(-1))

    def test_unfit(self):
        memory = memoryview(bytearray(96))
        for error, words, *lent in (
                (TypeError, "corners .*'d'.*f32", array("d", CORNERS)),
                (ValueError, r"corners .*\(6, 4\).*\(n, 8\)", memory.cast("f", (6, 4))),
                (BufferError, "corners .*contiguous", memory.cast("f")[::2]),
                (BufferError, "answers are read-only", CORNERS, ROWS),
                (TypeError, "answers .*no buffer", CORNERS, list(ROWS)),
                (ValueError, "answers overlap corners", memory.cast("f"), memory[90:]),
                (TypeError, r"corners\[1\] is 'x'", [1, "x"])):
            with self.assertRaisesRegex(error, words):
                mc33.choose_list_signs(*lent)

    def test_refusals(self):
        for number, place, corners, room in (
                (6, 0, CORNERS[:-1] + [float("nan")] * 2, 0), (7, 0, CORNERS[:-1] + [float("nan")], len(ROWS) - 1),
                (3, 2, CORNERS[:-1] + [float("nan")], len(ROWS)), (3, 0, [float("inf")] + CORNERS[1:], len(ROWS))):
            answers = bytearray(b"\7" * room)
            with self.assertRaises(mc33.Refused) as caught:
                mc33.choose_list_signs(corners, answers)
            self.assertEqual((caught.exception.number, caught.exception.place), (number, place))
            self.assertEqual(answers, b"\7" * room)

    def test_nothing_is_held_after_an_error(self):
        corners, answers = array("f", TIED + [float("inf")] * 8), bytearray(2 * mc33.ROW)
        with self.assertRaises(mc33.Refused) as caught:
            mc33.choose_list_signs(corners, answers)
        self.assertIsNotNone(caught.exception)
        corners.append(1)
        answers.append(1)
