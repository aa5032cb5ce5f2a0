"""The command: files in and out, and its statuses."""
import os
import tempfile
import unittest
from array import array
from contextlib import redirect_stderr
from io import StringIO
from pathlib import Path
from unittest import mock

import mc33
from mc33 import files
from mc33.command import main

from .support import CORNERS, NUMBERS, ROWS, ROWS_BY_SIGNS, needs_numpy, numpy, run

INFINITE = array("f", CORNERS[:15] + [float("inf")] + CORNERS[16:]).tobytes()


def npy(descr, shape, data, order="False", version=b"\1\0", head=None):
    """A .npy file, after the description of the format."""
    text = (head or f"{{'descr': {descr!r}, 'fortran_order': {order}, 'shape': {shape}, }}").encode() + b"\n"
    length = len(text).to_bytes(2 if version[0] == 1 else 4, "little")
    return b"\x93NUMPY" + version + length + text + data


class Command(unittest.TestCase):
    def setUp(self):
        folder = tempfile.TemporaryDirectory()
        self.addCleanup(folder.cleanup)
        self.folder = Path(folder.name)
        self.corners, self.numbers = array("f", CORNERS).tobytes(), array("b", NUMBERS).tobytes()
        self.file("c", self.corners)
        self.file("n", self.numbers)

    def file(self, name, data):
        (self.folder / name).write_bytes(data)

    def run_list(self, *names, subcommand="list", **others):
        return run("-m", "mc33", subcommand, *names, cwd=self.folder, **others)

    def done(self, *names, **others):
        ended = self.run_list(*names, **others)
        self.assertEqual((ended.returncode, ended.stderr), (0, b""))
        return ended.stdout

    def failed(self, words, *names, status=2, **others):
        ended = self.run_list(*names, **others)
        told = ended.stderr.decode()
        self.assertEqual(ended.returncode, status, told)
        self.assertRegex(told, f"^mc33: .*{words}.*\n$")


class Done(Command):
    def test_raw(self):
        self.done("c", "n", "a")
        self.assertEqual((self.folder / "a").read_bytes(), ROWS)

    def test_npy(self):
        for corners_shape, numbers_shape, version in ("(3, 8)", "(3, 2)", b"\1\0"), ("(24,)", "(6,)", b"\2\0"):
            self.file("c.npy", npy("<f4", corners_shape, self.corners, version=version))
            self.file("n.npy", npy("|i1", numbers_shape, self.numbers, version=version))
            self.done("c.npy", "n.npy", "a")
            self.assertEqual((self.folder / "a").read_bytes(), ROWS)
            self.done("c", "n.npy", "a.npy")
            written = (self.folder / "a.npy").read_bytes()
            self.assertEqual((len(written) - len(ROWS)) % 64, 0)
            self.assertTrue(written.endswith(b"\n" + ROWS))
            self.assertIn(b"{'descr': '|u1', 'fortran_order': False, 'shape': (3, 6), }", written)

    @needs_numpy
    def test_numpy_reads_and_writes_the_same(self):
        numpy.save(self.folder / "c.npy", numpy.array(CORNERS, "f4").reshape(3, 8))
        numpy.save(self.folder / "n.npy", numpy.array(NUMBERS, "i1").reshape(3, 2))
        self.done("c.npy", "n.npy", "a.npy")
        answers = numpy.load(self.folder / "a.npy")
        self.assertEqual((answers.shape, answers.dtype, answers.tobytes()), ((3, mc33.ROW), numpy.uint8, ROWS))

    def test_standard_input_and_output(self):
        self.assertEqual(self.done("-", "n", "-", input=self.corners), ROWS)
        self.assertEqual(self.done("c", "-", "-", input=self.numbers), ROWS)
        twice = "from mc33.command import main\nfor _ in range(2): main(['list', 'c', 'n', '-'])"
        self.assertEqual(run("-c", twice, cwd=self.folder).stdout, 2 * ROWS)
        self.file("log", b"before")
        with open(self.folder / "log", "ab") as log:
            self.done("c", "n", "-", stdout=log)
        self.assertEqual((self.folder / "log").read_bytes(), b"before" + ROWS)

    def test_no_cubes(self):
        self.assertEqual(self.done("/dev/null", "/dev/null", "-"), b"")

    def test_help_and_version(self):
        for words, *arguments in (
                (b"list", "--help"), (b"list-signs", "--help"), (b"numbers", "list", "--help"),
                (b"above 0", "list-signs", "--help"), (b"mc33 5.2.0\n", "--version")):
            ended = run("-m", "mc33", *arguments, library="/nowhere")
            self.assertEqual((ended.returncode, ended.stderr), (0, b""))
            self.assertIn(words, ended.stdout)


class BySigns(Command):
    def test_done(self):
        self.file("c.npy", npy("<f4", "(3, 8)", self.corners))
        self.done("c", "a", subcommand="list-signs")
        self.assertEqual((self.folder / "a").read_bytes(), ROWS_BY_SIGNS)
        self.done("c.npy", "a.npy", subcommand="list-signs")
        self.assertTrue((self.folder / "a.npy").read_bytes().endswith(b"\n" + ROWS_BY_SIGNS))
        self.assertEqual(self.done("-", "-", subcommand="list-signs", input=self.corners), ROWS_BY_SIGNS)
        self.assertEqual(self.done("/dev/null", "-", subcommand="list-signs"), b"")

    def test_refused(self):
        self.file("c", INFINITE)
        self.failed("cube 1 refused 3: a corner is a NaN", "c", "a", status=1, subcommand="list-signs")
        self.file("c", self.corners[:-4])
        self.failed("refused 6: ", "c", "a", status=1, subcommand="list-signs")
        self.assertFalse((self.folder / "a").exists())

    def test_failed(self):
        self.failed("No such file.*'none'", "none", "a", subcommand="list-signs")
        self.failed("No space left.*'/dev/full'", "c", "/dev/full", subcommand="list-signs")
        for names in ([], ["c"], ["c", "n", "a"]):
            ended = self.run_list(*names, subcommand="list-signs")
            self.assertEqual(ended.returncode, 2)
            self.assertIn(b"usage: python3 -m mc33", ended.stderr)


class Refused(Command):
    def test_told_and_nothing_written(self):
        self.file("c", INFINITE)
        self.failed("cube 1 refused 3: a corner is a NaN or infinite", "c", "n", "a", status=1)
        self.assertFalse((self.folder / "a").exists())
        self.file("a", b"as before")
        self.failed("refused 3", "c", "n", "a", status=1)
        self.assertEqual((self.folder / "a").read_bytes(), b"as before")

    def test_lists_that_disagree(self):
        self.failed("refused 6: ", "c", "/dev/null", "a", status=1)


class Failed(Command):
    def test_files_that_cannot_be_read(self):
        self.failed("No such file.*'none'", "none", "n", "a")
        self.failed("directory.*'.'", "c", ".", "a")
        self.failed("standard input", "-", "-", "a")
        self.failed("'-'", "-", "n", "a", stdin=self.blocking_end())
        self.assertFalse((self.folder / "a").exists())

    def blocking_end(self):
        """The reading end of a pipe that has bytes and no end, and would block after them."""
        reading, writing = os.pipe()
        self.addCleanup(os.close, writing)
        self.addCleanup(os.close, reading)
        os.write(writing, self.corners)
        os.set_blocking(reading, False)
        return reading

    def test_files_that_cannot_be_written(self):
        self.failed("No such file.*'none/a'", "c", "n", "none/a")
        self.failed("No space left.*'/dev/full'", "c", "n", "/dev/full")
        with open("/dev/full", "wb") as full:
            self.failed("No space left", "c", "n", "-", stdout=full)

    def test_raw_bytes_that_are_no_values(self):
        self.file("c", self.corners + b"\0")
        self.failed("c: its 97 bytes are no whole number of f32", "c", "n", "a")

    def test_npy_that_does_not_fit(self):
        for words, data in (
                ("no .npy", self.corners),
                ("no .npy", b"\x93NUMPY"),
                ("type '<f8'", npy("<f8", "(3, 4)", self.corners)),
                ("type '>f4'", npy(">f4", "(3, 8)", self.corners)),
                ("type .*'x'", npy([("x", "<f4")], "(24,)", self.corners)),
                (r"shape \(6, 4\)", npy("<f4", "(6, 4)", self.corners)),
                (r"shape \(\)", npy("<f4", "()", self.corners[:4])),
                ("Fortran", npy("<f4", "(3, 8)", self.corners, order="True")),
                ("92 bytes .* 96", npy("<f4", "(3, 8)", self.corners[:-4])),
                ("100 bytes .* 96", npy("<f4", "(24,)", self.corners + b"\0\0\0\0")),
                ("head cannot", npy("<f4", "24", self.corners)),
                ("head cannot", npy("<f4", "(-1,)", self.corners)),
                ("head cannot", npy("<f4", "('a',)", self.corners)),
                ("head cannot", npy("<f4", "(3, 8)", self.corners, head="{'shape': ")),
                ("head cannot", npy("<f4", "(3, 8)", self.corners, head="[1, 2]")),
                ("head cannot", npy("<f4", "(3, 8)", self.corners, head=9000 * "(")),
                ("head cannot", npy("<f4", "(3, 8)", self.corners, head="{'shape': (24,)}")),
                ("head cannot", npy("<f4", "(3, 8)", self.corners, version=b"\2\0")[:10])):
            with self.subTest(words):
                self.file("c.npy", data)
                self.failed(f"c.npy: .*{words}", "c.npy", "n", "a")
        self.assertFalse((self.folder / "a").exists())

    def test_without_the_library(self):
        self.failed("install.sh", "c", "n", "a", library="/nowhere")

    def test_without_memory(self):
        with mock.patch.object(files, "read", side_effect=MemoryError), redirect_stderr(StringIO()) as told:
            self.assertEqual(main(["list", "c", "n", "a"]), 2)
        self.assertEqual(told.getvalue(), "mc33: no memory\n")

    def test_usage(self):
        for arguments in ([], ["none"], ["list"], ["list", "c", "n"], ["list", "c", "n", "a", "b"], ["--none"]):
            ended = run("-m", "mc33", *arguments, cwd=self.folder)
            self.assertEqual(ended.returncode, 2)
            self.assertIn(b"usage: python3 -m mc33", ended.stderr)
