"""The package and the library that it loads."""
import inspect
import shutil
import subprocess
import tempfile
import typing
import unittest
from pathlib import Path

import mc33
from mc33.library import BUILT, FUNCTIONS, INSTALLED
from mc33.release import MAJOR, VERSION

from .support import run

# What the library tells of this package's version.
NUMBER = "{}{:03}".format(*map(int, VERSION.split(".")[:2]))

ASK = """
import mc33
mc33.choices(b"")
try:
    print(mc33.version())
except ImportError as error:
    print(error)
"""


class Package(unittest.TestCase):
    def test_public_names(self):
        for name in mc33.__all__:
            self.assertTrue(hasattr(mc33, name), name)
        public = {name for name, value in vars(mc33).items() if name[0] != "_" and not inspect.ismodule(value)}
        self.assertEqual(public, set(mc33.__all__))
        self.assertEqual(mc33.__version__, "5.2.0")

    def test_hints_and_words(self):
        self.assertTrue((Path(mc33.__file__).parent / "py.typed").exists())
        for name in mc33.__all__:
            value = getattr(mc33, name)
            if inspect.isfunction(value):
                self.assertEqual(set(typing.get_type_hints(value)), {*inspect.signature(value).parameters, "return"})
            if inspect.isfunction(value) or inspect.isclass(value):
                self.assertTrue(value.__doc__, name)


class Library(unittest.TestCase):
    def setUp(self):
        folder = tempfile.TemporaryDirectory()
        self.addCleanup(folder.cleanup)
        self.folder = Path(folder.name)

    def said(self, library, **others):
        ended = run("-c", ASK, library=library, **others)
        self.assertEqual((ended.returncode, ended.stderr), (0, b""))
        return ended.stdout.decode().strip()

    def made(self, code):
        """A shared object of this C code."""
        if not shutil.which("gcc"):
            self.skipTest("gcc is not there to make another library")
        made = self.folder / "made.so"
        subprocess.run(["gcc", "-shared", "-fPIC", "-xc", "-", "-o", made], input=code.encode(), check=True)
        return made

    def test_named_by_the_environment(self):
        shutil.copy(BUILT, self.folder / "copy.so")
        self.assertEqual(self.said(self.folder / "copy.so"), NUMBER)
        self.assertEqual(self.said("copy.so", cwd=self.folder), NUMBER)
        self.assertEqual(self.said(""), NUMBER)

    def test_installed(self):
        shutil.copytree(Path(mc33.__file__).parent, self.folder / "mc33")
        shutil.copy(BUILT, self.folder / INSTALLED)
        copy = {"path": self.folder, "cwd": self.folder}
        self.assertEqual(self.said("", **copy, LD_LIBRARY_PATH=str(self.folder)), NUMBER)
        self.assertRegex(self.said("", **copy), rf"libmc33\.so\.{MAJOR}.*\./install\.sh.*MC33_LIBRARY")

    def test_missing(self):
        for name in (self.folder / "none.so", "none.so"):
            self.assertRegex(self.said(name), r"none\.so.*\./install\.sh.*MC33_LIBRARY")

    def test_another_file(self):
        (self.folder / "text.so").write_text("no library")
        self.assertRegex(self.said(self.folder / "text.so"), r"text\.so.*\./install\.sh")

    def test_another_library(self):
        self.assertRegex(self.said(self.made("int other;")), r"made\.so has no mc33_version.*\./install\.sh")

    def test_another_major_version(self):
        others = "".join(f"void {name}(void) {{}}\n" for name in FUNCTIONS if name != "mc33_version")
        for major in MAJOR - 1, MAJOR + 1:
            made = self.made(others + f"unsigned mc33_version(void) {{ return {major}001; }}")
            words = rf"made\.so has version {major}\.1, .* {VERSION} .* needs {MAJOR}\. .*install\.sh"
            self.assertRegex(self.said(made), words)

    def test_an_earlier_minor_version(self):
        later, latest = ("mc33_family_of", "mc33_choose_signs", "mc33_list_signs"), ("mc33_trust_face",)
        for missing in later + latest, latest:
            others = "".join(f"void {name}(void) {{}}\n" for name in FUNCTIONS if name not in missing)
            words = rf"made\.so has no {missing[0]}, .* before version {VERSION}\. .*install\.sh"
            self.assertRegex(self.said(self.made(others)), words)

    def test_a_later_minor_version(self):
        others = "".join(f"void {name}(void) {{}}\n" for name in FUNCTIONS if name != "mc33_version")
        later = f"{MAJOR}007"
        self.assertEqual(self.said(self.made(others + f"unsigned mc33_version(void) {{ return {later}; }}")), later)
