"""In a checkout, PYTHONPATH alone is enough: the library comes from release/."""

import gzip
import hashlib
import os
import pathlib
import tempfile
import unittest

from . import TOP
from .checkouts import copied, library, python

OPENS = """import witcall
print(witcall.open("package a:b; interface c {}").to_text(), witcall.library_version())
"""


class Checkout(unittest.TestCase):
    def setUp(self):
        self.folder = copied(self)
        self.kept = self.folder / "bindings/python/build/libwitcall.so"
        self.temporary = self.folder / "temporary"
        self.temporary.mkdir()

    def opens(self, **variables):
        """What a program says that opens a package in this checkout."""
        variables = {"PYTHONPATH": "bindings/python", "TMPDIR": self.temporary, **variables}
        return python(OPENS, self.folder, **variables)

    def assert_opens(self, **variables):
        done = self.opens(**variables)
        self.assertEqual((done.returncode, done.stderr), (0, ""))
        self.assertIn("package a:b;", done.stdout)
        self.assertEqual(os.listdir(self.temporary), [])

    def assert_refused(self, line):
        done = self.opens()
        self.assertEqual(done.returncode, 1)
        self.assertRegex(done.stderr.splitlines()[-1], f"^ImportError: {line}")

    def assert_kept(self):
        self.assertEqual(self.kept.read_bytes(), library())
        self.assertEqual(os.listdir(self.kept.parent), [self.kept.name])

    def test_the_library_is_unpacked_once(self):
        self.assert_opens()
        self.assert_kept()
        before = self.kept.stat()
        self.assert_opens()
        self.assertEqual(self.kept.stat().st_mtime_ns, before.st_mtime_ns)

    def test_a_file_that_is_not_of_the_release_is_replaced(self):
        self.kept.parent.mkdir()
        self.kept.write_bytes(b"of an earlier release")
        self.assert_opens()
        self.assert_kept()

    def test_a_checkout_that_cannot_be_written_needs_a_temporary_file(self):
        self.kept.parent.write_bytes(b"no folder")
        self.assert_opens()
        self.assertEqual(self.kept.parent.read_bytes(), b"no folder")

    def test_a_library_with_another_checksum_is_not_loaded(self):
        packed = self.folder / "release/libwitcall.so.gz"
        packed.write_bytes(gzip.compress(b"another library"))
        self.assert_refused(r".*libwitcall\.so\.gz isn't what .*SHA256SUMS says$")
        packed.write_bytes(b"no archive")
        self.assert_refused(r".*libwitcall\.so\.gz can't be unpacked: ")
        (self.folder / "release/SHA256SUMS").write_text("")
        packed.write_bytes(gzip.compress(b"another library"))
        self.assert_refused(r".*SHA256SUMS has no line for libwitcall\.so$")
        self.assertFalse(self.kept.exists())

    def test_the_variable_comes_first(self):
        own = pathlib.Path(tempfile.mkdtemp(dir=self.folder), "own.so")
        own.write_bytes(library())
        (self.folder / "release/libwitcall.so.gz").write_bytes(b"no archive")
        self.assert_opens(WITCALL_LIBRARY=own)
        self.assertFalse(self.kept.exists())

    def test_without_a_release_it_is_the_library_of_the_system(self):
        (self.folder / "release/libwitcall.so.gz").unlink()
        self.assert_refused(r"libwitcall\.so\.2: cannot open shared object file")

    def test_the_file_that_is_kept_is_ignored_by_git(self):
        self.assertIn("bindings/python/build/", (TOP / ".gitignore").read_text().split())


class Release(unittest.TestCase):
    def test_the_checksum_is_that_of_the_library(self):
        data = gzip.decompress((TOP / "release/libwitcall.so.gz").read_bytes())
        sums = (TOP / "release/SHA256SUMS").read_text()
        line = f"{hashlib.sha256(data).hexdigest()}  libwitcall.so"
        self.assertIn(line, sums.splitlines())
