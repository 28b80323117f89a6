"""The wheel is one for each Python, and says which glibc the library in it needs."""

import functools
import pathlib
import re
import subprocess
import sys
import unittest
import zipfile

import witcall

from . import TOP
from .checkouts import copied, folder_of, python, run

VERSION = (TOP / "VERSION").read_text().strip()
MODULES = "setuptools, wheel, ensurepip"
PACKAGES = "python3-venv python3-setuptools python3-wheel"


def has_modules(program):
    ran = subprocess.run([program, "-c", f"import {MODULES}"], capture_output=True, check=False)
    return ran.returncode == 0


@functools.lru_cache(maxsize=None)
def builder():
    """A Python whose environments have what a wheel needs: this one, or the system's."""
    programs = [sys.executable, "/usr/bin/python3"]
    return next((it for it in programs if pathlib.Path(it).exists() and has_modules(it)), None)


def needed_glibc(data):
    """The second numbers of the versions of glibc whose functions a library uses."""
    return {int(it) for it in re.findall(r"GLIBC_2\.(\d+)", data.decode("latin-1"))}


class Wheel(unittest.TestCase):
    @classmethod
    def setUpClass(cls):
        """Makes an environment with pip, and with the system's packages."""
        if builder() is None:
            raise AssertionError(f"no Python has {MODULES}: apt-get install -y {PACKAGES}")
        cls.environment = folder_of(cls, cls.addClassCleanup)
        words = [builder(), "-m", "venv", "--system-site-packages", cls.environment]
        subprocess.run(words, check=True)

    def built(self, folder):
        """The wheel of the package in a folder."""
        words = "wheel --quiet --no-deps --no-build-isolation --no-index --wheel-dir wheels"
        done = run([self.environment / "bin/pip", *words.split(), folder], folder)
        self.assertEqual(done.returncode, 0, done.stdout + done.stderr)
        [wheel] = (folder / "wheels").iterdir()
        return wheel

    def test_its_tag_and_its_library(self):
        folder = copied(self)
        wheel = self.built(folder / "bindings/python")
        name = rf"witcall-{VERSION}-(py3-none-manylinux_2_(\d+)_x86_64)\.whl"
        tag = re.fullmatch(name, wheel.name)
        self.assertTrue(tag, wheel.name)
        self.assertIn(f"`{tag[1]}`", (TOP / "bindings/python/README.md").read_text())
        unpacked = folder / "unpacked"
        zipfile.ZipFile(wheel).extractall(unpacked)
        head = (unpacked / f"witcall-{VERSION}.dist-info/WHEEL").read_text()
        self.assertEqual(re.findall("^Tag: (.*)$", head, re.M), [tag[1]])
        self.assertIn("\nRoot-Is-Purelib: false\n", head)
        library = unpacked / "witcall/libwitcall.so"
        self.assertEqual(max(needed_glibc(library.read_bytes())), int(tag[2]))
        code = "import witcall; print(witcall.version(), witcall.__version__, witcall.__file__)"
        done = python(code, unpacked, PYTHONPATH=unpacked)
        self.assertEqual(done.stderr, "")
        path = str(unpacked / "witcall/__init__.py")
        self.assertEqual(done.stdout.split(), [witcall.version(), VERSION, path])

    def test_without_a_release_it_has_no_library(self):
        folder = copied(self)
        (folder / "release/libwitcall.so.gz").unlink()
        wheel = self.built(folder / "bindings/python")
        self.assertEqual(wheel.name, f"witcall-{VERSION}-py3-none-any.whl")
        self.assertNotIn("witcall/libwitcall.so", zipfile.ZipFile(wheel).namelist())

    def test_a_library_of_another_checksum_is_not_packed(self):
        folder = copied(self)
        (folder / "release/libwitcall.so.gz").write_bytes(b"no archive")
        with self.assertRaisesRegex(AssertionError, r"libwitcall\.so\.gz can't be unpacked"):
            self.built(folder / "bindings/python")
