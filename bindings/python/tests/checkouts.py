"""Copies of the part of this checkout that the package needs, in folders that are removed.

Their release has the library that is tested.
"""

import gzip
import hashlib
import os
import pathlib
import shutil
import subprocess
import sys
import tempfile

from . import TOP

LEFT_OUT = shutil.ignore_patterns("build", "__pycache__", "*.egg-info", "tests")
# Variables that say where something is.
OF_PLACES = ("WITCALL_LIBRARY", "PYTHONPATH", "PYTHONHOME", "VIRTUAL_ENV")


def library():
    """The library that is tested."""
    named = os.environ.get("WITCALL_LIBRARY")
    if named:
        return pathlib.Path(named).read_bytes()
    return gzip.decompress((TOP / "release/libwitcall.so.gz").read_bytes())


def folder_of(case, add_cleanup=None):
    """An empty folder, which is removed after a test, or after all tests of a class."""
    folder = pathlib.Path(tempfile.mkdtemp(prefix="witcall-"))
    (add_cleanup or case.addCleanup)(shutil.rmtree, folder)
    return folder


def copied(case):
    """A checkout with the package, and a release of the library."""
    folder, found = folder_of(case), library()
    (folder / "release").mkdir()
    (folder / "release/libwitcall.so.gz").write_bytes(gzip.compress(found, 1))
    sums = f"{'0' * 64}  witcall\n{hashlib.sha256(found).hexdigest()}  libwitcall.so\n"
    (folder / "release/SHA256SUMS").write_text(sums)
    shutil.copy(TOP / "VERSION", folder)
    shutil.copytree(TOP / "bindings/python", folder / "bindings/python", ignore=LEFT_OUT)
    return folder


def run(words, folder, **variables):
    """Runs a command in a folder, with no variables of places but these."""
    kept = {name: it for name, it in os.environ.items() if name not in OF_PLACES}
    environment = {**kept, **{name: str(it) for name, it in variables.items()}}
    words = [str(it) for it in words]
    return subprocess.run(
        words, cwd=folder, env=environment, capture_output=True, text=True, check=False
    )


def python(code, folder, **variables):
    """Runs code by this interpreter."""
    return run([sys.executable, "-B", "-c", code], folder, **variables)
