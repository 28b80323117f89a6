"""The tests of the package, over the shared library that it finds, or that of WITCALL_LIBRARY."""

import pathlib

TOP = pathlib.Path(__file__).resolve().parents[3]
