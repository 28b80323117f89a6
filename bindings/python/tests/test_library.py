"""What the package declares is what include/witcall.h does."""

import ctypes
import os
import re
import subprocess
import sys
import unittest
from unittest import mock

import witcall
from witcall import _library, _table

from . import TOP

HEADER = (TOP / "include/witcall.h").read_text()
STRUCTS = {
    "witcall_status": _library.CStatus,
    "witcall_package": _library.Handle,
    "witcall_request": _library.CRequest,
    "witcall_block": _library.CBlock,
    "witcall_value": _library.CValue,
    "witcall_call": _library.CCall,
    "witcall_type_info": _library.TypeInfo,
    "witcall_row_info": _library.RowInfo,
    "witcall_member_info": _library.MemberInfo,
}


def c_types(parameters):
    """The types of C that a list of parameters of ctypes declares."""
    names = {struct: f"{name} *" for name, struct in STRUCTS.items()}
    names |= {ctypes.c_size_t: "size_t *", ctypes.c_uint32: "uint32_t *"}
    plain = {ctypes.c_void_p: "uint8_t *", ctypes.c_uint64: "size_t", ctypes.c_uint32: "uint32_t"}
    plain |= {_library.CStatus: "witcall_status"}
    return [plain.get(it) or names[it._type_] for it in parameters]


def c_type(parameter):
    """The type of a parameter of C."""
    return re.sub(r"(const |\w+$)", "", parameter.strip()).strip()


class Declarations(unittest.TestCase):
    def test_functions_have_the_parameters_of_the_header(self):
        declared = re.findall(r"^witcall_status (witcall_\w+)\(([^;]*)\);", HEADER, re.M)
        # ctypes has one type for both numbers of 64 bits
        of_header = {
            name: [c_type(it).replace("uint64_t", "size_t") for it in words.split(",")]
            for name, words in declared
        }
        for name, parameters in _library.PARAMETERS.items():
            self.assertEqual(c_types(parameters), of_header[name], name)

    def test_structs_have_the_sizes_of_the_header(self):
        sizes = dict(re.findall(r"^WITCALL_HAS_SIZE\((\w+), (\d+)\);", HEADER, re.M))
        for name, struct in STRUCTS.items():
            self.assertEqual(ctypes.sizeof(struct), int(sizes[name]), name)

    def test_constants_are_those_of_the_header(self):
        numbers = dict(re.findall(r"^#define WITCALL_(\w+) (\d+)", HEADER, re.M))
        kinds = HEADER.split("kind of a type")[1]
        of_kinds = re.findall(r"^#define WITCALL_(\w+) (\d+)", kinds, re.M)
        self.assertEqual(_library.ABI, int(numbers["ABI"]))
        for name in ("MAX_VALUES", "MAX_STATUS_LINE", "DONE", "REFUSED", "TRAP"):
            self.assertEqual(getattr(_library, name), int(numbers[name]), name)
        for name in ("NOT_OPEN", "NO_ROOM", "NOT_THERE"):
            self.assertEqual(getattr(_library, name), int(numbers[name]), name)
        for number, kind in enumerate(_table._KINDS[1:], 1):
            self.assertIn((kind.upper(), str(number)), of_kinds)


class Loading(unittest.TestCase):
    def test_the_version_is_that_of_the_checkout(self):
        version = (TOP / "VERSION").read_text().strip()
        self.assertEqual([witcall.version(), witcall.__version__], [version, version])
        project = (TOP / "bindings/python/pyproject.toml").read_text()
        self.assertIn(f'\nversion = "{version}"\n', project)

    def test_the_library_says_its_version_and_may_say_its_commit(self):
        told = witcall.library_version()
        self.assertRegex(told, r"^\d+\.\d+\.\d+(\+([0-9a-f]{12}|next))?$")
        self.assertEqual(told.partition("+")[0], witcall.version())

    def test_a_library_of_another_version_is_loaded(self):
        for told in ("0.0.1", "9.0.0+0123456789ab"):
            with mock.patch.object(_library, "bytes_of", return_value=told.encode()):
                self.assertEqual(witcall.library_version(), told)
                self.assertEqual(witcall.version(), told[:5])
        with mock.patch.object(_library, "__version__", "9.0.0"):
            _library.library.cache_clear()
            _library.library()
        _library.library.cache_clear()

    def loads(self, path):
        """What an import says if the library has this path."""
        words = [sys.executable, "-c", "import witcall; witcall.version()"]
        paths = {"WITCALL_LIBRARY": path, "PYTHONPATH": str(TOP / "bindings/python")}
        ran = subprocess.run(words, env={**os.environ, **paths}, capture_output=True, text=True)
        return ran.returncode, ran.stderr

    def test_a_library_that_is_not_there_is_told(self):
        status, line = self.loads("/no/library.so")
        self.assertEqual(status, 1)
        self.assertIn("ImportError: /no/library.so: cannot open shared object file", line)
        self.assertIn("WITCALL_LIBRARY may have the path", line)

    def test_another_binary_interface_is_told(self):
        with mock.patch.object(_library, "ABI", 1000):
            _library.library.cache_clear()
            with self.assertRaisesRegex(ImportError, "is 2, and this package needs 1000") as caught:
                _library.library()
        versions = f"version {witcall.library_version()}, and this package {witcall.__version__}"
        self.assertTrue(str(caught.exception).endswith(versions), caught.exception)
        _library.library.cache_clear()

    def test_the_names_of_the_package_are_there(self):
        for name in witcall.__all__:
            if name == "__version__":
                continue
            self.assertTrue(getattr(witcall, name).__doc__, name)
