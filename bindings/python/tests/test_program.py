"""The program: what `python -m witcall` prints, beside what the pages say of `witcall`."""

import json
import os
import subprocess
import sys
import unittest

from . import TOP

EXAMPLES = TOP / "examples"


def run(*words):
    """The exit status, and what goes to standard output and to standard error."""
    command = [sys.executable, "-B", "-m", "witcall", *map(str, words)]
    folder = TOP / "bindings" / "python"
    done = subprocess.run(command, cwd=folder, env=os.environ, capture_output=True, check=False)
    return done.returncode, done.stdout, done.stderr.decode()


class Program(unittest.TestCase):
    def test_calls_are_those_of_the_pages(self):
        shapes = (EXAMPLES / "shapes.wit", "demo:shapes/store@1.0.0")
        for words, wanted in (
            ((EXAMPLES / "c.wit", "a:b/c", "f", "[7]", "[8]"), "8"),
            ((EXAMPLES / "text.wit", "demo:text/letters", "upper", '["ä"]', '["Ä"]'), '"Ä"'),
            ((*shapes, "count", "[true]", "[3]"), "3"),
            (
                (*shapes, "list", "[]", '[[{"dot":{"x":1,"y":-2}},"none"]]'),
                '[{"dot":{"x":1,"y":-2}},"none"]',
            ),
        ):
            self.assertEqual(run("call", *words), (0, f"{wanted}\n".encode(), ""))

    def test_what_is_refused_has_its_line(self):
        c = EXAMPLES / "c.wit"
        status, out, error = run("call", c, "a:b/c", "f", '["7"]', "[8]")
        self.assertEqual((status, out), (1, b""))
        self.assertTrue(error.startswith("error 62 not this type at [0]: "), error)
        hint = "no `g` in `a:b/c`; the nearest is `f`"
        self.assertEqual(
            run("call", c, "a:b/c", "g", "[7]", "[8]"), (1, b"", f"error 63 no function: {hint}\n")
        )

    def test_packages_are_written_and_checked(self):
        c = EXAMPLES / "c.wit"
        text = "package a:b;\n\ninterface c {\n  f: func(x: u32) -> u32;\n}\n"
        self.assertEqual(run("text", c), (0, text.encode(), ""))
        self.assertEqual(run("bin", c)[1][:4], b"\0asm")
        self.assertEqual(json.loads(run("describe", c)[1])["packages"], ["a:b"])
        self.assertEqual(run("check", c), (0, b"", ""))
        broken = TOP / "tests/explain/files/strng.wit"
        fault = (
            f"{broken}:4:16: error 41 unknown strng\n   = no `strng` here; did you mean `string`?\n"
        )
        self.assertEqual(run("check", broken), (1, fault.encode(), ""))

    def test_words_that_are_no_command_are_usage(self):
        for words in ((), ("show", "x"), ("call", "x")):
            status, out, error = run(*words)
            self.assertEqual((status, out), (2, b""))
            self.assertIn("usage: python -m witcall check FILE..", error)
        self.assertEqual(run("--help")[0], 0)
