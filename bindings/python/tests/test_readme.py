"""All blocks of README.md run in its order: code prints what its comments say."""

import re
import sys
import unittest

from . import TOP
from .checkouts import copied, python, run

PAGE = (TOP / "bindings/python/README.md").read_text()
# Each block with its language.
BLOCKS = re.findall(r"^```(\w*)\n(.*?)^```$", PAGE, re.M | re.S)
PACKAGES = "python3-venv python3-setuptools python3-wheel"


def blocks_of(language):
    return [code for its_language, code in BLOCKS if its_language == language]


class Readme(unittest.TestCase):
    def test_each_block_is_one_that_is_run_or_compared(self):
        self.assertEqual({language for language, _ in BLOCKS}, {"python", "sh", "text"})
        self.assertEqual(len(BLOCKS) * 2, len(re.findall("^ *```", PAGE, re.M)))

    def test_texts_are_parts_of_the_module_that_the_page_names(self):
        [path] = re.findall(r"`(examples/python/\S+\.py)` is that of", PAGE)
        for text in blocks_of("text"):
            self.assertIn(f"\n{text}\n", (TOP / path).read_text())

    @unittest.skipIf(sys.version_info < (3, 10), "its module needs Python 3.10")
    def test_code_prints_its_comments(self):
        code = "\n".join(blocks_of("python"))
        done = python(code, TOP, PYTHONPATH=TOP / "bindings/python")
        self.assertEqual((done.returncode, done.stderr), (0, ""))
        comments = re.findall(r"^ *# (.*)$", code, re.M)
        self.assertEqual(done.stdout.splitlines(), comments)

    def test_code_names_what_the_page_is_of(self):
        code = "\n".join(blocks_of("python"))
        calls = ("open", "link", "bind", "fill", "read", "serve", "receive", "answer", "Instance")
        for name in calls:
            self.assertIn(f"witcall.{name}(", code)

    def test_commands_run(self):
        """In a checkout, without a network. PIP_NO_INDEX has pip fail and not wait for one."""
        folder, commands = copied(self), "".join(blocks_of("sh"))
        done = run(["sh", "-eux", "-c", commands], folder, PIP_NO_INDEX=1, HOME=folder)
        told = f"{done.stdout}{done.stderr}\nneeded: apt-get install -y {PACKAGES}"
        self.assertEqual(done.returncode, 0, told)
        self.assertEqual(done.stdout.splitlines()[0].partition("+")[0], self.library_version())

    def library_version(self):
        code = "import witcall; print(witcall.version())"
        return python(code, copied(self), PYTHONPATH="bindings/python").stdout.strip()
