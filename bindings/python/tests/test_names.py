"""A function that is not there is told with the nearest that is."""

import time
import unittest
from unittest import mock

import witcall
from witcall import ArrayMemory, Refused

TEXT = """package a:b@1.0.0;
interface c { upper: func(); lower: func(); }
interface d { other: func(); }
world w { import tell: func(); export ask: func(); import c; }
"""
C, D, W = (f"a:b/{it}@1.0.0" for it in "cdw")


class NoFunction(unittest.TestCase):
    def assert_told(self, run, hint):
        with self.assertRaises(Refused) as caught:
            run()
        error = caught.exception
        self.assertEqual((error.number, error.line), (63, "error 63 no function"))
        self.assertEqual(error.hint, hint)
        self.assertEqual(str(error), f"error 63 no function: {hint}")

    def test_the_nearest_is_named(self):
        package = witcall.open(TEXT)
        look = "find_import and find_export look there"
        missing = "has functions here; the nearest is"
        for find, words, hint in (
            (package.find, (C, "uper"), f"no `uper` in `{C}`; the nearest is `upper`"),
            (package.find, (C, "towel"), f"no `towel` in `{C}`; the nearest is `lower`"),
            (package.find, (C, ""), f"no `` in `{C}`; the nearest is `upper`"),
            (package.find, (C, "other"), f"no `other` in `{C}`; it is in `{D}`"),
            (package.find, ("a:b/c", "uper"), f"no interface `a:b/c` {missing} `upper` in `{C}`"),
            (package.find, ("a:b/D", "x"), f"no interface `a:b/D` {missing} `upper` in `{C}`"),
            (package.find, ("x:b/c", "other"), f"no interface `x:b/c` {missing} `other` in `{D}`"),
            (package.find, ("", "uper"), f"`uper` has no interface; the nearest is `{C}#upper`"),
            (package.find, (W, "tell"), f"`{W}` is a world: {look}"),
            (package.find_import, (W, "tel"), f"no `tel` in `{W}`; the nearest is `tell`"),
            (package.find_import, (W, "upper"), f"no `upper` in `{W}`; the nearest is `tell`"),
            (package.find_export, (W, "tell"), f"no `tell` in `{W}`; the nearest is `ask`"),
            (package.find_export, ("a:b/w", "ask"), f"no world `a:b/w` {missing} `ask` in `{W}`"),
        ):
            with self.subTest(find=find.__name__, words=words):
                self.assert_told(lambda find=find, words=words: find(*words), hint)

    def test_a_package_without_functions(self):
        package = witcall.open("package a:b; world w { import f: func(); }")
        hint = "no `f` in `a:b/c`: no interface here has functions"
        self.assert_told(lambda: package.find("a:b/c", "f"), hint)
        hint = "no `f` in `a:b/w`: no world here has functions"
        self.assert_told(lambda: package.find_export("a:b/w", "f"), hint)

    def test_without_a_hint_the_error_is_the_same(self):
        package = witcall.open(TEXT)
        no_memory = witcall.OutOfMemory(witcall.Status(3, 66, 0, 0), "error 66 no memory")
        with mock.patch.object(witcall.Package, "describe", side_effect=no_memory):
            with self.assertRaisesRegex(Refused, "^error 63 no function$"):
                package.find(C, "uper")

    def test_names_of_bodies_and_of_functions_are_told(self):
        package, memory = witcall.open(TEXT), ArrayMemory(0)
        hint = f"no `uper` in `{C}`; the nearest is `upper`"
        for make in (witcall.bind, witcall.serve):
            self.assert_told(lambda make=make: make(package, memory, {f"{C}#uper": print}), hint)
        bodies = {f"{C}#uper": print}
        self.assert_told(lambda: witcall.link(package, memory, ArrayMemory(0), bodies), hint)

    def test_a_name_is_shown_in_letters_that_can_be_printed(self):
        package = witcall.open(TEXT)
        hint = f"no `a\\n\\x1b[1m\\u200bä` in `{C}`; the nearest is `upper`"
        self.assert_told(lambda: package.find(C, "a\n\x1b[1m\u200bä"), hint)
        hint = f"no `{'x' * 100}..` in `{C}`; the nearest is `upper`"
        self.assert_told(lambda: package.find(C, "x" * 300), hint)

    def test_long_names_take_a_moment(self):
        functions = "".join(f"f{'x' * 200}{number}: func(); " for number in range(3000))
        package = witcall.open(f"package a:b; interface c {{ {functions} }}")
        self.assertEqual(len(package.functions), 3000)
        begin = time.process_time()
        self.assertRaises(Refused, package.find, "a:b/c", "g" * 10_000)
        self.assertRaises(Refused, package.find, "a:b/c", "g" * 200)
        self.assertLess(time.process_time() - begin, 20)
