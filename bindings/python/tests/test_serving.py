"""Calls of the host's own functions by a component that imports them."""

import json
import unittest

import witcall
from witcall import ArrayMemory, Refused, Trap

from tests.test_values import ALL, PAGE, VALUE

# The value as JSON, where its options have their cases.
AS_JSON = {**VALUE, "some": {"some": 4711}, "none": "none", "nested": {"some": "none"}}
WORD = "package a:b; interface c { word: func() -> string; }"


class Component:
    """A component with one memory, whose imports are functions of the host."""

    def __init__(self, functions, text=ALL, size=PAGE, **options):
        self.package = witcall.open(text)
        self.memory = ArrayMemory(size)
        named = {f"a:b/c#{name}": own for name, own in functions.items()}
        self.imports = witcall.serve(self.package, self.memory, named, **options)

    def __call__(self, name, *flats):
        return self.imports[f"a:b/c#{name}"](*flats)

    def function(self, name):
        return self.package.find("a:b/c", name)


class Serving(unittest.TestCase):
    def test_values_of_every_kind_come_and_go(self):
        got = []

        def same(value):
            got.append(value)
            return value

        made = Component({"same": same})
        function = made.function("same")
        handed = witcall.fill(made.package, function, json.dumps([AS_JSON]), made.memory)
        area = made.memory.allocate(function.result.alignment, function.result.size)
        self.assertIsNone(made("same", *handed, area))
        self.assertEqual(got, [VALUE])
        text = witcall.read(made.package, function, [area], made.memory.data)
        self.assertEqual(json.loads(text), json.loads(json.dumps(AS_JSON)))

    def test_a_flat_result_is_a_core_value(self):
        made = Component({"add": lambda a, b: a + b, "now": lambda: 2**64 - 1})
        self.assertEqual(made("add", 2**32 - 1, 7), 6)
        self.assertEqual(made("add", 2**32 - 2, 1), 2**64 - 1)
        self.assertEqual(made("now"), 2**64 - 1)

    def test_a_function_without_result_gives_nothing(self):
        got = []
        made = Component({"note": got.append})
        text = "grün".encode()
        self.assertIsNone(made("note", made.memory.put(text), len(text)))
        self.assertEqual(got, ["grün"])

    def test_core_values_that_are_no_arguments_are_a_trap(self):
        made = Component({"note": self.fail})
        for flats, line in [
            ((PAGE - 2, 4), "trap K4 bounds in lift-args"),
            ((0,), "trap K8 coresignature in lift-args"),
        ]:
            with self.assertRaisesRegex(Trap, line):
                made("note", *flats)
        made.memory.data[0] = 0xFF
        with self.assertRaisesRegex(Trap, "trap K5 utf8 in lift-args"):
            made("note", 0, 1)

    def test_arguments_above_the_limit_are_refused(self):
        with self.assertRaisesRegex(Refused, "error 76 above the limit"):
            Component({"note": self.fail}, limit=8)("note", 0, 9)

    def test_what_is_no_result_is_refused(self):
        for result in ("7", None, 2**63, [7]):
            with self.subTest(result=result), self.assertRaises(Refused) as raised:
                Component({"add": lambda a, b, result=result: result})("add", 1, 2)
            self.assertEqual(raised.exception.number, 62)

    def test_a_result_needs_its_place(self):
        word = "x" * 40
        for size, area, line in [
            (64, 2, "trap K3 align in place"),
            (64, 60, "trap K4 bounds in place"),
            (32, 0, "trap K6 full in place"),
        ]:
            made = Component({"word": lambda: word}, WORD, size)
            made.memory.allocate(4, 16)
            with self.subTest(area=area), self.assertRaisesRegex(Trap, line):
                made("word", area)
        with self.assertRaisesRegex(Refused, "error 76 above the limit"):
            Component({"word": lambda: word}, WORD, limit=39)("word", 0)

    def test_a_block_in_the_return_area_is_refused(self):
        package = witcall.open(WORD)
        memory = ArrayMemory(64, lambda alignment, size: 4)
        served = witcall.serve(package, memory, {"a:b/c#word": lambda: "x"})
        with self.assertRaisesRegex(Refused, "error 72 bad block"):
            served["a:b/c#word"](0)
        self.assertEqual(memory.data, bytes(64))

    def test_what_a_function_raises_goes_on(self):
        def fails():
            raise KeyError("host")

        with self.assertRaises(KeyError):
            Component({"now": fails})("now")

    def test_a_name_that_is_not_declared_is_refused(self):
        with self.assertRaisesRegex(Refused, "error 63 no function"):
            Component({"other": print})

    def test_the_steps_stand_by_themselves(self):
        package, memory = witcall.open(WORD), ArrayMemory(64)
        function = package.find("a:b/c", "word")
        area = memory.allocate(4, 8)
        self.assertEqual(witcall.receive(package, function, [area], memory.data), "[]")
        self.assertIsNone(witcall.answer(package, function, [area], '"tea"', memory))
        self.assertEqual(memory.get(0, 11), b"\x08\0\0\0\x03\0\0\0tea")
        with self.assertRaisesRegex(Refused, "error 61 bad JSON"):
            witcall.answer(package, function, [area], '"tea', memory)


if __name__ == "__main__":
    unittest.main()
