"""Calls of a component's functions with values."""

import json
import unittest

import witcall
from witcall import ArrayMemory, NotThisType, Refused, Stopped, Trap

PAGE = 65536
# With more than 16 core values the record goes through memory, as its result does.
ALL = """package a:b;
interface c {
  type text = string;
  enum color { red, green-yellow }
  flags marks { first, second, third }
  variant shape { none-yet, dot(tuple<u8, s64>), named(text) }
  record all {
    truth: bool, sign: char, small: s8, large: u64, text: text, bytes: list<u8>,
    pairs: list<tuple<u16, text>>, color: color, marks: marks, shape: shape,
    some: option<u32>, none: option<u32>, nested: option<option<u8>>, done: result<_, text>
  }
  same: func(x: all) -> all;
  add: func(a: s32, b: s64) -> s64;
  note: func(s: string);
  now: func() -> u64;
}
"""
VALUE = {
    "truth": True,
    "sign": "ß",
    "small": -128,
    "large": 2**64 - 1,
    "text": 'grün "x"\n',
    "bytes": [0, 255],
    "pairs": [(1, "a"), (65535, "")],
    "color": "green-yellow",
    "marks": ["first", "third"],
    "shape": {"dot": (7, -(2**63))},
    "some": 4711,
    "none": None,
    "nested": {"some": None},
    "done": {"error": "late"},
}


class Component:
    """A component with one memory, which answers what it was given."""

    def __init__(self, size=PAGE, **options):
        self.package = witcall.open(ALL)
        self.memory = ArrayMemory(size)
        self.got, self.after = [], []
        bodies = {
            "a:b/c#same": lambda address: address,
            "a:b/c#add": lambda a, b: a + b,
            "a:b/c#note": lambda address, length: self.got.append(self.memory.get(address, length)),
            "a:b/c#now": lambda: 2**64 - 1,
            "cabi_post_a:b/c#now": self.after.append,
        }
        bound = witcall.bind(self.package, self.memory, bodies, **options)
        self.calls = {name.partition("#")[2]: call for name, call in bound.items()}

    def __call__(self, name, *arguments):
        return self.calls[name](*arguments)


class Values(unittest.TestCase):
    def test_values_of_every_kind_come_back(self):
        self.assertEqual(Component()("same", VALUE), VALUE)

    def test_other_forms_of_values(self):
        given = {
            **VALUE,
            "bytes": b"\x00\xff",
            "pairs": ([1, "a"],),
            "marks": {"third", "second"},
            "shape": "none-yet",
            "done": "ok",
            "nested": "none",
        }
        wanted = {
            **given,
            "bytes": [0, 255],
            "pairs": [(1, "a")],
            "marks": ["second", "third"],
        }
        self.assertEqual(Component()("same", given), wanted)

    def test_numbers_have_their_signs(self):
        self.assertEqual(Component()("add", -1, -(2**62)), -(2**62) + 2**32 - 1)

    def test_a_function_without_result_returns_none(self):
        made = Component()
        self.assertIsNone(made("note", "grün"))
        self.assertEqual(made.got, ["grün".encode()])

    def test_the_post_return_gets_what_was_answered(self):
        made = Component()
        self.assertEqual(made("now"), 2**64 - 1)
        self.assertEqual(made.after, [2**64 - 1])

    def test_other_values_are_refused(self):
        made = Component()
        wrong = [
            ("add", 2**31, 0),
            ("add", 1),
            ("add", 1, 2, 3),
            ("add", "1", 2),
            ("note", None),
            ("same", {**VALUE, "more": 1}),
            ("same", {**VALUE, "marks": ["fourth"]}),
            ("same", {**VALUE, "shape": {"dot": (1,)}}),
            ("same", {it: VALUE[it] for it in VALUE if it != "text"}),
        ]
        for name, *arguments in wrong:
            with self.assertRaises(Refused) as raised:
                made(name, *arguments)
            self.assertEqual(raised.exception.number, 62, (name, arguments))
        self.assertEqual(made.got, [])

    def test_a_value_of_another_type_is_refused_with_its_place(self):
        made = Component()
        wrong = [
            (("add", 1), "", "array of one value for each parameter"),
            (("add", 1, 2, 3), "", "array of one value for each parameter"),
            (("add", 2**31, 0), "[0]", "s32"),
            (("add", 0, "2"), "[1]", "s64"),
            (("same", {**VALUE, "more": 1}), "[0]", "record"),
            (("same", {**VALUE, "bytes": [0, 256]}), "[0].bytes[1]", "u8"),
            (("same", {**VALUE, "pairs": [(1, "a"), (1, 2)]}), "[0].pairs[1][1]", "string"),
            (("same", {**VALUE, "shape": {"dot": (1,)}}), "[0].shape.dot", "tuple"),
            (("same", {**VALUE, "some": -1}), "[0].some.some", "u32"),
            (("same", {**VALUE, "marks": ["fourth"]}), "[0].marks", "flags"),
        ]
        for (name, *arguments), path, word in wrong:
            with self.subTest(path=path), self.assertRaises(NotThisType) as raised:
                made(name, *arguments)
            error = raised.exception
            self.assertEqual((error.number, error.line), (62, "error 62 not this type"))
            self.assertEqual(error.path, path)
            self.assertIn(word, error.fault)
            place = f" at {path}" if path else ""
            self.assertEqual(str(error), f"{error.line}{place}: {error.fault}")

    def test_a_full_memory_is_a_trap(self):
        with self.assertRaisesRegex(Trap, "trap K6 full in place"):
            Component(size=8)("note", "nine bytes")

    def test_a_limit_is_kept(self):
        with self.assertRaisesRegex(Refused, "error 76 above the limit"):
            Component(limit=8)("note", "nine bytes")

    def test_an_answer_that_is_no_result_is_a_trap(self):
        package = witcall.open("package a:b; interface c { f: func() -> string; }")
        bound = witcall.bind(package, ArrayMemory(64), {"a:b/c#f": lambda: 60})
        with self.assertRaisesRegex(Trap, "trap K4 bounds in lift-result"):
            bound["a:b/c#f"]()

    def test_a_component_that_stops_is_a_trap(self):
        def stop(*_):
            raise Stopped

        bound = witcall.bind(witcall.open(ALL), ArrayMemory(PAGE), {"a:b/c#add": stop})
        with self.assertRaisesRegex(Trap, "trap K7 body in body"):
            bound["a:b/c#add"](1, 2)


class Texts(unittest.TestCase):
    def test_a_text_is_filled_and_read(self):
        package = witcall.open(ALL)
        memory, function = ArrayMemory(PAGE), package.find("a:b/c", "add")
        handed = witcall.fill(package, function, " [ -1, 2 ] ", memory)
        self.assertEqual(handed, (2**32 - 1, 2))
        self.assertEqual(witcall.read(package, function, [-3], memory.data), "-3")

    def test_a_function_without_result_has_no_text(self):
        package = witcall.open(ALL)
        function = package.find("a:b/c", "note")
        self.assertIsNone(witcall.read(package, function, [], bytearray()))

    def test_a_long_text_is_read_whole(self):
        package, memory = witcall.open(ALL), ArrayMemory(PAGE)
        function = package.find("a:b/c", "same")
        value = {**VALUE, "text": "x" * 10000, "pairs": [(1, "a")] * 100}
        given = json.dumps([{**value, "some": {"some": 4711}, "none": "none", "nested": "none"}])
        handed = witcall.fill(package, function, given, memory)
        text = witcall.read(package, function, handed, memory.data)
        self.assertEqual(json.loads(text)["text"], value["text"])
        self.assertEqual(len(json.loads(text)["pairs"]), 100)

    def test_what_is_no_json_is_refused(self):
        package = witcall.open(ALL)
        function = package.find("a:b/c", "add")
        with self.assertRaisesRegex(Refused, "error 61 bad JSON"):
            witcall.fill(package, function, "[1,", ArrayMemory(0))
