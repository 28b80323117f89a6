"""Values that are not of their type are told as the library tells them, before it is asked."""

import asyncio
import enum
import json
import unittest

import witcall
from witcall import ArrayMemory, NotThisType

TYPES = {
    "truth": "bool",
    "tiny": "s8",
    "byte": "u8",
    "short": "s16",
    "word": "u16",
    "number": "s32",
    "count": "u32",
    "long": "s64",
    "size": "u64",
    "letter": "char",
    "text": "string",
    "numbers": "list<u16>",
    "pair": "tuple<u8, list<string>>",
    "row": "record { first: u8, second: list<option<s8>> }",
    "shape": "variant { none-yet, dot(tuple<u8, s64>), named(string) }",
    "color": "enum { red, green, blue, c4, c5, c6, c7, c8, c9 }",
    "marks": "flags { a, b, c }",
    "some": "option<u8>",
    "nested": "option<option<u8>>",
    "done": "result<_, string>",
    "both": "result<u8, u8>",
}
NAMED = ("row", "shape", "color", "marks")
# For each type a value of it, and some that are none.
VALUES = {
    "truth": [True, 0, 1, "true", None],
    "tiny": [-128, -129, 128, True, "1", 1.5, 1e300],
    "byte": [0, -1, 256, False, [0]],
    "short": [32767, 32768, -32769],
    "word": [65535, 65536, -1],
    "number": [-(2**31), 2**31, -(2**31) - 1],
    "count": [2**32 - 1, 2**32, -1],
    "long": [-(2**63), 2**63, "1"],
    "size": [2**64 - 1, -1, {}],
    "letter": ["ä", "", "ab", 7, None],
    "text": ["grün", 7, ["a"], {"a": "b"}, None],
    "numbers": [[1, 65535], [1, 65536], "ab", {"0": 1}, None, ["x" * 100]],
    "pair": [[1, ["a"]], [1], [1, [], 2], [1, [1]], ["1", []], "ab"],
    "row": [
        {"second": [None, 1], "first": 1},
        {"first": 1},
        {"first": 256, "second": [None]},
        {"first": 1, "second": [None, 1, 128]},
        {"first": 1, "second": [], "third": 1},
        {"first": 1, "Second": []},
        [1, []],
    ],
    "shape": [
        {"dot": [1, 2]},
        "dot",
        {"none-yet": None},
        "late",
        {"dot": [1, "2"]},
        {"named": 1},
        {"dot": [1, 2], "named": "x"},
        {},
        7,
    ],
    "color": ["red", "yellow", {"red": None}, 0, "a\n\u0001\"\\\u20ac"],
    "marks": [["a", "c"], ["a", "d"], ["a", "a"], "a", [1], {"a": True}],
    "some": [7, 256, "none", {"some": 7}],
    "nested": [{"some": None}, None, {"some": 256}, 7, "some", {"none": 1}],
    "done": ["ok", {"ok": 1}, {"error": 1}, "error", {"error": "a", "ok": 1}],
    "both": [{"ok": 1}, "ok", {"ok": "1"}, {"error": 256}],
}


def package_text():
    """A package with a function `f-NAME` for each type, which takes and returns it."""
    declared = "".join(
        f"{text.split()[0]} {name} {text.split(' ', 1)[1]} " if name in NAMED else ""
        for name, text in TYPES.items()
    )
    used = {name: name if name in NAMED else text for name, text in TYPES.items()}
    functions = "".join(f"f-{name}: func(x: {it}) -> {it}; " for name, it in used.items())
    return f"package a:b; interface c {{ {declared} {functions} none: func(); }}"


class Host:
    """Functions of a component and of the host, over one memory."""

    def __init__(self):
        self.package = witcall.open(package_text())
        self.memory = ArrayMemory(65536)
        self.memory.allocate(8, 64)  # the return area at 0

    def call(self, name, value):
        """Hands a value to a component's function."""
        full_name = f"a:b/c#{name}"
        bodies = {full_name: lambda *_: 1 / 0}
        return witcall.bind(self.package, self.memory, bodies)[full_name](value)

    def serve(self, name, value):
        """Hands a value back from a function of the host."""
        full_name = f"a:b/c#{name}"
        function = self.package.find("a:b/c", name)
        given = {} if function.result is None else {full_name: lambda _: value}
        served = witcall.serve(self.package, self.memory, given or {full_name: lambda: value})
        return served[full_name](*[0] * len(function.lowered.parameters))

    def fill(self, name, value):
        """Hands JSON to a component's function."""
        function = self.package.find("a:b/c", name)
        return witcall.fill(self.package, function, json.dumps([value]), self.memory)

    def answer(self, name, value):
        """Hands JSON back from a function of the host."""
        function = self.package.find("a:b/c", name)
        flats = [0] * len(function.lowered.parameters)
        return witcall.answer(self.package, function, flats, json.dumps(value), self.memory)


def fault_of(run, *words):
    """The path and the fault of a value, or None if it is of its type."""
    try:
        run(*words)
    except NotThisType as error:
        assert (error.number, error.line) == (62, "error 62 not this type")
        return error.path, error.fault
    except ZeroDivisionError:  # the component's function runs
        return None
    return None


def result_path(path):
    """The path in a result that is that of the first argument."""
    return f"result{path.removeprefix('[0]')}"


def cases():
    """Each name of a type with each value for it."""
    return [(f"f-{name}", it) for name, values in VALUES.items() for it in values]


class Faults(unittest.TestCase):
    def test_the_first_value_of_each_type_is_one_and_the_others_are_none(self):
        host = Host()
        for name, (good, *others) in VALUES.items():
            with self.subTest(name=name):
                self.assertIsNone(fault_of(host.call, f"f-{name}", good))
                found = [fault_of(host.call, f"f-{name}", it) for it in others]
                self.assertNotIn(None, found)
        self.assertEqual(VALUES.keys(), TYPES.keys())

    def test_they_are_told_in_the_words_of_the_library(self):
        """Of a value in JSON's own form, which differs from Python's in options alone."""
        host, compared = Host(), 0
        for name, value in cases():
            told = fault_of(host.call, name, value)
            of_library = fault_of(host.fill, name, value)
            if "second" in str(value) or "some" in name or "nested" in name:
                continue
            with self.subTest(name=name, value=value):
                # the library has numbers of more than 64 bits as those with a fraction
                if "e+" not in str(of_library):
                    self.assertEqual(told, of_library)
                    compared += 1
        self.assertGreater(compared, 70)

    def test_a_result_as_json_is_told_as_arguments_are(self):
        host = Host()
        for name, value in cases():
            of_library = fault_of(host.fill, name, value)
            with self.subTest(name=name, value=value):
                wanted = of_library and (result_path(of_library[0]), of_library[1])
                if "e+" not in str(wanted):
                    self.assertEqual(fault_of(host.answer, name, value), wanted)

    def test_a_result_of_python_is_told_as_arguments_are(self):
        host = Host()
        for name, value in cases():
            told = fault_of(host.call, name, value)
            with self.subTest(name=name, value=value):
                wanted = told and (result_path(told[0]), told[1])
                self.assertEqual(fault_of(host.serve, name, value), wanted)

    def test_the_message_names_the_function_whose_result_it_is(self):
        with self.assertRaises(NotThisType) as caught:
            Host().serve("f-row", {"first": 1, "second": [300]})
        error = caught.exception
        self.assertEqual((error.function, error.path), ("a:b/c#f-row", "result.second[0].some"))
        place = "at result.second[0].some of a:b/c#f-row"
        self.assertEqual(str(error), f"{error.line} {place}: {error.fault}")
        self.assertEqual(error.fault, "a `s8` is a whole number from -128 to 127, and not `300`")
        with self.assertRaises(NotThisType) as caught:
            Host().call("f-byte", 256)
        self.assertEqual(caught.exception.function, "")

    def test_json_of_a_function_without_a_result_is_told(self):
        with self.assertRaises(NotThisType) as caught:
            Host().answer("none", 7)
        fault = "a function without a result gives nothing, and not `7`"
        self.assertEqual((caught.exception.path, caught.exception.fault), ("result", fault))
        self.assertIsNone(Host().serve("none", 7))

    def test_minus_zero_is_no_number(self):
        host = Host()
        function = host.package.find("a:b/c", "f-byte")
        with self.assertRaises(NotThisType) as caught:
            witcall.answer(host.package, function, [0], "-0", host.memory)
        self.assertIn("and not `-0.0`", caught.exception.fault)


class Awaited(unittest.TestCase):
    """A coroutine in place of a value is told as one, and none is left that is never awaited."""

    def assert_told(self, value, name, path, words):
        with self.assertRaises(NotThisType) as caught:
            Host().serve(name, value)
        self.assertEqual(caught.exception.path, f"result{path}")
        self.assertTrue(caught.exception.fault.endswith(f"and not {words}"), caught.exception)

    def test_a_coroutine_is_told(self):
        async def later():
            return 7

        words = "a coroutine, which has to be awaited first"
        for name in ("f-byte", "none", "f-numbers", "f-row", "f-some", "f-marks", "f-text"):
            with self.subTest(name=name):
                self.assert_told(later(), name, ".some" if name == "f-some" else "", words)
        inner = later()
        self.assert_told([1, inner], "f-numbers", "[1]", words)
        inner.close()
        with self.assertRaises(NotThisType) as caught:
            Host().call("f-byte", inner)
        self.assertIn(words, str(caught.exception))

    def test_other_awaitables_are_told(self):
        loop = asyncio.new_event_loop()
        self.addCleanup(loop.close)
        words = "an awaitable Future, which has to be awaited first"
        for name in ("f-byte", "none", "f-numbers", "f-pair"):
            with self.subTest(name=name):
                self.assert_told(loop.create_future(), name, "", words)


class Cut(unittest.TestCase):
    """What has no JSON, or had another one, is refused with its place."""

    def assert_told(self, name, value, path, shown):
        host = Host()
        for run in (host.call, host.serve):
            with self.subTest(name=name, run=run.__name__):
                told_path, fault = fault_of(run, name, value)
                self.assertEqual(told_path, f"[0]{path}" if run == host.call else f"result{path}")
                self.assertTrue(fault.endswith(f"and not {shown}"), fault)
                fault.encode()

    def test_numbers_that_are_none(self):
        for value, shown in (
            (float("nan"), "`nan`"),
            (float("inf"), "`inf`"),
            (1.0, "`1.0`"),
            (2**64, "`18446744073709551616`"),
            (10**5000, "`a number of 16610 bits`"),
            (-(10**5000), "`a number of 16610 bits`"),
            (1j, "`1j`"),
        ):
            self.assert_told("f-size", value, "", shown)
            self.assert_told("f-numbers", [0, value], "[1]", shown)

    def test_values_that_are_part_of_themselves(self):
        items, members = [], {}
        items.append(items)
        members["first"] = members["second"] = members
        self.assert_told("f-numbers", items, "[0]", "`[[[[[[[...]]]]]]]`")
        self.assert_told("f-pair", items, "", "`[[[[[[[...]]]]]]]`")
        found = fault_of(Host().call, "f-row", members)
        self.assertEqual(found[0], "[0].first")

    def test_texts_that_are_none(self):
        self.assert_told("f-text", b"abc", "", "`b'abc'`")
        self.assert_told("f-letter", b"a", "", "`b'a'`")
        self.assert_told("f-color", b"red", "", "`b'red'`")
        self.assert_told("f-shape", {b"named": "x"}, "", "`{b'named': 'x'}`")
        for text in ("\ud800", "a\udfffb", "\ud83d\ude00"):
            shown = json.dumps(text).replace("\\\\", "\\")
            self.assert_told("f-text", text, "", f"`{shown}`")
            self.assert_told("f-pair", (1, ["", text]), "[1][1]", f"`{shown}`")
        self.assert_told("f-letter", "\ud800", "", '`"\\ud800"`')
        self.assert_told("f-color", "\ud800", "", '`"\\ud800"`')

    def test_keys_that_are_no_texts(self):
        text = "package a:b; interface c { record r { null: u8, true: u8 } f: func(x: r); }"
        bodies = {"a:b/c#f": lambda a, b: None}
        call = witcall.bind(witcall.open(text), ArrayMemory(64), bodies)["a:b/c#f"]
        self.assertIsNone(call({"null": 1, "true": 2}))
        for value in ({None: 1, True: 2}, {"null": 1, True: 2}):
            with self.assertRaises(NotThisType) as caught:
                call(value)
            self.assertEqual(caught.exception.path, "[0]")

    def test_objects_that_are_no_values(self):
        class Odd:
            def __repr__(self):
                raise KeyError

        host = Host()
        for value in (object(), Odd(), {1, 2}.__iter__, lambda: 1, type, ...):
            for name in TYPES:
                path, _ = fault_of(host.call, f"f-{name}", value)
                self.assertEqual(path, "[0].some" if name == "some" else "[0]")

    def test_kinds_of_numbers_and_texts_that_python_has(self):
        class Color(str, enum.Enum):
            RED = "red"

        host = Host()
        for name, value in (
            ("f-color", Color.RED),
            ("f-byte", enum.IntEnum("Number", {"ONE": 1}).ONE),
            ("f-numbers", (it for it in (1, 2))),
            ("f-numbers", range(3)),
            ("f-numbers", b"\0\xff"),
            ("f-marks", {"c", "a"}),
            ("f-marks", frozenset()),
            ("f-pair", (1, ("a", "b"))),
        ):
            self.assertIsNone(fault_of(host.call, name, value), name)


class Names(unittest.TestCase):
    """Names of a package are keys alone: none reaches an attribute of what a host hands in."""

    LABELS = ("keys", "items", "get", "copy", "pop", "update", "clear", "values", "class", "mro")

    def test_fields_are_keys(self):
        fields = ", ".join(f"%{it}: u8" for it in self.LABELS)
        text = f"package a:b; interface c {{ record r {{ {fields} }} same: func(x: r) -> r; }}"
        package, memory = witcall.open(text), ArrayMemory(256)
        value = {it: place for place, it in enumerate(self.LABELS)}
        served = witcall.serve(package, memory, {"a:b/c#same": lambda it: it})["a:b/c#same"]
        back = memory.put(bytes(16))
        served(*value.values(), back)
        self.assertEqual(memory.get(back, len(value)), bytes(range(len(value))))
        bound = witcall.bind(package, memory, {"a:b/c#same": lambda *flats: back})["a:b/c#same"]
        self.assertEqual(bound(value), value)
        with self.assertRaises(NotThisType):
            bound({})

        class Record:
            keys = items = get = copy = pop = update = clear = values = mro = 0

        with self.assertRaises(NotThisType):
            bound(Record())

    def test_cases_and_labels_are_texts(self):
        labels = ", ".join(f"%{it}" for it in self.LABELS)
        cases = ", ".join(f"%{it}(u8)" for it in self.LABELS)
        text = f"""package a:b; interface c {{ enum e {{ {labels} }} variant v {{ {cases} }}
            flags g {{ {labels} }} f: func(x: e, y: v, z: g) -> list<tuple<e, v>>; }}"""
        got = []
        package, memory = witcall.open(text), ArrayMemory(256)
        bound = witcall.bind(package, memory, {"a:b/c#f": lambda *flats: got.append(flats)})
        for place, label in enumerate(self.LABELS):
            with self.assertRaisesRegex(witcall.Trap, "K8 coresignature in lift-result"):
                bound["a:b/c#f"](label, {label: 7}, [label])
            self.assertEqual(got.pop(), (place, place, 7, 2**place))
        for label in ("__class__", "__init__", "other"):
            good = ("get", {"get": 1}, [])
            for place, wrong in enumerate((label, {label: 1}, [label])):
                with self.assertRaises(NotThisType):
                    bound["a:b/c#f"](*good[:place], wrong, *good[place + 1 :])

    def test_functions_are_items(self):
        functions = "".join(f"%{it}: func() -> u8; " for it in self.LABELS)
        package = witcall.open(f"package a:b; interface c {{ {functions} }}")
        for make in (witcall.serve, witcall.bind):
            self.assertEqual(make(package, ArrayMemory(0), {}), {})
            made = make(package, ArrayMemory(0), {"a:b/c#get": lambda: 7})
            self.assertEqual([*made], ["a:b/c#get"])
            self.assertEqual(made["a:b/c#get"](), 7)
        for name in ("__class__", "__init__", "other"):
            with self.assertRaisesRegex(witcall.Refused, "^error 63 no function"):
                package.find("a:b/c", name)
            with self.assertRaisesRegex(witcall.Refused, "^error 63 no function"):
                witcall.serve(package, ArrayMemory(0), {f"a:b/c#{name}": lambda: 7})
