"""Packages: what the stored rows and the host in C say of them."""

import gc
import pathlib
import re
import shutil
import tempfile
import threading
import unittest

import witcall

from . import TOP
from .rows import rows_of

TEXT = "package a:b;\n\ninterface c {\n  f: func(x: u32) -> u32;\n}\n"
COMMANDS = {
    "open": lambda package: "opened",
    "text": lambda package: package.to_text().removesuffix("\n"),
    "bin": lambda package: package.to_binary().hex(),
}


def answered(row, wanted):
    """What a row answers. Of a package that is too long to write the library has no offset."""
    package = None
    try:
        with witcall.open(*row.inputs) as package:
            return COMMANDS[row.command](package)
    except witcall.WitcallError as error:
        is_too_long = package is not None and wanted.startswith(f"{error.line} limit at ")
        return wanted if is_too_long else error.line


class Rows(unittest.TestCase):
    def test_the_rows_have_their_answers(self):
        for file in ("errors", "packages", "sets", "texts"):
            rows = rows_of(f"{file}.rows", COMMANDS)
            self.assertGreaterEqual(len(rows), 29)
            for row in rows:
                wanted = "\n".join(row.answer)
                with self.subTest(file=file, name=row.name):
                    self.assertEqual(answered(row, wanted), wanted)


class Inputs(unittest.TestCase):
    def test_each_kind_of_input_opens_the_same_package(self):
        path = pathlib.Path(tempfile.mkdtemp(), "c.wit")
        path.write_text(TEXT)
        data = TEXT.encode()
        for given in (TEXT, data, bytearray(data), memoryview(b".." + data)[2:], path):
            with witcall.open(given) as package, witcall.open(package.to_binary()) as again:
                self.assertEqual([package.to_text(), again.to_text()], [TEXT, TEXT])

    def test_no_input_is_refused(self):
        with self.assertRaisesRegex(witcall.Refused, "^error 74 bad lengths$"):
            witcall.open()
        with self.assertRaises(witcall.Refused) as caught:
            witcall.open("")
        self.assertEqual(caught.exception.number, 32)

    def test_a_path_as_a_text_is_refused_with_what_to_do(self):
        folder = pathlib.Path(tempfile.mkdtemp())
        self.addCleanup(shutil.rmtree, folder)
        file = folder / "no-ending"
        file.write_text(TEXT)
        for path in ("cart.wit", "folder/cart.wasm", "/no/cart.wit", "Ä b.wit", str(file)):
            for inputs in ([path], [TEXT, path]):
                with self.subTest(inputs), self.assertRaises(witcall.Refused) as caught:
                    witcall.open(*inputs)
                error = caught.exception
                self.assertRegex(error.line, r"^error (30|32) ")
                self.assertTrue(error.line.startswith(f"error {error.number} "))
                fix = f"`witcall.open(pathlib.Path({path!r}))` opens the file"
                self.assertEqual(error.hint, f"a `str` is the text of a package; {fix}")
                self.assertEqual(str(error), f"{error.line}: {error.hint}")
        with self.assertRaisesRegex(witcall.Refused, r"^error 44 .*`witcall\.open_module\(pathlib"):
            witcall.open_module("echo.wasm")

    def test_another_text_that_is_refused_has_no_hint(self):
        texts = ("", "cart", "package a:b; // cart.wit", "interface c {\n}.wit", str(TOP))
        for given in (*texts, f"{'x' * 5000}.wit", b"cart.wit", TEXT + "cart.wit"):
            with self.subTest(given), self.assertRaises(witcall.Refused) as caught:
                witcall.open(given)
            error = caught.exception
            self.assertEqual([error.hint, str(error)], ["", error.line])

    def test_what_is_no_input_is_a_type_error(self):
        for given in (5, None, [1, 2], 1.5, object(), {"a": 1}):
            end = f"the path of a file as `pathlib.Path`, and not {type(given).__name__}$"
            for call in (witcall.open, witcall.explain):
                with self.subTest(given=given, call=call):
                    with self.assertRaisesRegex(TypeError, f"^a package is a text.*, or {end}"):
                        call(given)
            with self.assertRaisesRegex(TypeError, f"^a module is bytes, or {end}"):
                witcall.open_module(given)
        with self.assertRaises(UnicodeEncodeError):
            witcall.open("package a:b; // \ud800")

    def test_what_is_refused_has_its_status_and_its_line(self):
        with self.assertRaises(witcall.WitcallError) as caught:
            witcall.open("package a:b; interface c { f: func(x: size); }")
        error = caught.exception
        self.assertIsInstance(error, witcall.Refused)
        self.assertEqual(error.status, witcall.Status(1, 41, 0, 0))
        self.assertEqual([error.line, str(error)], ["error 41 unknown size"] * 2)

    def test_a_line_is_as_long_as_its_names(self):
        name = f"{'a' * 200}:{'b' * 200}"
        with self.assertRaisesRegex(witcall.Refused, f"^error 47 no package {name}"):
            witcall.open(f"package a:b; interface c {{ use {name}/d.{{t}}; }}")


class Faults(unittest.TestCase):
    def test_what_is_wrong_has_its_place_and_what_to_do(self):
        broken = "package a:b; interface c { f: func(x: strng); }"
        hint = "no `strng` here; did you mean `string`?"
        fault = witcall.Fault(0, "error 41 unknown strng", 41, hint, 1, 39, 1, 44)
        self.assertEqual(witcall.explain(broken), [fault])
        good = "package a:b; interface c { type t = u8; }"
        user = b"package d:e; interface f { use a:b/c.{t}; }"
        self.assertEqual(witcall.explain(user, good), [])
        self.assertEqual(witcall.explain(), [])
        first, second = witcall.explain(user, broken)
        self.assertEqual((first.text, first.number), (1, 41))
        left_out = "not checked: it depends on a:b, which has a fault"
        self.assertEqual(second, witcall.Fault(0, left_out))

    def test_texts_of_one_package_are_its_files(self):
        parts = (
            "package a:b; interface c { use d.{t}; }",
            "package a:b; interface d { type t = u8; }",
        )
        self.assertEqual(witcall.explain(*parts), [])


class Closing(unittest.TestCase):
    def test_a_closed_package_is_not_open(self):
        package = witcall.open(TEXT)
        self.assertEqual(len(package.functions), 1)
        self.assertFalse(package.closed)
        package.close()
        package.close()
        self.assertTrue(package.closed)
        uses = [
            lambda: package.functions,
            lambda: package.types,
            package.to_text,
            package.to_binary,
            lambda: package.find("a:b/c", "f"),
        ]
        for use in uses:
            with self.assertRaisesRegex(witcall.Refused, "^error 70 not open$"):
                use()

    def test_a_package_is_closed_at_the_end_of_its_block(self):
        with self.assertRaises(KeyError), witcall.open(TEXT) as package:
            raise KeyError
        self.assertTrue(package.closed)

    def test_a_package_without_references_is_closed(self):
        closer = witcall.open(TEXT)._close
        gc.collect()
        self.assertFalse(closer.alive)


def listed_text():
    """The package of examples/c/lists.c, whose text stands there as strings of C."""
    source = (TOP / "examples/c/lists.c").read_text()
    strings = re.search(r'TEXT\[\] =\n((?: +"[^"]*"\n?)+);', source)[1]
    return "".join(re.findall(r'"([^"]*)"', strings))


def type_line(it):
    return f"{it.kind} size {it.size} align {it.alignment}" if it else "no type"


def name_line(it):
    if it.interface:
        return f"interface {it.interface}: {it.name}: "
    return f"world {it.world}: {it.name}: " if it.world else ""


def row_lines(row, kind, target, members):
    first = f"{name_line(row)}{kind} size {row.size} align {row.alignment}"
    yield first + (f", to {type_line(target)}" if target else "")
    for index, it in enumerate(members):
        yield f"  {index} {it.name} at {it.offset}: {type_line(it.type)}"


def listed(package):
    """The lines of each row of a package, in the order of their numbers."""
    rows = {it.number: list(row_lines(it, it.kind, it.target, it.members)) for it in package.types}
    for it in package.functions:
        rows[it.number] = list(row_lines(it, "function", it.result, it.parameters))
    return [line for number in sorted(rows) for line in rows[number]]


class Tables(unittest.TestCase):
    def test_layouts_are_those_of_the_host_in_c(self):
        with witcall.open(TOP / "examples/c/shop.wit") as shop:
            (order,) = shop.functions
            lines = [order.name, *(f"  {it.name} at {it.offset}" for it in order.parameters)]
        with witcall.open(listed_text()) as package:
            lines += listed(package)
        wanted = (TOP / "examples/c/lists.expected").read_text().splitlines()
        self.assertEqual(lines, wanted)

    def test_a_function_has_its_core_signatures_and_the_types_of_its_package(self):
        with witcall.open(TOP / "examples/engine/press.wit") as package:
            (press,) = package.functions
            values = ("i32",) * 8
            self.assertEqual(press.lifted, witcall.CoreSignature(values, ("i32",)))
            self.assertEqual(press.lowered, witcall.CoreSignature((*values, "i32"), ()))
            self.assertIs(press.result, next(it for it in package.types if it.name == "outcome"))
            self.assertEqual(press.parameters[1].type.target.kind, "string")
            self.assertEqual(press.full_name, "demo:labels/press#print")
            self.assertIs(package.find("demo:labels/press", "print"), press)
            with self.assertRaisesRegex(witcall.Refused, "^error 63 no function: .*`print`$"):
                package.find("demo:labels/press", "prin")

    def test_functions_of_worlds_are_found(self):
        text = "package a:b; world w { import f: func(); export f: func(x: u64) -> u64; }"
        with witcall.open(text) as package:
            found = [package.find_import("a:b/w", "f"), package.find_export("a:b/w", "f")]
        self.assertEqual([it.world for it in found], ["a:b/w", "a:b/w"])
        self.assertEqual([it.lifted.parameters for it in found], [(), ("i64",)])

    def test_a_set_has_the_functions_of_all_its_packages(self):
        paths = [TOP / f"examples/wasi/{name}.wit" for name in ("clocks", "random", "cli", "app")]
        with witcall.open(*paths) as package:
            interfaces = {it.interface for it in package.functions}
        self.assertIn("demo:diary/notes@1.0.0", interfaces)
        self.assertGreater(len(interfaces), 3)

    def test_a_long_chain_of_names_is_read(self):
        aliases = "".join(f"type a{n + 1} = a{n}; " for n in range(2000))
        with witcall.open(f"package a:b; interface c {{ type a0 = u8; {aliases} }}") as package:
            self.assertEqual(len(package.types), 2001)


def described_row(kind, name, owner, layout, **more):
    """A row of a document, whose layout is its size, its alignment and its flat kinds."""
    size, align, flat = layout
    named = {"kind": kind, "name": name, "owner": owner}
    return {**named, "size": size, "align": align, "flat": flat, **more}


class Documents(unittest.TestCase):
    def test_a_package_is_described(self):
        member = dict(zip(("name", "type", "size", "align", "offset"), ("x", 0, 8, 4, 0)))
        desk = {"interface": 0}
        two = ["i32", "i32"]
        with witcall.open("package a:b; interface c { f: func(x: list<u8>) -> u64; }") as package:
            described = package.describe()
        row = described_row("list", None, None, (8, 4, two), type="u8")
        core = {"parameters": two, "results": ["i64"]}
        function = {
            "kind": "function",
            "name": "f",
            "owner": desk,
            "parameters": [member],
            "result": {"type": "u64", "size": 8, "align": 8},
            "record": None,
            "area": None,
            "export": core,
            "import": core,
        }
        interface = {"name": "a:b/c", "package": 0, "uses": [], "types": [], "functions": [1]}
        wanted = {"packages": ["a:b"], "interfaces": [interface], "worlds": []}
        self.assertEqual(described, {**wanted, "rows": [row, function]})

    def test_rows_have_the_numbers_and_layouts_of_types_and_functions(self):
        paths = [TOP / f"examples/wasi/{name}.wit" for name in ("clocks", "random", "cli", "app")]
        with witcall.open(*paths) as package:
            rows = package.describe()["rows"]
            self.assertEqual(len(rows), len(package.types) + len(package.functions))
            for it in package.types:
                row = rows[it.number]
                wanted = (it.kind, it.name or None, it.size, it.alignment)
                self.assertEqual((row["kind"], row["name"], row["size"], row["align"]), wanted)
                members = row.get("fields", row.get("cases", row.get("labels", [])))
                self.assertEqual(len(members), len(it.members))
            for it in package.functions:
                row = rows[it.number]
                self.assertEqual((row["kind"], row["name"]), ("function", it.name))
                self.assertEqual(row["export"]["parameters"], list(it.lifted.parameters))
                self.assertEqual(row["import"]["results"], list(it.lowered.results))

    def test_a_closed_package_is_not_described(self):
        package = witcall.open(TEXT)
        package.close()
        with self.assertRaisesRegex(witcall.Refused, "^error 70 not open$"):
            package.describe()


class Threads(unittest.TestCase):
    def test_threads_share_a_package(self):
        texts = []
        with witcall.open(TEXT) as package:
            threads = [
                threading.Thread(target=lambda: texts.extend(package.to_text() for _ in range(200)))
                for _ in range(4)
            ]
            for it in threads:
                it.start()
            for it in threads:
                it.join()
        self.assertEqual(texts, [TEXT] * 800)
