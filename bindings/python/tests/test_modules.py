"""Modules that carry their package."""

import unittest

import witcall

from . import TOP

FILES = TOP / "tests" / "explain" / "files" / "modules"
HOST, ECHO, WORLD = (f"demo:echo/{name}@1.0.0" for name in ("host", "echo", "guest"))


def names(functions):
    """The names of functions, each behind that of its interface or its world."""
    return sorted((it.interface or it.world, it.name) for it in functions)


class Modules(unittest.TestCase):
    def test_a_module_has_its_world(self):
        for module in (FILES / "echo.wasm", (FILES / "echo.wasm").read_bytes()):
            with witcall.open_module(module) as package:
                [world] = package.worlds
                self.assertEqual(world.name, WORLD)
                self.assertEqual(names(world.imports), [(WORLD, "ask"), (HOST, "upper")])
                self.assertEqual(names(world.exports), [(ECHO, "upper"), (WORLD, "tell")])
                self.assertEqual(package.find_export(WORLD, "tell").lifted.results, ("i32",))
                self.assertTrue(package.to_text().startswith("package demo:echo@1.0.0;\n"))

    def test_its_functions_are_served(self):
        with witcall.open_module(FILES / "echo.wasm") as package:
            memory = witcall.ArrayMemory(65536)
            imports = witcall.serve(package, memory, {f"{HOST}#upper": str.upper})
            area = memory.allocate(4, 8)
            imports[f"{HOST}#upper"](memory.put(b"two memories"), 12, area)
            upper = package.find(HOST, "upper")
            self.assertEqual(witcall.read(package, upper, [area], memory.data), '"TWO MEMORIES"')

    def test_components_of_worlds_and_of_packages_are_opened_too(self):
        for name in ("carrying", "world", "package"):
            with self.subTest(name), witcall.open_module(FILES / f"{name}.wasm") as package:
                self.assertEqual(package.worlds[0].name, "demo:greet/guest@0.1.0")
                greet = package.find("demo:greet/greeter@0.1.0", "greet")
                self.assertEqual(greet.lifted.parameters, ("i32", "i32", "i32"))

    def test_a_module_that_carries_no_package_is_refused_and_explained(self):
        modules = [
            (FILES / f"{name}.wasm").read_bytes() for name in ("none", "guest", "cut", "old")
        ]
        for module in (*modules, b"package a:b; interface c { }", b""):
            with self.assertRaisesRegex(witcall.Refused, "^error 44 not this shape$"):
                witcall.open_module(module)
        message = "the module has no section `component-type`, at byte 8"
        self.assertEqual(witcall.explain(modules[0]), [witcall.Fault(0, message)])

    def test_a_fault_of_a_package_of_a_module_has_its_index(self):
        [fault] = witcall.explain(*(FILES / f"{name}.wasm" for name in ("carrying", "package")))
        self.assertEqual(fault.message, "error 48 same package demo:greet@0.1.0")
        self.assertEqual((fault.text, fault.number, fault.line, fault.column), (1, 48, 1, 9))
