"""What ctypes or Python would cut without a word is refused."""

import unittest

import witcall
from witcall import ArrayMemory, Block

from .test_calls import NAME, PAGE, POST_RETURN, Upper

TEXT = "package a:b; interface c { upper: func(s: string) -> string; }"
HUGE = 10**5000
LIMITS = (-1, 2**64, -(2**64), HUGE, -HUGE)
NO_NUMBERS = (1.0, float("nan"), "1", None, True, b"1")


class Limits(unittest.TestCase):
    def calls(self):
        """Each call that takes a limit, as a function of the limit."""
        package, memory, other = witcall.open(TEXT), ArrayMemory(64), ArrayMemory(64)
        function = package.find("a:b/c", "upper")
        call = witcall.Call(package, function, [0, 0, 8])
        data = memory.data
        return {
            "link": lambda it: witcall.link(package, memory, other, {}, limit=it),
            "bind": lambda it: witcall.bind(package, memory, {}, limit=it),
            "serve": lambda it: witcall.serve(package, memory, {}, limit=it),
            "fill": lambda it: witcall.fill(package, function, '[""]', memory, it),
            "read": lambda it: witcall.read(package, function, [16], data, it),
            "receive": lambda it: witcall.receive(package, function, [0, 0, 8], data, it),
            "answer": lambda it: witcall.answer(package, function, [0, 0, 0], '""', memory, it),
            "enter": lambda it: call.enter_requests(data, it),
            "leave": lambda it: call.leave_requests([16], data, it),
        }

    def test_a_limit_that_is_none_is_refused(self):
        for name, run in self.calls().items():
            for limit in LIMITS:
                with self.subTest(name), self.assertRaisesRegex(ValueError, "^a limit is a number"):
                    run(limit)
            for limit in NO_NUMBERS:
                with self.subTest(name), self.assertRaisesRegex(TypeError, "^a limit is an int"):
                    run(limit)

    def test_the_least_and_the_greatest_limit_are_taken(self):
        for name, run in self.calls().items():
            with self.subTest(name):
                run(2**64 - 1)
                run(64)
        with self.assertRaisesRegex(ValueError, r"from 0 to 18446744073709551615, and not `-1`$"):
            self.calls()["fill"](-1)


class Allocators(unittest.TestCase):
    def answers(self, address):
        """Makes calls in which an allocator answers an address."""
        package = witcall.open(TEXT)
        function = package.find("a:b/c", "upper")
        memory = ArrayMemory(PAGE, lambda alignment, size: address)
        yield lambda: witcall.fill(package, function, '["abc"]', memory)
        yield lambda: witcall.answer(package, function, [0, 0, 8], '"abc"', memory)
        for side in ("caller", "callee"):
            made = Upper()
            getattr(made, side).data[:3] = b"abc"
            getattr(made, side).allocate = lambda *_: address
            yield lambda made=made: made.imported(lambda *_: 16)(0, 3, 16)

    def test_an_address_that_is_none_is_refused(self):
        for address in (2**32, 2**32 + 8, 2**64, -1, HUGE):
            for run in self.answers(address):
                with self.assertRaisesRegex(ValueError, "^the address of a block is a number"):
                    run()
        for address in (1.0, "8", True, False):
            for run in self.answers(address):
                with self.assertRaisesRegex(TypeError, "^the address of a block is an int"):
                    run()

    def test_a_number_of_another_class_is_an_address(self):
        class Address:
            def __index__(self):
                return 16

        for run in self.answers(Address()):
            run()

    def test_the_greatest_address_is_refused_by_the_library(self):
        for run in self.answers(2**32 - 1):
            with self.assertRaisesRegex(witcall.Refused, "^error 72 bad block$"):
                run()

    def test_blocks_are_refused_by_each_of_their_numbers(self):
        made = Upper()
        call = witcall.Call(made.package, made.package.functions[0], [0, 3, 16])
        sides = (made.caller.data, made.callee.data)
        for block in (Block(2**32 + 1, 3, 8), Block(1, 2**32 + 3, 8), Block(1, 3, 2**32 + 8)):
            with self.assertRaisesRegex(ValueError, "of a block is a number from 0 to 4294967295"):
                call.enter(*sides, [block])
        self.assertEqual(call.enter(*sides, [Block(1, 3, 8)]), (8, 3))


class CoreValues(unittest.TestCase):
    def test_values_that_are_none_are_refused(self):
        call = Upper().imported()
        for value in (2**32, -(2**31) - 1, HUGE):
            with self.assertRaisesRegex(ValueError, " is no i32$"):
                call(value, 0, 16)
        none = {1.5: "1.5", float("nan"): "nan", "0": '"0"', None: "null", b"0": "b'0'"}
        for value, shown in none.items():
            with self.assertRaisesRegex(TypeError, f"^a core value is an int, and not `{shown}`$"):
                call(value, 0, 16)
        with self.assertRaisesRegex(ValueError, "^a core value is of `i32` or `i64`, and not of"):
            call(witcall.CoreValue("f32", 0), 0, 16)

    def test_answers_that_are_none_are_refused(self):
        async def later():
            return 16

        started = later()
        for answer in ("16", 16.0, b"16", bytearray(b"16"), {16}, (it for it in (16,)), started):
            call = Upper().imported(lambda *_, answer=answer: answer)
            with self.assertRaisesRegex(TypeError, "^a core function answers an int or several"):
                call(0, 0, 16)
        started.close()
        self.assertIsNone(Upper().imported(lambda *_: [16])(0, 0, 16))


class Memories(unittest.TestCase):
    def test_bytes_outside_of_a_memory_are_no_part_of_it(self):
        memory = ArrayMemory(16)
        self.assertEqual([memory.get(0, 16), memory.get(16, 0)], [bytes(16), b""])
        for address, length in ((0, 17), (16, 1), (17, 0), (-1, 1), (4, -2), (2**32, 1)):
            with self.assertRaisesRegex(IndexError, "are not all in a memory of 16 bytes$"):
                memory.get(address, length)

    def test_an_alignment_that_is_none_is_refused(self):
        for alignment in (0, -1, -8):
            memory = ArrayMemory(16)
            with self.assertRaisesRegex(ValueError, f"from 1 on, and not `{alignment}`$"):
                memory.put(b"abc", alignment)
            self.assertEqual(memory.put(b"abc", 1), 0)

    def test_an_allocator_cannot_make_a_memory_grow(self):
        for address in (14, 17, -1):
            memory = ArrayMemory(16, lambda alignment, size, address=address: address)
            with self.assertRaises(IndexError):
                memory.put(b"abc")
            self.assertEqual(memory.data, bytes(16))


class Words(unittest.TestCase):
    def test_bytes_in_place_of_a_text_are_a_type_error(self):
        package, memory = witcall.open(TEXT), ArrayMemory(64)
        function = package.find("a:b/c", "upper")
        for run in (
            lambda: witcall.fill(package, function, b'[""]', memory),
            lambda: witcall.answer(package, function, [0, 0, 8], b'""', memory),
            lambda: package.find(b"a:b/c", "upper"),
            lambda: package.find("a:b/c", b"upper"),
            lambda: package.find_import(b"a:b/w", "upper"),
        ):
            with self.assertRaisesRegex(TypeError, "^a text is a `str`, and not bytes$"):
                run()

    def test_surrogates_in_a_text_are_a_value_error(self):
        package, memory = witcall.open(TEXT), ArrayMemory(64)
        function = package.find("a:b/c", "upper")
        with self.assertRaises(ValueError):
            witcall.fill(package, function, '["\ud800"]', memory)
        with self.assertRaises(ValueError):
            package.find("a:b/c", "\ud800")

    def test_post_returns_have_their_functions(self):
        made = Upper()
        for bodies in ({POST_RETURN: print}, {NAME: print, f"{POST_RETURN}s": print}):
            for make in (
                lambda it: witcall.bind(made.package, made.callee, it),
                lambda it: witcall.link(made.package, made.caller, made.callee, it),
            ):
                with self.assertRaisesRegex(ValueError, "is the post-return of a function that"):
                    make(bodies)
        with self.assertRaisesRegex(ValueError, "is a post-return, and a function of the host has"):
            witcall.serve(made.package, made.caller, {NAME: print, POST_RETURN: print})

    def test_names_are_texts(self):
        made = Upper()
        for name in (5, None, b"a:b/c#upper"):
            for make in (
                lambda it: witcall.bind(made.package, made.callee, it),
                lambda it: witcall.serve(made.package, made.callee, it),
                lambda it: witcall.link(made.package, made.caller, made.callee, it),
            ):
                with self.assertRaisesRegex(TypeError, "^the name of a function is a `str`, and"):
                    make({name: print})

    def test_bodies_are_functions(self):
        made = Upper()
        for body in (5, None, "upper", [print]):
            for make in (witcall.bind, witcall.serve):
                with self.assertRaisesRegex(TypeError, f"^`{NAME}` is no function, but "):
                    make(made.package, made.callee, {NAME: body})
