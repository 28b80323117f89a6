"""Calls between two memories."""

import ctypes
import unittest

import witcall
from witcall import ArrayMemory, Block, Stopped, Trap

PAGE = 65536
UPPER = "package a:b; interface c { upper: func(s: string) -> string; }"
NAME = "a:b/c#upper"
POST_RETURN = f"cabi_post_{NAME}"


def pair(memory, address):
    """The address and the length of a text, which lie at an address."""
    data = memory.get(address, 8)
    return int.from_bytes(data[:4], "little"), int.from_bytes(data[4:], "little")


def put_pair(memory, address, length):
    return memory.put(b"".join(it.to_bytes(4, "little") for it in (address, length)), 4)


class Upper:
    """A caller and a callee, which makes a text upper case."""

    def __init__(self, pages=1, **options):
        self.package = witcall.open(UPPER)
        self.caller, self.callee = ArrayMemory(pages * PAGE), ArrayMemory(pages * PAGE)
        self.options = options

    def body(self, address, length):
        return self.answer(self.callee.get(address, length).decode().upper())

    def answer(self, text):
        data = text.encode()
        return put_pair(self.callee, self.callee.put(data), len(data))

    def imported(self, body=None, **more):
        bodies = {NAME: body or self.body, **more}
        return witcall.link(self.package, self.caller, self.callee, bodies, **self.options)[NAME]

    def call(self, text, body=None, **more):
        """What the caller finds after a call."""
        data = text.encode()
        area = self.caller.allocate(4, 8)
        back = self.imported(body, **more)(self.caller.put(data), len(data), area)
        assert back is None
        return self.caller.get(*pair(self.caller, area)).decode()


class Calls(unittest.TestCase):
    def test_a_text_goes_there_and_back(self):
        self.assertEqual(Upper().call("two memories, grün"), "TWO MEMORIES, GRÜN")

    def test_numbers_of_every_kind_are_unsigned(self):
        first = "f: func(a: s8, b: u32, c: s64, d: u64) -> u64;"
        functions = f"{first} g: func(a: u32) -> s32; h: func();"
        got = []

        def body(*values):
            got.append(values)
            return -3

        bodies = {"a:b/c#f": body, "a:b/c#g": lambda it: it, "a:b/c#h": lambda: None}
        with witcall.open(f"package a:b; interface c {{ {functions} }}") as package:
            imports = witcall.link(package, ArrayMemory(0), ArrayMemory(0), bodies)
            self.assertEqual(imports["a:b/c#f"](-1, -1, -2, 2**64 - 1), 2**64 - 3)
            self.assertEqual(imports["a:b/c#g"](-1), 2**32 - 1)
            self.assertIsNone(imports["a:b/c#h"]())
            for wrong in (2**32, -(2**31) - 1):
                with self.assertRaisesRegex(ValueError, "is no i32"):
                    imports["a:b/c#g"](wrong)
        self.assertEqual(got, [(2**32 - 1, 2**32 - 1, 2**64 - 2, 2**64 - 1)])

    def test_bytes_beside_the_blocks_stay_as_they_were(self):
        made = Upper()
        made.callee = ArrayMemory(bytearray(b"\x09" * PAGE))
        made.callee.allocate(1, 7)
        self.assertEqual(made.call("abc"), "ABC")
        self.assertEqual(made.callee.data[6:11], b"\x09abc" + b"A")
        self.assertEqual(made.callee.data[30:], b"\x09" * (PAGE - 30))

    def test_memories_grow_while_blocks_are_granted(self):
        made = Upper()
        sizes = []

        def growing(memory):
            own = memory.allocate

            def allocate(alignment, size):
                memory.data.extend(bytes(PAGE))
                sizes.append(size)
                return own(alignment, size)

            memory.allocate = allocate

        growing(made.callee)
        self.assertEqual(made.call("grows"), "GROWS")
        self.assertEqual(sizes, [5, 5, 8])
        self.assertEqual(len(made.callee.data), 4 * PAGE)

    def test_more_blocks_than_have_room_at_first(self):
        text = "package a:b; interface c { last: func(all: list<string>) -> string; }"
        caller, callee = ArrayMemory(PAGE), ArrayMemory(PAGE)
        words = [f"t{number}".encode() for number in range(1000)]
        places = b"".join(
            it.to_bytes(4, "little") for word in words for it in (caller.put(word), len(word))
        )
        address, area = caller.put(places, 4), caller.allocate(4, 8)
        bodies = {"a:b/c#last": lambda at, count: at + 8 * (count - 1)}
        with witcall.open(text) as package:
            witcall.link(package, caller, callee, bodies)["a:b/c#last"](address, 1000, area)
        self.assertEqual(caller.get(*pair(caller, area)), b"t999")

    def test_a_body_may_have_its_caller_call_again(self):
        made = Upper()

        def body(address, length):
            text = made.callee.get(address, length).decode()
            inner = made.call(text[1:], body) if len(text) > 1 else ""
            return made.answer(text[0].upper() + inner)

        self.assertEqual(made.call("again", body), "AGAIN")

    def test_the_halves_of_a_call(self):
        made = Upper()
        address, area = made.caller.put(b"halves"), made.caller.allocate(4, 8)
        function = made.package.functions[0]
        call = witcall.Call(made.package, function, [address, 6, area])
        asked = call.enter_requests(made.caller.data, PAGE)
        self.assertEqual(asked, [witcall.Request(1, 6)])
        handed = call.enter(made.caller.data, made.callee.data, [Block(1, 6, 100)])
        self.assertEqual([handed, made.callee.get(100, 6)], [(100, 6), b"halves"])
        answer = [put_pair(made.callee, 100, 6)]
        self.assertEqual(call.leave_requests(answer, made.callee.data, PAGE), asked)
        back = call.leave(answer, made.callee.data, made.caller.data, [Block(1, 6, 200)])
        self.assertEqual([back, pair(made.caller, area)], [(), (200, 6)])

    def test_memories_of_other_kinds(self):
        package = witcall.open(UPPER)
        call = witcall.Call(package, package.functions[0], [1, 3, 8])
        data = bytearray(b".abc" + bytes(60))
        target = memoryview(bytearray(64)).cast("I")
        call.enter(memoryview(data), target, [Block(1, 3, 4)])
        self.assertEqual(bytes(target)[3:8], b"\0abc\0")
        array = (ctypes.c_uint8 * 64)()
        call.enter(data, array, [Block(1, 3, 4)])
        self.assertEqual(bytes(array), bytes(target))
        with self.assertRaises(TypeError):
            call.enter_requests(bytes(data), PAGE)


class Ends(unittest.TestCase):
    def assert_ends(self, line, run, kind=Trap):
        with self.assertRaises(kind) as caught:
            run()
        self.assertEqual(caught.exception.line, line)
        return caught.exception

    def test_a_component_that_stops_ends_the_call_in_a_trap(self):
        def stop(*_):
            raise Stopped("unreachable")

        trap = self.assert_ends("trap K7 body in body", lambda: Upper().call("abc", stop))
        self.assertEqual([trap.number, trap.kind, trap.step], [7, "body", "body"])
        self.assertIsInstance(trap.__cause__, Stopped)
        post = lambda: Upper().call("abc", **{POST_RETURN: stop})  # noqa: E731
        self.assert_ends("trap K7 body in post", post)

    def test_what_else_is_raised_goes_on_to_the_caller(self):
        def fail(*_):
            raise KeyError

        with self.assertRaises(KeyError):
            Upper().call("abc", fail)
        made = Upper(stops=(KeyError,))
        self.assert_ends("trap K7 body in body", lambda: made.call("abc", fail))

    def test_post_return_gets_the_answer(self):
        got = []
        Upper().call("abc", **{POST_RETURN: got.append})
        self.assertEqual(len(got), 1)

    def test_values_that_are_none_end_the_call_in_a_trap(self):
        made = Upper()
        call = made.imported()
        self.assert_ends("trap K4 bounds in lift-args", lambda: call(0, PAGE + 1, 16))
        self.assert_ends("trap K3 align in lower-result", lambda: call(0, 0, 18))
        self.assert_ends("trap K4 bounds in lower-result", lambda: call(0, 0, PAGE - 4))
        made.caller.data[:2] = b"\xc0\x80"
        self.assert_ends("trap K5 utf8 in lift-args", lambda: call(0, 2, 16))
        self.assert_ends("trap K8 coresignature in lift-args", lambda: call(0, 2))
        self.assert_ends("trap K8 coresignature in lift-args", lambda: call(*[0] * 40))
        for answer in (None, (8, 8), witcall.CoreValue("i64", 8)):
            run = made.imported(lambda *_, answer=answer: answer)
            self.assert_ends("trap K8 coresignature in lift-result", lambda: run(0, 0, 16))

    def test_an_allocator_without_room_ends_the_call_in_a_trap(self):
        made = Upper()
        made.callee.allocate(1, PAGE)
        self.assert_ends("trap K6 full in lower-args", lambda: made.call("abc"))
        self.assertEqual(made.call("", lambda *_: 0), "")

    def test_wrong_blocks_and_blocks_above_the_limit_are_refused(self):
        refused = witcall.Refused
        self.assert_ends("error 76 above the limit", lambda: Upper(limit=2).call("abc"), refused)
        self.assertEqual(Upper(limit=3).call("abc"), "ABC")
        for address in (PAGE, 2**32 - 1):
            made = Upper()
            made.callee.allocate = lambda *_, address=address: address
            self.assert_ends("error 72 bad block", lambda: made.call("abc"), refused)
        call = witcall.Call(made.package, made.package.functions[0], [0, 3, 16])
        memories = (made.caller.data, made.callee.data)
        other = [Block(1, 4, 0)]
        self.assert_ends("error 73 other block 0", lambda: call.enter(*memories, other), refused)

    def test_two_memories_are_two(self):
        made = Upper()
        call = witcall.Call(made.package, made.package.functions[0], [0, 0, 16])
        data = made.caller.data
        parts = [(data, data), (memoryview(data)[:99], memoryview(data)[98:])]
        for caller, callee in parts:
            with self.assertRaisesRegex(ValueError, "overlap"):
                call.enter(caller, callee, [])
        call.enter(memoryview(data)[:99], memoryview(data)[99:], [Block(1, 0, 0)])

    def test_a_memory_can_be_resized_after_a_trap(self):
        made = Upper()
        with self.assertRaises(Trap) as caught:
            made.imported()(0, PAGE + 1, 16)
        made.caller.data.extend(b"more")
        self.assertEqual(caught.exception.number, 4)

    def test_after_a_trap_another_call_is_made(self):
        made = Upper()
        with self.assertRaises(Trap):
            made.imported()(PAGE, 1, 16)
        self.assertEqual(made.call("abc"), "ABC")

    def test_a_package_that_is_closed_in_a_call_ends_it(self):
        made = Upper()

        def body(*_):
            made.package.close()
            return 0

        self.assert_ends("error 70 not open", lambda: made.call("abc", body), witcall.Refused)

    def test_a_function_that_the_package_lacks_is_refused(self):
        made = Upper()
        for name in ("a:b/c#lower", "upper", ""):
            with self.assertRaisesRegex(witcall.Refused, "^error 63 no function: "):
                witcall.link(made.package, made.caller, made.callee, {name: made.body})


class Hostile(unittest.TestCase):
    """Lists in 512 bytes whose elements all lie at the same address, as in examples/c/hostile.c."""

    def asked(self, levels, limit):
        nested = f"{'list<' * levels}u8{'>' * levels}"
        memory = bytearray(b"".join((k % 2 * 64).to_bytes(4, "little") for k in range(128)))
        with witcall.open(f"package a:b; interface c {{ f: func(x: {nested}); }}") as package:
            call = witcall.Call(package, package.functions[0], [0, 64])
            return call.enter_requests(memory, limit)

    def test_the_limit_bounds_what_is_asked_for(self):
        self.assertEqual(len(self.asked(4, 18907648)), 266305)
        for levels in (4, 6, 8):
            with self.assertRaisesRegex(witcall.Refused, "^error 76 above the limit$"):
                self.asked(levels, 2**20)
