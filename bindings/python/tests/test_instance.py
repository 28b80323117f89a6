"""Instances of a guest that carries its world: over an engine in Python, and over Node's."""

import asyncio
import pathlib
import shutil
import struct
import tempfile
import threading
import unittest
from unittest import mock

import witcall
from witcall import NotThisType, Refused, Stopped, Trap

from .guests import AREA, ENGINES, GUEST, HOST, MODULE, PAGE, WORLD, Relay
from .guests import failing, host, node_engine, relay
from .test_values import VALUE

JOIN, POST = f"{GUEST}#join", f"cabi_post_{GUEST}#join"
EVERY_SHAPE = ("none-yet", {"dot": (255, -(2**63))}, {"named": "grün 🙂"})


def calls(instance):
    """The functions of the guest's interface."""
    return instance.exports[GUEST]


class Values(unittest.TestCase):
    """What a guest gets and gives, over each engine."""

    engine = Relay

    def made(self, **functions):
        instance = relay(imports=host(**functions), engine=self.engine)
        self.addCleanup(getattr(instance.engine, "close", instance.close))
        return instance

    def test_values_of_every_kind_go_to_the_host_and_come_back(self):
        got = []

        def same(value):
            got.append(value)
            return value

        instance = self.made(same=same)
        self.assertEqual(calls(instance)["same"](VALUE), VALUE)
        self.assertEqual(got, [VALUE])
        for shape in EVERY_SHAPE:
            self.assertEqual(calls(instance)["next"](shape), shape)
        for nested in ("none", {"some": None}, {"some": 255}):
            value = {**VALUE, "nested": nested, "done": "ok", "bytes": b"\1\2", "some": None}
            self.assertEqual(calls(instance)["same"](value), {**value, "bytes": [1, 2]})
        for number in (0, 2**63, 2**64 - 1):
            self.assertEqual(calls(self.made(now=lambda it=number: it))["now"](), number)

    def test_functions_without_result_and_those_of_the_world_itself(self):
        words = []
        instance = self.made(note=words.append)
        self.assertIsNone(calls(instance)["note"]("two\0memories"))
        self.assertEqual(words, ["two\0memories"])
        self.assertEqual(instance.exports["tell"](2**32 - 1), "4294967295")
        self.assertEqual(sorted(instance.exports), sorted([GUEST, "tell"]))
        self.assertEqual(sorted(calls(instance)), ["join", "next", "note", "now", "same"])
        self.assertEqual(instance.world.name, WORLD)

    def test_the_memory_grows_for_arguments_and_results(self):
        instance = self.made(join=lambda words: "".join(words) * 2)
        text = "grün " * 40000
        self.assertEqual(calls(instance)["join"]([text, "!"]), f"{text}!" * 2)
        self.assertGreater(len(instance.engine.memory()), 6 * len(text) // 2)

    def test_a_guest_that_stops_ends_in_a_trap_which_stands(self):
        instance = self.made()
        if self.engine is Relay:
            instance.engine.functions[f"{GUEST}#note"] = failing(Stopped("unreachable"))
        with self.assertRaisesRegex(Trap, "^trap K7 body in body$") as caught:
            calls(instance)["note"]("trap")
        self.assertIsInstance(caught.exception.__cause__, Stopped)
        for _ in range(2):
            with self.assertRaisesRegex(Trap, "^trap K7 body in body: an earlier call") as again:
                calls(instance)["now"]()
            self.assertIs(again.exception.__cause__, caught.exception)

    def test_what_a_function_raises_comes_out_of_the_call(self):
        error = KeyError("of the host")
        instance = self.made(join=failing(error))
        with self.assertRaises(KeyError) as caught:
            calls(instance)["join"](["x"])
        self.assertIs(caught.exception, error)
        # the guest's code was left somewhere in it
        with self.assertRaisesRegex(Trap, "^trap K7 body in body: an earlier call") as again:
            calls(instance)["now"]()
        self.assertIs(again.exception.__cause__, error)

    def test_a_call_of_the_guest_while_it_runs_is_refused(self):
        instance = self.made(join=lambda words: calls(instance)["join"](words[1:]))
        refused = "^trap K7 body in body: the guest runs, and is not entered again meanwhile$"
        with self.assertRaisesRegex(Trap, refused):
            calls(instance)["join"](["a", "b"])

    def test_wrong_answers_are_told_with_their_place(self):
        instance = self.made(next=lambda shape: {"dot": (256, 0)})
        with self.assertRaises(NotThisType) as caught:
            calls(instance)["next"]("none-yet")
        error = caught.exception
        self.assertEqual((error.path, error.function), ("result.dot[0]", f"{HOST}#next"))
        wanted = "a `u8` is a whole number from 0 to 255, and not `256`"
        self.assertEqual(error.fault, wanted)


@unittest.skipUnless(shutil.which("node"), "there is no Node")
class ValuesInNode(Values):
    """The same over a real engine."""

    @classmethod
    def setUpClass(cls):
        cls.engine = node_engine()

    def test_the_post_return_runs_once(self):
        instance = self.made()
        for count in (1, 2):
            calls(instance)["join"](["a"])
            self.assertEqual(instance.engine.call("posts", ()), [count])


class Steps(unittest.TestCase):
    """The order of a call, and how it ends in each step."""

    def assert_ends(self, line, functions, run=lambda it: calls(it)["join"](["ab", "c"])):
        """Asserts that a call ends in a trap, which stands, and that no code runs after it."""
        instance = relay(functions)
        with self.assertRaises(Trap) as caught:
            run(instance)
        self.assertEqual(str(caught.exception), line)
        ran = list(instance.engine.ran)
        with self.assertRaises(Trap) as again:
            instance.exports["tell"](7)
        self.assertEqual((again.exception.line, instance.engine.ran), (line, ran))
        return ran

    def test_the_post_return_runs_once_after_the_answer_was_lifted(self):
        got = []

        def post(guest, answer):
            got.append(answer)
            guest.data[:] = bytes(len(guest.data))

        instance = relay({POST: post})
        self.assertEqual(calls(instance)["join"](["two ", "memories"]), "two memories")
        self.assertEqual(got, [AREA])
        self.assertEqual(calls(instance)["join"](["again"]), "again")
        self.assertEqual(got, [AREA, AREA])
        allocated = "cabi_realloc"
        self.assertEqual(instance.engine.ran[-4:], [allocated, JOIN, allocated, POST])

    def test_a_guest_that_stops_in_each_step(self):
        stops = failing(Stopped("unreachable"))
        ran = self.assert_ends("trap K7 body in body", {JOIN: stops})
        self.assertEqual(ran[-1], JOIN)
        ran = self.assert_ends("trap K7 body in post", {POST: stops})
        self.assertEqual(ran[-1], POST)
        ran = self.assert_ends("trap K6 full in place", {"cabi_realloc": stops})
        self.assertEqual(ran, ["cabi_realloc"])

        def second(guest, *flats):
            return stops() if len(guest.ran) > 4 else guest.allocated(*flats)

        ran = self.assert_ends("trap K6 full in place", {"cabi_realloc": second})
        self.assertEqual(ran[-2:], [JOIN, "cabi_realloc"])

    def test_answers_that_are_none(self):
        def pair(address, length):
            def answered(guest, *_):
                guest.data[AREA : AREA + 8] = struct.pack("<II", address, length)
                return AREA

            return answered

        def no_text(guest, *_):
            guest.data[512:514] = b"\xc0\x80"
            return pair(512, 2)(guest)

        for line, body in (
            ("trap K3 align in lift-result", lambda guest, *_: 2),
            ("trap K4 bounds in lift-result", lambda guest, *_: PAGE),
            ("trap K4 bounds in lift-result", pair(PAGE - 1, 2)),
            ("trap K5 utf8 in lift-result", no_text),
            ("trap K8 coresignature in lift-result", lambda guest, *_: None),
            ("trap K8 coresignature in lift-result", lambda guest, *_: (8, 8)),
        ):
            with self.subTest(line):
                self.assertNotIn(POST, self.assert_ends(line, {JOIN: body}))

    def test_arguments_of_imports_that_are_none(self):
        def asks(*flats):
            return lambda guest, *_: guest.imports[HOST]["next"](*flats)

        for line, flats in (
            ("trap K2 case in lift-args", (3, 0, 0, AREA)),
            ("trap K4 bounds in lift-args", (2, PAGE, 1, AREA)),
            ("trap K8 coresignature in lift-args", (0, AREA)),
            ("trap K3 align in place", (0, 0, 0, AREA + 1)),
            ("trap K4 bounds in place", (0, 0, 0, PAGE)),
        ):
            with self.subTest(line):
                self.assert_ends(line, {JOIN: asks(*flats)})

    def test_allocators_that_grant_wrong_blocks(self):
        for at, number in ((PAGE, 72), (2**32 - 8, 72), (-8, 72), (2, 72)):
            instance = relay({"cabi_realloc": lambda guest, *_, at=at: at})
            with self.subTest(at=at), self.assertRaises(Refused) as caught:
                calls(instance)["join"](["a"])
            self.assertEqual(caught.exception.number, number)
            with self.assertRaisesRegex(Trap, "^trap K7 body in body: an earlier call"):
                calls(instance)["now"]()
        for answer in (2**32, -(2**31) - 1, None, (8, 8), witcall.CoreValue("i64", 8), 1.5, "8"):
            instance = relay({"cabi_realloc": lambda guest, *_, answer=answer: answer})
            with self.subTest(answer=answer), self.assertRaises(TypeError):
                calls(instance)["join"](["a"])

    def test_a_memory_that_grows_in_the_body_is_read_anew(self):
        def body(guest, *_):
            at = len(guest.data)
            guest.data = guest.data + b"grown".ljust(PAGE, b"\0")
            guest.data[AREA : AREA + 8] = struct.pack("<II", at, 5)
            return AREA

        self.assertEqual(calls(relay({JOIN: body}))["join"]([]), "grown")

    def test_limits_bound_both_ways(self):
        instance = relay(imports=host(join=lambda words: "x" * 9), limit=24)
        with self.assertRaisesRegex(Refused, "^error 76 above the limit$"):
            calls(instance)["join"](["a", "b", "ccccccccc"])
        self.assertEqual(instance.engine.ran, [])
        self.assertEqual(calls(instance)["join"](["a", "b"]), "x" * 9)
        instance = relay(imports=host(join=lambda words: "x" * 25), limit=24)
        with self.assertRaisesRegex(Refused, "^error 76 above the limit$"):
            calls(instance)["join"](["a"])
        for limit in (-1, 2**64, 1.5):
            with self.assertRaises((ValueError, TypeError)):
                relay(limit=limit)


class Entering(unittest.TestCase):
    """A guest is entered by one call at a time, and leaves in its bodies alone."""

    def test_a_host_may_go_on_after_a_call_that_is_refused(self):
        def join(words):
            with self.assertRaisesRegex(Trap, "the guest runs"):
                instance.exports["tell"](1)
            return "".join(words)

        instance = relay(imports=host(join=join))
        self.assertEqual(calls(instance)["join"](["a", "b"]), "ab")
        self.assertEqual(instance.exports["tell"](1), "1")

    def test_arguments_may_come_of_calls(self):
        instance = relay()
        words = (instance.exports["tell"](number) for number in range(3))
        self.assertEqual(calls(instance)["join"](words), "012")

    def test_another_thread_is_refused_meanwhile(self):
        told = []

        def other():
            try:
                instance.exports["tell"](1)
            except Trap as error:
                told.append(error.hint)

        def join(words):
            thread = threading.Thread(target=other)
            thread.start()
            thread.join()
            return "".join(words)

        instance = relay(imports=host(join=join))
        self.assertEqual(calls(instance)["join"](["a"]), "a")
        self.assertEqual(told, ["the guest runs, and is not entered again meanwhile"])

    def test_allocators_and_post_returns_call_no_import(self):
        def leaves(guest, *flats):
            guest.imports[HOST]["now"]()
            return guest.allocated(*flats) if len(flats) == 4 else None

        for name in ("cabi_realloc", POST):
            instance = relay({name: leaves})
            with self.subTest(name), self.assertRaisesRegex(Trap, "in its allocator or in a post"):
                calls(instance)["join"](["a"])
            with self.assertRaisesRegex(Trap, "an earlier call"):
                calls(instance)["now"]()

    def test_two_instances_call_each_other_through_the_host(self):
        inner = relay(imports=host(join=lambda words: words[0].upper()))
        outer = relay(imports=host(join=lambda words: calls(inner)["join"](words)))
        self.assertEqual(calls(outer)["join"](["both"]), "BOTH")
        inner.engine.functions[JOIN] = failing(Stopped())
        for instance in (outer, inner):
            with self.assertRaisesRegex(Trap, "^trap K7 body in body"):
                calls(instance)["join"](["both"])

    def test_initialize_is_called_first(self):
        def initialized(guest):
            return guest.imports[HOST]["note"](*[0, 0])

        words = []
        instance = relay({"_initialize": initialized}, imports=host(note=words.append))
        self.assertEqual((words, instance.engine.ran), ([""], ["_initialize"]))
        with self.assertRaisesRegex(Trap, "^trap K7 body in body$"):
            relay({"_initialize": failing(Stopped())})

    def test_a_start_function_calls_no_import(self):
        def started(_module, imports):
            return imports[HOST]["now"]()

        with self.assertRaisesRegex(RuntimeError, "^the guest calls its imports before there is"):
            witcall.Instance(MODULE, started, host())


class Wrong(unittest.TestCase):
    """Values that are none, in arguments and in what functions of the host give."""

    # What is no text, and what is no number of 64 bits, each with what the error shows of it.
    TEXTS = (
        (None, "`null`"),
        (7, "`7`"),
        (1.5, "`1.5`"),
        (b"x", "`b'x'`"),
        ("\ud800", '`"\\ud800"`'),
        ({"a": 1}, '`{"a":1}`'),
    )
    NUMBERS = (
        (None, "`null`"),
        (-1, "`-1`"),
        (2**64, "`18446744073709551616`"),
        (10**5000, "`a number of 16610 bits`"),
        (1.0, "`1.0`"),
        (float("nan"), "`nan`"),
        (float("inf"), "`inf`"),
        (True, "`true`"),
        ("1", '`"1"`'),
        ([], "`[]`"),
    )

    def assert_told(self, run, path, shown):
        with self.assertRaises(NotThisType) as caught:
            run()
        error = caught.exception
        self.assertEqual((error.number, error.path), (62, path))
        self.assertTrue(error.fault.endswith(f", and not {shown}"), error.fault)
        str(error).encode()

    def test_arguments(self):
        instance = relay()
        for value, shown in self.TEXTS:
            self.assert_told(lambda it=value: calls(instance)["join"](["a", it]), "[0][1]", shown)
            self.assert_told(lambda it=value: calls(instance)["note"](it), "[0]", shown)
        for value, shown in self.NUMBERS:
            wrong = {**VALUE, "large": value}
            self.assert_told(lambda it=wrong: calls(instance)["same"](it), "[0].large", shown)
        self.assertEqual(instance.engine.ran, [])
        self.assertEqual(calls(instance)["same"](VALUE), VALUE)

    def test_answers(self):
        for value, shown in self.TEXTS:
            instance = relay(imports=host(join=lambda words, it=value: it))
            self.assert_told(lambda it=instance: calls(it)["join"]([]), "result", shown)
        for value, shown in self.NUMBERS:
            instance = relay(imports=host(now=lambda it=value: it))
            self.assert_told(lambda it=instance: calls(it)["now"](), "result", shown)
            wrong = {**VALUE, "large": value}
            instance = relay(imports=host(same=lambda x, it=wrong: it))
            self.assert_told(lambda it=instance: calls(it)["same"](VALUE), "result.large", shown)

    def test_values_within_themselves(self):
        items = []
        items.append(items)
        instance = relay()
        self.assert_told(lambda: calls(instance)["join"](items), "[0][0]", "`[[[[[[[...]]]]]]]`")
        instance = relay(imports=host(join=lambda words: items))
        self.assert_told(lambda: calls(instance)["join"]([]), "result", "`[[[[[[[...]]]]]]]`")

    def test_coroutines_and_futures(self):
        async def later(*_):
            return "x"

        words = "a coroutine, which has to be awaited first"
        for name, arguments in (("join", [[]]), ("note", ["x"]), ("now", [])):
            call = calls(relay(imports=host(**{name: later})))[name]
            self.assert_told(lambda call=call, given=arguments: call(*given), "result", words)
        one = later()
        self.addCleanup(one.close)
        self.assert_told(lambda: calls(relay())["join"](["a", one]), "[0][1]", words)
        loop = asyncio.new_event_loop()
        self.addCleanup(loop.close)
        words = "an awaitable Future, which has to be awaited first"
        instance = relay(imports=host(join=lambda _: loop.create_future()))
        self.assert_told(lambda: calls(instance)["join"]([]), "result", words)

    def test_how_many_arguments(self):
        for arguments in ((), ([], [])):
            with self.assertRaises(NotThisType) as caught:
                calls(relay())["join"](*arguments)
            self.assertEqual(caught.exception.path, "")


class Lacking(unittest.TestCase):
    """What the imports, the guest or the module lack."""

    def assert_lacks(self, message, imports):
        with self.assertRaises(TypeError) as caught:
            relay(imports=imports)
        self.assertEqual(str(caught.exception), message)

    def test_imports(self):
        functions = host()[HOST]
        for imports in ({}, {**host(), HOST: {}}, {"ask": str}):
            lacking = {"ask": str, **imports}
            self.assert_lacks(f"the imports have no function `{HOST}#same`", lacking)
        self.assert_lacks("the imports have no function `ask`", {HOST: functions})
        self.assert_lacks("`ask` is no function, but `7`", {HOST: functions, "ask": 7})
        self.assert_lacks(f"`{HOST}#now` is no function, but `7`", host(now=7))
        more = {**host(), "demo:other/host": {"f": print}, HOST: {**functions, "other": print}}
        self.assertEqual(relay(imports=more).exports["tell"](1), "1")

    def test_attributes_are_no_functions(self):
        class Host:
            same = next = join = note = now = ask = staticmethod(lambda *_: None)

        taken = f"the imports of `{HOST}` are a mapping of functions, and not `"
        with self.assertRaises(TypeError) as caught:
            relay(imports={HOST: Host(), "ask": str})
        self.assertTrue(str(caught.exception).startswith(taken))

    def test_exports(self):
        for name in (f"{GUEST}#same", "tell"):
            with self.assertRaisesRegex(TypeError, f"^the guest exports no function `{name}`$"):
                relay({name: None})
        with self.assertRaisesRegex(TypeError, "^the guest exports no function cabi_realloc$"):
            calls(relay({"cabi_realloc": None}))["join"](["a"])
        self.assertEqual(calls(relay({"cabi_realloc": None}))["now"](), 7)
        self.assertEqual(calls(relay({POST: None}))["join"](["a"]), "a")

    def test_a_guest_without_memory(self):
        instance = relay()
        with mock.patch.object(instance.engine, "data", b""):
            self.assertEqual(calls(instance)["now"](), 7)
            with self.assertRaisesRegex(Refused, "^error 72 bad block$"):
                with mock.patch.object(Relay, "allocated", lambda *_: 0):
                    calls(instance)["join"](["a"])

    def test_modules(self):
        for module in (b"", MODULE[:8], b"package a:b; interface c { }"):
            with self.assertRaisesRegex(Refused, "^error 44 not this shape$"):
                witcall.Instance(module, Relay)
        with self.assertRaisesRegex(Refused, "pathlib.Path"):
            witcall.Instance("relay.wasm", Relay)
        with self.assertRaisesRegex(TypeError, "^a module is bytes"):
            witcall.Instance(5, Relay)
        with mock.patch.object(witcall.Package, "worlds", ()):
            with self.assertRaisesRegex(TypeError, "^the module has no world$"):
                relay()
        with tempfile.TemporaryDirectory() as folder:
            path = pathlib.Path(folder, "relay.wasm")
            path.write_bytes(MODULE)
            self.assertEqual(witcall.Instance(path, Relay, host()).exports["tell"](1), "1")

    def test_a_package_is_closed_with_its_instance(self):
        with relay() as instance:
            self.assertFalse(instance.package.closed)
        with self.assertRaisesRegex(Refused, "^error 70 not open$"):
            calls(instance)["now"]()
        packages = []
        kept = mock.patch.object(witcall.Package, "close", lambda package: packages.append(package))
        with kept, self.assertRaises(TypeError):
            relay(imports={})
        self.assertEqual(len(packages), 1)

    def test_the_stored_module_is_that_of_its_text(self):
        text = (ENGINES / "relay.wit").read_text()
        with witcall.open(text) as package, relay() as instance:
            self.assertEqual(instance.package.to_text(), package.to_text())


class Names(unittest.TestCase):
    """A stranger's names reach what mappings have under them, and no attribute of anything."""

    # Names that Python's mappings and functions have, of as many letters as the guest's.
    NAMES = {b"same": b"copy", b"join": b"keys", b"now": b"get", b"ask": b"pop", b"next": b"name"}

    def renamed(self):
        module = MODULE
        for name, other in self.NAMES.items():
            module = module.replace(name, other)
        return module

    def engine(self, module, imports):
        made = Relay(module, imports)
        renamed = {name.decode(): it.decode() for name, it in self.NAMES.items()}
        for name, it in renamed.items():
            made.functions[f"{GUEST}#{it}"] = made.functions.get(f"{GUEST}#{name}")
            made.functions[f"{GUEST}#{name}"] = None
        made.functions[f"{GUEST}#get"] = lambda guest: guest.imports[HOST]["get"]()
        return made

    def test_mappings_have_items_and_no_methods(self):
        own = {"copy": str, "keys": str, "get": lambda: 9, "name": str, "note": str}
        for name in own:
            lacking = {it: own[it] for it in own if it != name}
            with self.assertRaisesRegex(TypeError, f"no function `{HOST}#{name}`$"):
                witcall.Instance(self.renamed(), self.engine, {HOST: lacking, "pop": str})
        with self.assertRaisesRegex(TypeError, "no function `pop`$"):
            witcall.Instance(self.renamed(), self.engine, {HOST: own})
        instance = witcall.Instance(self.renamed(), self.engine, {HOST: own, "pop": str})
        self.assertEqual(calls(instance)["get"](), 9)
        self.assertEqual(sorted(calls(instance)), ["copy", "get", "keys", "name", "note"])

    def test_a_module_gets_the_functions_of_its_world_alone(self):
        got = []

        def engine(module, imports):
            got.append(imports)
            return Relay(module, imports)

        more = {**host(), "other": print, "sys": {"exit": print}}
        more[HOST]["__class__"] = print
        witcall.Instance(MODULE, engine, more)
        found = {module: sorted(names) for module, names in got[0].items()}
        self.assertEqual(found, {HOST: ["join", "next", "note", "now", "same"], "$root": ["ask"]})
        self.assertEqual({type(it) for it in (got[0], *got[0].values())}, {dict})


if __name__ == "__main__":
    unittest.main()
