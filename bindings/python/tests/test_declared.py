"""Values of the classes that a module of `wit-explain bind python` declares."""

from __future__ import annotations

import array
import dataclasses
import enum
import shutil
import sys
import unittest
from types import SimpleNamespace
from typing import Any, Callable, Mapping, NoReturn, Optional, Sequence
from unittest import mock

import witcall
from witcall import ArrayMemory, Err, NotThisType, Ok, Some

from . import TOP
from .guests import GUEST, HOST, MODULE, Relay, node_engine, relay

if sys.version_info < (3, 10):
    raise unittest.SkipTest("modules of `wit-explain bind python` need Python 3.10")

from . import kinds, relay_types
from .kinds import DemoKindsBase, DemoKindsOver
from .pairs import Pairs
from .relay_types import DemoRelayGuest, DemoRelayRelay, DemoRelayTypes

KINDS = TOP / "tests/explain/files/bind/kinds.wit"
BASE, OVER = (f"demo:kinds/{name}@1.2.0-Rc.1" for name in ("base", "over"))
PAGE = 65536
Own = Callable[..., Any]
COLOR, POINT, SHAPE = DemoKindsBase.Color, DemoKindsBase.Point, DemoKindsBase.Shape_Circle(7)
LINE = DemoKindsOver.Line(POINT(1, -(2**63)), POINT(-(2**31), 2), SHAPE)
LABEL, SHADE = DemoKindsBase.Shape_Label("grün"), DemoKindsBase.Shape_Shade(COLOR.RED)
DOT, OTHER_RED = DemoRelayTypes.Shape_Dot((1, 2)), DemoRelayTypes.Color.RED
CORNERS = DemoKindsBase.Shape_Corners((POINT(1, 2), POINT(3, 4)))
# Types of the package demo:kinds, and more of those that have no names.
USED = {
    "base": "point color access many shape size sizes maybe nested".split(),
    "over": "one line variantly".split(),
}
OTHERS = (
    "bool s8 u8 s16 u16 s32 u32 s64 u64 char string byte list<u8> list<byte> list<u16> list<point> "
    "option<maybe> option<option<u8>> option<option<option<string>>> option<result> option<shape> "
    "result result<point> result<_,list<u8>> result<option<maybe>,color> tuple<many,maybe,byte>"
).split()
USES = (f"use demo:kinds/{of}@1.2.0-Rc.1.{{{', '.join(it)}}}; " for of, it in USED.items())
NAMED = enumerate([*USED["base"], *USED["over"], *OTHERS])
CALLS = (f"a{place}: func(x: {it}) -> {it}; " for place, it in NAMED)
TEXT = f"package test:same; interface all {{ type byte = u8; {''.join([*USES, *CALLS])} }}"
SAME = "test:same/all"


class Echo:
    """A guest that exports functions, each of which calls the host's function of its name."""

    def __init__(self, package: witcall.Package, types: Any) -> None:
        self.package, self.types = package, types
        self.texts: list[Optional[str]] = []

    def __call__(self, functions: Mapping[str, Own]) -> dict[str, Own]:
        """The guest's functions, over functions of the host."""
        memory = ArrayMemory(PAGE)
        imports = witcall.serve(self.package, memory, functions, types=self.types)
        bodies = {it: self.body(it, memory, own) for it, own in imports.items()}
        return witcall.bind(self.package, memory, bodies, types=self.types)

    def body(self, name: str, memory: ArrayMemory, imported: Own) -> Own:
        """A core function that calls one which takes a return area if it returns nothing."""
        package, function = self.package, self.package.find(*name.split("#"))
        result = function.result

        def body(*given: int) -> Optional[int]:
            area = None
            if result and len(function.lowered.parameters) > len(given):
                area = memory.allocate(result.alignment, result.size)
            flats = given if area is None else (*given, area)
            self.texts.append(witcall.receive(package, function, flats, memory.data))
            back: Optional[int] = imported(*flats)
            answer = back if area is None else area
            answers = () if answer is None else (answer,)
            self.texts.append(witcall.read(package, function, answers, memory.data))
            return answer

        return body


class Random(unittest.TestCase):
    """Random values of each type are those that dictionaries, lists and texts are."""

    def test_they_are_the_same_bytes_and_come_back(self) -> None:
        package, pairs = witcall.open(KINDS, TEXT), Pairs(108)
        functions = [it for it in package.functions if it.interface == SAME]
        names = {(SAME, it.name): it.name for it in functions}
        types = dataclasses.replace(kinds.declared, functions=names)
        for place in range(20 * len(functions)):
            function = functions[place % len(functions)]
            for_each = zip((None, types), pairs(function.parameters[0].type))
            plain, typed = (self.carried(package, function, *it) for it in for_each)
            self.assertEqual(plain, typed, function.name)
        self.assertGreater(20 * len(functions), 500)

    def carried(
        self, package: witcall.Package, function: witcall.Function, types: Any, value: Any
    ) -> list[Optional[str]]:
        """Arguments and results as JSON of a call with a value, which comes back and forth."""
        echo, got = Echo(package, types), []

        def same(it: Any) -> Any:
            got.append(it)
            return it

        back = echo({function.full_name: same})[function.full_name](value)
        self.assertEqual((got, back), ([value], value))
        return echo.texts


class Called(unittest.TestCase):
    """Functions of a guest, and of the host, over the package's classes."""

    def setUp(self) -> None:
        self.package = witcall.open(KINDS)
        self.addCleanup(self.package.close)

    def test_functions_of_all_kinds(self) -> None:
        def draw(
            line: DemoKindsOver.Line, shapes: list[DemoKindsOver.Shape]
        ) -> Ok[list[DemoKindsOver.Shape]] | Err[DemoKindsOver.Shape]:
            return Ok([line.shape, *shapes]) if line.shape else Err(shapes[0])

        def late(a: Ok[int] | Err[None], b: Ok[None] | Err[int]) -> DemoKindsOver.Variantly:
            return "a" if a == Ok(2**64 - 1) and b == Err(7) else "b"

        def is_set(flag: DemoKindsBase.Access) -> bool:
            return flag == DemoKindsBase.Access.READ | DemoKindsBase.Access.RUN_AS_ROOT

        def switched(which: Ok[None] | Err[None]) -> Ok[None] | Err[None]:
            return Err(None) if isinstance(which, Ok) else Ok(None)

        calls = Echo(self.package, kinds)(
            {
                f"{OVER}#draw": draw,
                f"{OVER}#pick": lambda shape: shape,
                f"{OVER}#first": lambda: DemoKindsOver.One((COLOR.GREEN,)),
                f"{OVER}#same": switched,
                f"{OVER}#late": late,
                f"{OVER}#measure": lambda t: (t[0] + t[1] + len(t[2]),),
                f"{BASE}#is-set": is_set,
                f"{BASE}#clear": lambda: None,
                f"{BASE}#origin": lambda: POINT(1, 2),
            }
        )
        draw_line = calls[f"{OVER}#draw"]
        shapes: list[DemoKindsBase.Shape] = ["none", LABEL, CORNERS, SHADE]
        self.assertEqual(draw_line(LINE, shapes), Ok([SHAPE, *shapes]))
        empty = dataclasses.replace(LINE, shape=None)
        self.assertEqual(draw_line(empty, [LABEL]), Err(LABEL))
        self.assertEqual(draw_line(empty, ["none"]), Err("none"))
        for shape in shapes:
            self.assertEqual(calls[f"{OVER}#pick"](shape), shape)
        self.assertEqual(calls[f"{OVER}#first"]().only, (COLOR.GREEN,))
        self.assertEqual(calls[f"{OVER}#same"](Ok(None)), Err(None))
        self.assertEqual(calls[f"{OVER}#same"](Err(None)), Ok(None))
        self.assertEqual(calls[f"{OVER}#late"](Ok(2**64 - 1), Err(7)), "a")
        self.assertEqual(calls[f"{OVER}#late"](Err(None), Ok(None)), "b")
        self.assertEqual(calls[f"{OVER}#measure"]((255, 7, "ab")), (264,))
        rights = DemoKindsBase.Access.READ | DemoKindsBase.Access.RUN_AS_ROOT
        self.assertIs(calls[f"{BASE}#is-set"](rights), True)
        self.assertIs(calls[f"{BASE}#is-set"](DemoKindsBase.Access(0)), False)
        self.assertIsNone(calls[f"{BASE}#clear"]())
        self.assertEqual(calls[f"{BASE}#origin"](), POINT(1, 2))


class Host:
    """The interface that the guest imports, as an object."""

    def __init__(self) -> None:
        self.words: list[str] = []

    def same(self, x: DemoRelayTypes.All) -> DemoRelayTypes.All:
        return x

    def next(self, x: DemoRelayTypes.Shape) -> DemoRelayTypes.Shape:
        return x

    def join(self, words: list[str]) -> str:
        return "".join(words)

    def note(self, word: str) -> None:
        self.words.append(word)

    def now(self) -> int:
        return 7


ALL = DemoRelayTypes.All(
    truth=True,
    sign="ß",
    small=-128,
    large=2**64 - 1,
    text='grün "x"\n',
    bytes_=b"\0\xff",
    pairs=[(1, "a"), (65535, "")],
    color=DemoRelayTypes.Color.GREEN_YELLOW,
    marks=DemoRelayTypes.Marks.FIRST | DemoRelayTypes.Marks.THIRD,
    shape=DemoRelayTypes.Shape_Dot((7, -(2**63))),
    some=4711,
    none=None,
    nested=Some(None),
    done=Err("late"),
)


class Instances(unittest.TestCase):
    """A guest that carries its world, over an engine in Python."""

    engine: Any = Relay

    def made(self, own: object = None, **options: Any) -> witcall.Instance:
        imports = {HOST: Host() if own is None else own, "ask": str}
        instance = relay(imports=imports, engine=self.engine, **{"types": relay_types, **options})
        self.addCleanup(getattr(instance.engine, "close", instance.close))
        return instance

    def test_values_go_to_an_object_and_come_back(self) -> None:
        own = Host()
        guest: DemoRelayGuest.Functions = self.made(own).exports[GUEST]
        empty = dataclasses.replace(ALL, nested=None, done=Ok(None), bytes_=b"", shape="none-yet")
        deep = dataclasses.replace(ALL, nested=Some(255), some=None, marks=DemoRelayTypes.Marks(0))
        for value in (ALL, empty, deep):
            self.assertEqual(guest.same(value), value)
        self.assertIsInstance(guest.same(ALL).bytes_, bytes)
        shapes: list[DemoRelayTypes.Shape] = ["none-yet", DemoRelayTypes.Shape_Named("x")]
        for shape in shapes:
            self.assertEqual(guest.next(shape), shape)
        self.assertEqual((guest.join(["two ", "memories"]), guest.now()), ("two memories", 7))
        guest.note("a")
        self.assertEqual(own.words, ["a"])

    def test_exports_are_mappings_too(self) -> None:
        instance = self.made()
        calls = instance.exports[GUEST]
        self.assertIsInstance(calls, dict)
        self.assertEqual(sorted(calls), ["join", "next", "note", "now", "same"])
        self.assertEqual(calls["same"](ALL), calls.same(ALL))
        self.assertEqual(instance.exports["tell"](41), "41")

    def test_imports_are_mappings_or_objects(self) -> None:
        host: DemoRelayRelay.Imports = {"demo:relay/host@1.0.0": Host(), "ask": str}
        instance = witcall.Instance(MODULE, Relay, host, types=relay_types.declared)
        self.assertEqual(instance.exports[GUEST].same(ALL), ALL)
        own = {name: getattr(Host(), name) for name in ("same", "next", "join", "note", "now")}
        self.assertEqual(self.made(own).exports[GUEST].same(ALL), ALL)
        # what one guest exports is what another one imports
        self.assertEqual(self.made(instance.exports[GUEST]).exports[GUEST].same(ALL), ALL)


@unittest.skipUnless(shutil.which("node"), "there is no Node")
class InstancesInNode(Instances):
    """The same over a real engine."""

    @classmethod
    def setUpClass(cls) -> None:
        cls.engine = node_engine()


# What a value of a type is.
A_POINT, A_LINE = (f"a record is a `{it.__qualname__}`" for it in (POINT, DemoKindsOver.Line))
A_SHAPE = 'a variant is one of `"none"`, ' + ", ".join(
    f"`DemoKindsBase.Shape_{it}(..)`" for it in ("Circle", "Label", "Corners", "Shade")
)
A_COLOR, RIGHTS = "an enum is a `DemoKindsBase.Color`", "flags are a `DemoKindsBase.Access`"
A_RESULT, A_DONE = (f"a result is one of `Ok(None)`, `Err({it})`" for it in (None, ".."))
A_NESTED, BYTES = "an option is one of `None`, `Some(..)`", "a list of `u8` is `bytes`"
AN_S32 = "a `s32` is a whole number from -2147483648 to 2147483647"
A_U8, A_U16 = (f"a `u{it}` is a whole number from 0 to {2**it - 1}" for it in (8, 16))
A_U32 = "a `u32` is a whole number from 0 to 4294967295"
A_TUPLE = "a tuple is an array of one value for each of its types"


def line(**members: Any) -> DemoKindsOver.Line:
    """A line, of which members are others."""
    return dataclasses.replace(LINE, **members)


def of_case(name: str, payload: Any) -> Any:
    """A shape with a payload, which may be none of it."""
    return getattr(DemoKindsBase, f"Shape_{name}")(payload)


# Arguments of functions of demo:kinds, each with the place that is wrong, what is wanted and shown.
KINDS_ARE: Sequence[tuple[str, Any, str, str, str]] = (
    (f"{OVER}#draw", {}, "", A_LINE, "{}"),
    (f"{OVER}#draw", POINT, "", A_LINE, "<class 'tests.kinds.DemoKindsBase.Point'>"),
    (f"{OVER}#draw", line(end={"x": 1, "y": 2}), ".end", A_POINT, '{"x":1,"y":2}'),
    (f"{OVER}#draw", line(end=(1, 2)), ".end", A_POINT, "[1,2]"),
    (f"{OVER}#draw", line(end=None), ".end", A_POINT, "null"),
    (f"{OVER}#draw", line(start=SHAPE), ".start", A_POINT, repr(SHAPE)),
    (f"{OVER}#draw", line(end=POINT(2**31, 0)), ".end.x", AN_S32, "2147483648"),
    (f"{OVER}#draw", line(end=POINT(True, 0)), ".end.x", AN_S32, "true"),
    (f"{OVER}#draw", line(shape=Some("none")), ".shape.some", A_SHAPE, "Some(value='none')"),
    (f"{OVER}#pick", "circle", "", A_SHAPE, '"circle"'),
    (f"{OVER}#pick", "other", "", A_SHAPE, '"other"'),
    (f"{OVER}#pick", {"circle": 7}, "", A_SHAPE, '{"circle":7}'),
    (f"{OVER}#pick", None, "", A_SHAPE, "null"),
    (f"{OVER}#pick", DOT, "", A_SHAPE, repr(DOT)),
    (f"{OVER}#pick", of_case("Circle", -1), ".circle", A_U16, "-1"),
    (f"{OVER}#pick", of_case("Label", b"x"), ".label", "a `string` is a text", "b'x'"),
    (f"{OVER}#pick", of_case("Corners", ()), ".corners", A_TUPLE, "[]"),
    (f"{OVER}#pick", of_case("Shade", "red"), ".shade", A_COLOR, '"red"'),
    (f"{OVER}#pick", of_case("Shade", OTHER_RED), ".shade", A_COLOR, "<Color.RED: 'red'>"),
    (f"{OVER}#same", Ok(5), "", A_RESULT, "Ok(value=5)"),
    (f"{OVER}#same", "ok", "", A_RESULT, '"ok"'),
    (f"{OVER}#same", Some(None), "", A_RESULT, "Some(value=None)"),
    (f"{BASE}#is-set", DemoKindsBase.Many.A, "", RIGHTS, "<Many.A: 1>"),
    (f"{BASE}#is-set", 1, "", RIGHTS, "1"),
    (f"{BASE}#is-set", ["read"], "", RIGHTS, '["read"]'),
)
# Members of a record of demo:relay in the same way.
RELAY_HAS: Sequence[tuple[dict[str, Any], str, str, str]] = (
    ({"bytes_": [0, 255]}, ".bytes", BYTES, "[0,255]"),
    ({"bytes_": "ab"}, ".bytes", BYTES, '"ab"'),
    ({"bytes_": 7}, ".bytes", BYTES, "7"),
    ({"pairs": {}}, ".pairs", "a list is an array", "{}"),
    ({"pairs": [(1, "a"), (1, 2)]}, ".pairs[1][1]", "a `string` is a text", "2"),
    ({"shape": DemoRelayTypes.Shape_Dot((256, 0))}, ".shape.dot[0]", A_U8, "256"),
    ({"some": Some(7)}, ".some.some", A_U32, "Some(value=7)"),
    ({"nested": 7}, ".nested", A_NESTED, "7"),
    ({"nested": "none"}, ".nested", A_NESTED, '"none"'),
    ({"nested": Some(Some(7))}, ".nested.some.some", A_U8, "Some(value=7)"),
    ({"done": Ok("x")}, ".done", A_DONE, "Ok(value='x')"),
    ({"done": Err(7)}, ".done.error", "a `string` is a text", "7"),
)


class Wrong(unittest.TestCase):
    """Values that are not of their type, or of no class of it, are told with their place."""

    def assert_told(self, run: Callable[[], Any], path: str, fault: str) -> None:
        """Asserts what a call is refused with."""
        with self.subTest(path=path, fault=fault), self.assertRaises(NotThisType) as caught:
            run()
        error = caught.exception
        self.assertEqual((error.number, error.path, error.fault), (62, path, fault))

    def test_arguments(self) -> None:
        package = witcall.open(KINDS)
        for name, value, path, wanted, shown in KINDS_ARE:
            call = witcall.bind(package, ArrayMemory(PAGE), {name: self.fail}, types=kinds)[name]
            more = [None] * (len(package.find(*name.split("#")).parameters) - 1)
            fault = f"{wanted}, and not `{shown}`"
            self.assert_told(lambda: call(value, *more), f"[0]{path}", fault)

    def test_arguments_and_results_of_an_instance(self) -> None:
        for members, path, wanted, shown in RELAY_HAS:
            own, value = Host(), dataclasses.replace(ALL, **members)
            with mock.patch.object(own, "same", lambda _: value):
                guest = relay(imports={HOST: own, "ask": str}, types=relay_types).exports[GUEST]
            fault = f"{wanted}, and not `{shown}`"
            self.assert_told(lambda: guest.same(value), f"[0]{path}", fault)
            self.assert_told(lambda: guest.same(ALL), f"result{path}", fault)

    def test_how_many_arguments_and_what_is_awaited(self) -> None:
        async def later() -> DemoKindsBase.Point:
            return POINT(1, 2)

        array_of = "the arguments are an array of one value for each parameter"
        package, name = witcall.open(KINDS), f"{OVER}#pick"
        call = witcall.bind(package, ArrayMemory(PAGE), {name: self.fail}, types=kinds)[name]
        count = f"{array_of}, 1 in all, each of its type"
        self.assert_told(lambda: call("none", "none"), "", count)
        name = f"{BASE}#origin"
        served = witcall.serve(package, ArrayMemory(PAGE), {name: later}, types=kinds)[name]
        fault = f"{A_POINT}, and not a coroutine, which has to be awaited first"
        self.assert_told(lambda: served(0), "result", fault)

    def test_all_that_is_like_bytes_is_taken(self) -> None:
        own = Host()
        guest = relay(imports={HOST: own, "ask": str}, types=relay_types).exports[GUEST]
        for given in (bytearray(b"\1\2"), memoryview(b"\1\2"), array.array("B", [1, 2])):
            value = dataclasses.replace(ALL, bytes_=given)
            self.assertEqual(guest.same(value).bytes_, b"\1\2")


class Other(unittest.TestCase):
    """A module that is of other WIT is refused when functions are made of it."""

    def assert_refused(self, types: Any, message: str) -> None:
        """Asserts that no functions of demo:relay are made over types."""
        package, name = witcall.open_module(MODULE), f"{HOST}#same"
        makes: tuple[Callable[[], object], ...] = (
            lambda: witcall.bind(package, ArrayMemory(0), {name: self.fail}, types=types),
            lambda: witcall.serve(package, ArrayMemory(0), {name: self.fail}, types=types),
            lambda: witcall.Instance(MODULE, Relay, {HOST: Host(), "ask": str}, types=types),
        )
        for make in makes:
            with self.assertRaises(TypeError) as caught:
                make()
            self.assertEqual(str(caught.exception), message)

    def test_types_that_are_not_there_or_others(self) -> None:
        @dataclasses.dataclass
        class Short:
            value: int

        Color = enum.Enum("Color", {"RED": "red", "GREEN": "green"})
        Marks = enum.Flag("Marks", "FIRST SECOND")
        declared, of_other = relay_types.declared, "their module is of other WIT"
        dot = DemoRelayTypes.Shape_Dot
        others: dict[str, Any] = {
            "all": (Short, DemoRelayTypes.Color, (None,), 7),
            "color": (Color, Marks, Short, "red"),
            "marks": (Marks, DemoRelayTypes.Color, Short, 7),
            "shape": ((None, dot), (dot, None, dot), (None, dot, None), dot),
        }
        kind_of = {"all": "record", "color": "enum", "marks": "flags", "shape": "variant"}
        for name, made in others.items():
            what = f"{kind_of[name]} `{name}` of `demo:relay/types@1.0.0`: {of_other}"
            key = ("demo:relay/types@1.0.0", name)
            left = {it: declared.types[it] for it in declared.types if it != key}
            types = dataclasses.replace(declared, types=left)
            self.assert_refused(types, f"the types have no {what}")
            for it in made:
                types = dataclasses.replace(declared, types={**left, key: it})
                self.assert_refused(types, f"the types have another {what}")

    def test_functions_that_are_not_there(self) -> None:
        declared = relay_types.declared
        left = {it: name for it, name in declared.functions.items() if it != (HOST, "same")}
        message = f"the types have no function `{HOST}#same`: their module is of other WIT"
        self.assert_refused(dataclasses.replace(declared, functions=left), message)
        self.assert_refused(kinds, message)

    def test_types_of_parameters_alone(self) -> None:
        left = {it: made for it, made in kinds.declared.types.items() if it != (BASE, "access")}
        types = dataclasses.replace(kinds.declared, types=left)
        package, name = witcall.open(KINDS), f"{BASE}#is-set"
        message = f"^the types have no flags `access` of `{BASE}`: their module is of other WIT$"
        with self.assertRaisesRegex(TypeError, message):
            witcall.serve(package, ArrayMemory(0), {name: self.fail}, types=types)
        made = witcall.serve(package, ArrayMemory(0), {f"{BASE}#clear": lambda: None}, types=types)
        self.assertIsNone(made[f"{BASE}#clear"]())

    def test_exports_are_compared_before_the_guest_runs(self) -> None:
        declared = relay_types.declared
        left = {it: name for it, name in declared.functions.items() if it != (GUEST, "now")}
        types = dataclasses.replace(declared, functions=left)
        message = f"^the types have no function `{GUEST}#now`: their module is of other WIT$"
        with self.assertRaisesRegex(TypeError, message):
            witcall.Instance(MODULE, self.fail, {HOST: Host(), "ask": str}, types=types)  # type: ignore[arg-type]

    def test_what_is_no_module(self) -> None:
        taken = "types are a module of `wit-explain bind python`, and not"
        self.assert_refused(7, f"{taken} `7`")
        self.assert_refused({}, f"{taken} `{{}}`")
        self.assert_refused("shop.py", f'{taken} `"shop.py"`')
        other = SimpleNamespace(declared={})
        self.assert_refused(other, f"{taken} `namespace(declared={{}})`")


class Names(unittest.TestCase):
    """Names of a guest are keys alone. Attributes have the names that a module declares."""

    def renamed(self) -> tuple[bytes, witcall.Declared]:
        """The guest with names that dictionaries have, and what is declared of it."""
        module, declared = MODULE, relay_types.declared
        others = {"same": "copy", "join": "keys", "now": "get", "next": "name"}
        for name, other in others.items():
            module = module.replace(name.encode(), other.encode())
        functions = {(of, others.get(it, it)): others.get(it, it) for of, it in declared.functions}
        return module, dataclasses.replace(declared, functions=functions)

    def test_functions_hide_what_dictionaries_have(self) -> None:
        module, declared = self.renamed()

        class Renamed(Host):
            copy, name, keys, get = Host.same, Host.next, Host.join, Host.now

        def engine(given: bytes, imports: Any) -> Relay:
            made = Relay(given, imports)
            made.functions[f"{GUEST}#get"] = lambda guest: guest.imports[HOST]["get"]()
            for name in ("copy", "keys", "name"):
                made.functions[f"{GUEST}#{name}"] = Relay.relaying(HOST, name, True)
            return made

        imports = {HOST: Renamed(), "ask": str}
        calls = witcall.Instance(module, engine, imports, types=declared).exports[GUEST]
        self.assertEqual((calls.get(), calls["get"](), calls.copy(ALL)), (7, 7, ALL))
        self.assertEqual(sorted(calls), ["copy", "get", "keys", "name", "note"])
        self.assertEqual(dict(calls), {name: calls[name] for name in calls})
        imports = {HOST: calls, "ask": str}
        again = witcall.Instance(module, engine, imports, types=declared).exports[GUEST]
        self.assertEqual((again.get(), again.copy(ALL)), (7, ALL))

    def test_functions_have_their_names_in_python(self) -> None:
        class Named:
            same_, next_, join_, note_ = Host.same, Host.next, Host.join, Host().note
            join = next = same = note = None

            def now_(self) -> int:
                return 9

        names = {(of, it): f"{it}_" for of, it in relay_types.declared.functions}
        types = dataclasses.replace(relay_types.declared, functions=names)
        instance = witcall.Instance(MODULE, Relay, {HOST: Named(), "ask": str}, types=types)
        calls = instance.exports[GUEST]
        self.assertEqual((calls.now_(), calls["now"](), calls.same_(ALL)), (9, 9, ALL))
        self.assertFalse(hasattr(calls, "now"))

    def test_objects_give_what_is_declared_alone(self) -> None:
        class Lacking(Host):
            same = None  # type: ignore[assignment]

            def __getattr__(self, name: str) -> NoReturn:
                raise AssertionError(name)

        imports = {HOST: Lacking(), "ask": str}
        with self.assertRaisesRegex(TypeError, f"^the imports have no function `{HOST}#same`$"):
            witcall.Instance(MODULE, Relay, imports, types=relay_types)
        with self.assertRaisesRegex(TypeError, "^the imports of .* are a mapping of functions"):
            witcall.Instance(MODULE, Relay, imports)
        with mock.patch.object(Lacking, "same", 7):
            with self.assertRaisesRegex(TypeError, f"^`{HOST}#same` is no function, but `7`$"):
                witcall.Instance(MODULE, Relay, imports, types=relay_types)


if __name__ == "__main__":
    unittest.main()
