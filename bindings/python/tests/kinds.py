"""demo:kinds@1.2.0-Rc.1 for hosts in Python, by wit-explain bind python. Do not edit."""

from __future__ import annotations

import dataclasses
import enum
import typing

import witcall


class DemoKindsBase:
    """interface demo:kinds/base@1.2.0-Rc.1"""

    @dataclasses.dataclass(frozen=True, slots=True)
    class Point:
        """record point"""

        x: int  # s32
        y: int  # s64

    class Color(enum.Enum):
        """enum color"""

        RED = "red"
        GREEN = "green"

    class Access(enum.Flag):
        """flags access"""

        READ = 1 << 0
        WRITE = 1 << 1
        RUN_AS_ROOT = 1 << 2

    class Many(enum.Flag):
        """flags many"""

        A = 1 << 0
        B = 1 << 1
        C = 1 << 2
        D = 1 << 3
        E = 1 << 4
        F = 1 << 5
        G = 1 << 6
        H = 1 << 7
        I = 1 << 8

    @dataclasses.dataclass(frozen=True, slots=True)
    class Shape_Circle:
        """shape with the case circle"""

        value: int  # u16

    @dataclasses.dataclass(frozen=True, slots=True)
    class Shape_Label:
        """shape with the case label"""

        value: str  # string

    @dataclasses.dataclass(frozen=True, slots=True)
    class Shape_Corners:
        """shape with the case corners"""

        value: tuple[DemoKindsBase.Point, DemoKindsBase.Point]  # tuple<point, point>

    @dataclasses.dataclass(frozen=True, slots=True)
    class Shape_Shade:
        """shape with the case shade"""

        value: DemoKindsBase.Color  # color

    Shape: typing.TypeAlias = typing.Union[
        typing.Literal["none"],
        Shape_Circle,
        Shape_Label,
        Shape_Corners,
        Shape_Shade,
    ]
    """variant shape"""

    Size: typing.TypeAlias = int
    """type size = u64"""

    Sizes: typing.TypeAlias = "list[DemoKindsBase.Size]"
    """type sizes = list<size>"""

    Maybe: typing.TypeAlias = "typing.Optional[DemoKindsBase.Size]"
    """type maybe = option<size>"""

    Nested: typing.TypeAlias = "list[list[typing.Optional[typing.Union[witcall.Ok[None], witcall.Err[str]]]]]"
    """type nested = list<list<option<result<_, string>>>>"""

    class Functions(typing.Protocol):
        """The functions of demo:kinds/base@1.2.0-Rc.1."""

        def origin(self) -> DemoKindsBase.Point:
            """origin: func() -> point"""

        def clear(self) -> None:
            """clear: func()"""

        def is_set(self, flag: DemoKindsBase.Access, /) -> bool:
            """is-set: func(flag: access) -> bool"""

        def letter(self, at: int, /) -> str:
            """letter: func(at: u8) -> char"""

        def small(self, a: int, b: int, c: int, d: int, e: bool, f: str, /) -> int:
            """small: func(a: s8, b: s16, c: s32, d: s64, e: bool, f: char) -> s16"""

        def large(self, a: int, /) -> int:
            """large: func(a: u64) -> s64"""


class DemoKindsOver:
    """interface demo:kinds/over@1.2.0-Rc.1"""

    Spot: typing.TypeAlias = DemoKindsBase.Point
    """type spot = demo:kinds/base@1.2.0-Rc.1 point"""

    Shape: typing.TypeAlias = DemoKindsBase.Shape
    """type shape = demo:kinds/base@1.2.0-Rc.1 shape"""

    Size: typing.TypeAlias = DemoKindsBase.Size
    """type size = demo:kinds/base@1.2.0-Rc.1 size"""

    Color: typing.TypeAlias = DemoKindsBase.Color
    """type color = demo:kinds/base@1.2.0-Rc.1 color"""

    @dataclasses.dataclass(frozen=True, slots=True)
    class One:
        """record one"""

        only: tuple[DemoKindsOver.Color]  # tuple<color>

    @dataclasses.dataclass(frozen=True, slots=True)
    class Line:
        """record line"""

        start: DemoKindsOver.Spot  # spot
        end: DemoKindsOver.Spot  # spot
        shape: typing.Optional[DemoKindsOver.Shape]  # option<shape>

    Variantly: typing.TypeAlias = typing.Union[
        typing.Literal["a"],
        typing.Literal["b"],
    ]
    """variant variantly"""

    class Functions(typing.Protocol):
        """The functions of demo:kinds/over@1.2.0-Rc.1."""

        def draw(self, line: DemoKindsOver.Line, shapes: list[DemoKindsOver.Shape], /) -> typing.Union[witcall.Ok[list[DemoKindsOver.Shape]], witcall.Err[DemoKindsOver.Shape]]:
            """draw: func(line: line, shapes: list<shape>) -> result<list<shape>, shape>"""

        def pick(self, shape: DemoKindsOver.Shape, /) -> DemoKindsOver.Shape:
            """pick: func(shape: shape) -> shape"""

        def first(self) -> DemoKindsOver.One:
            """first: func() -> one"""

        def same(self, which: typing.Union[witcall.Ok[None], witcall.Err[None]], /) -> typing.Union[witcall.Ok[None], witcall.Err[None]]:
            """same: func(which: result) -> result"""

        def late(self, a: typing.Union[witcall.Ok[DemoKindsOver.Size], witcall.Err[None]], b: typing.Union[witcall.Ok[None], witcall.Err[DemoKindsOver.Size]], /) -> DemoKindsOver.Variantly:
            """late: func(a: result<size>, b: result<_, size>) -> variantly"""

        def measure(self, t: tuple[int, int, str], /) -> tuple[DemoKindsOver.Size]:
            """measure: func(t: tuple<u8, u64, string>) -> tuple<size>"""


class DemoKindsNothing:
    """interface demo:kinds/nothing@1.2.0-Rc.1"""

    class Functions(typing.Protocol):
        """The functions of demo:kinds/nothing@1.2.0-Rc.1."""


class DemoKindsAll:
    """world demo:kinds/all@1.2.0-Rc.1"""

    Imports = typing.TypedDict(
        "Imports",
        {
            "demo:kinds/base@1.2.0-Rc.1": DemoKindsBase.Functions,
            "free": typing.Callable[[list[int]], int],
        },
    )

    Exports = typing.TypedDict(
        "Exports",
        {
            "demo:kinds/over@1.2.0-Rc.1": DemoKindsOver.Functions,
        },
    )


declared: typing.Final = witcall.Declared(
    types={
        ("demo:kinds/base@1.2.0-Rc.1", "point"): DemoKindsBase.Point,
        ("demo:kinds/base@1.2.0-Rc.1", "color"): DemoKindsBase.Color,
        ("demo:kinds/base@1.2.0-Rc.1", "access"): DemoKindsBase.Access,
        ("demo:kinds/base@1.2.0-Rc.1", "many"): DemoKindsBase.Many,
        ("demo:kinds/base@1.2.0-Rc.1", "shape"): (None, DemoKindsBase.Shape_Circle, DemoKindsBase.Shape_Label, DemoKindsBase.Shape_Corners, DemoKindsBase.Shape_Shade,),
        ("demo:kinds/over@1.2.0-Rc.1", "one"): DemoKindsOver.One,
        ("demo:kinds/over@1.2.0-Rc.1", "line"): DemoKindsOver.Line,
        ("demo:kinds/over@1.2.0-Rc.1", "variantly"): (None, None,),
    },
    functions={
        ("demo:kinds/base@1.2.0-Rc.1", "origin"): "origin",
        ("demo:kinds/base@1.2.0-Rc.1", "clear"): "clear",
        ("demo:kinds/base@1.2.0-Rc.1", "is-set"): "is_set",
        ("demo:kinds/base@1.2.0-Rc.1", "letter"): "letter",
        ("demo:kinds/base@1.2.0-Rc.1", "small"): "small",
        ("demo:kinds/base@1.2.0-Rc.1", "large"): "large",
        ("demo:kinds/over@1.2.0-Rc.1", "draw"): "draw",
        ("demo:kinds/over@1.2.0-Rc.1", "pick"): "pick",
        ("demo:kinds/over@1.2.0-Rc.1", "first"): "first",
        ("demo:kinds/over@1.2.0-Rc.1", "same"): "same",
        ("demo:kinds/over@1.2.0-Rc.1", "late"): "late",
        ("demo:kinds/over@1.2.0-Rc.1", "measure"): "measure",
    },
)
