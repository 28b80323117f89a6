"""demo:relay@1.0.0 for hosts in Python, by wit-explain bind python. Do not edit."""

from __future__ import annotations

import dataclasses
import enum
import typing

import witcall


class DemoRelayTypes:
    """interface demo:relay/types@1.0.0"""

    Text: typing.TypeAlias = str
    """type text = string"""

    class Color(enum.Enum):
        """enum color"""

        RED = "red"
        GREEN_YELLOW = "green-yellow"

    class Marks(enum.Flag):
        """flags marks"""

        FIRST = 1 << 0
        SECOND = 1 << 1
        THIRD = 1 << 2

    @dataclasses.dataclass(frozen=True, slots=True)
    class Shape_Dot:
        """shape with the case dot"""

        value: tuple[int, int]  # tuple<u8, s64>

    @dataclasses.dataclass(frozen=True, slots=True)
    class Shape_Named:
        """shape with the case named"""

        value: DemoRelayTypes.Text  # text

    Shape: typing.TypeAlias = typing.Union[
        typing.Literal["none-yet"],
        Shape_Dot,
        Shape_Named,
    ]
    """variant shape"""

    @dataclasses.dataclass(frozen=True, slots=True)
    class All:
        """record all"""

        truth: bool  # bool
        sign: str  # char
        small: int  # s8
        large: int  # u64
        text: DemoRelayTypes.Text  # text
        bytes_: bytes  # list<u8>
        pairs: list[tuple[int, DemoRelayTypes.Text]]  # list<tuple<u16, text>>
        color: DemoRelayTypes.Color  # color
        marks: DemoRelayTypes.Marks  # marks
        shape: DemoRelayTypes.Shape  # shape
        some: typing.Optional[int]  # option<u32>
        none: typing.Optional[int]  # option<u32>
        nested: typing.Optional[witcall.Some[typing.Optional[int]]]  # option<option<u8>>
        done: typing.Union[witcall.Ok[None], witcall.Err[DemoRelayTypes.Text]]  # result<_, text>

    class Functions(typing.Protocol):
        """The functions of demo:relay/types@1.0.0."""


class DemoRelayHost:
    """interface demo:relay/host@1.0.0"""

    All: typing.TypeAlias = DemoRelayTypes.All
    """type all = demo:relay/types@1.0.0 all"""

    Shape: typing.TypeAlias = DemoRelayTypes.Shape
    """type shape = demo:relay/types@1.0.0 shape"""

    class Functions(typing.Protocol):
        """The functions of demo:relay/host@1.0.0."""

        def same(self, x: DemoRelayHost.All, /) -> DemoRelayHost.All:
            """same: func(x: all) -> all"""

        def next(self, x: DemoRelayHost.Shape, /) -> DemoRelayHost.Shape:
            """next: func(x: shape) -> shape"""

        def join(self, words: list[str], /) -> str:
            """join: func(words: list<string>) -> string"""

        def note(self, word: str, /) -> None:
            """note: func(word: string)"""

        def now(self) -> int:
            """now: func() -> u64"""


class DemoRelayGuest:
    """interface demo:relay/guest@1.0.0"""

    All: typing.TypeAlias = DemoRelayTypes.All
    """type all = demo:relay/types@1.0.0 all"""

    Shape: typing.TypeAlias = DemoRelayTypes.Shape
    """type shape = demo:relay/types@1.0.0 shape"""

    class Functions(typing.Protocol):
        """The functions of demo:relay/guest@1.0.0."""

        def same(self, x: DemoRelayGuest.All, /) -> DemoRelayGuest.All:
            """same: func(x: all) -> all"""

        def next(self, x: DemoRelayGuest.Shape, /) -> DemoRelayGuest.Shape:
            """next: func(x: shape) -> shape"""

        def join(self, words: list[str], /) -> str:
            """join: func(words: list<string>) -> string"""

        def note(self, word: str, /) -> None:
            """note: func(word: string)"""

        def now(self) -> int:
            """now: func() -> u64"""


class DemoRelayRelay:
    """world demo:relay/relay@1.0.0"""

    Imports = typing.TypedDict(
        "Imports",
        {
            "demo:relay/host@1.0.0": DemoRelayHost.Functions,
            "ask": typing.Callable[[int], str],
        },
    )

    Exports = typing.TypedDict(
        "Exports",
        {
            "tell": typing.Callable[[int], str],
            "demo:relay/guest@1.0.0": DemoRelayGuest.Functions,
        },
    )


declared: typing.Final = witcall.Declared(
    types={
        ("demo:relay/types@1.0.0", "color"): DemoRelayTypes.Color,
        ("demo:relay/types@1.0.0", "marks"): DemoRelayTypes.Marks,
        ("demo:relay/types@1.0.0", "shape"): (None, DemoRelayTypes.Shape_Dot, DemoRelayTypes.Shape_Named,),
        ("demo:relay/types@1.0.0", "all"): DemoRelayTypes.All,
    },
    functions={
        ("demo:relay/host@1.0.0", "same"): "same",
        ("demo:relay/host@1.0.0", "next"): "next",
        ("demo:relay/host@1.0.0", "join"): "join",
        ("demo:relay/host@1.0.0", "note"): "note",
        ("demo:relay/host@1.0.0", "now"): "now",
        ("demo:relay/guest@1.0.0", "same"): "same",
        ("demo:relay/guest@1.0.0", "next"): "next",
        ("demo:relay/guest@1.0.0", "join"): "join",
        ("demo:relay/guest@1.0.0", "note"): "note",
        ("demo:relay/guest@1.0.0", "now"): "now",
    },
)
