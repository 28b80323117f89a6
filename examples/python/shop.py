"""demo:shop for hosts in Python, by wit-explain bind python. Do not edit."""

from __future__ import annotations

import dataclasses
import typing

import witcall


class DemoShopDesk:
    """interface demo:shop/desk"""

    @dataclasses.dataclass(frozen=True, slots=True)
    class Line:
        """record line"""

        item: str  # string
        count: int  # u16

    @dataclasses.dataclass(frozen=True, slots=True)
    class Receipt:
        """record receipt"""

        number: int  # u32
        lines: list[DemoShopDesk.Line]  # list<line>
        note: str  # string

    class Functions(typing.Protocol):
        """The functions of demo:shop/desk."""

        def order(self, customer: str, lines: list[DemoShopDesk.Line], /) -> DemoShopDesk.Receipt:
            """order: func(customer: string, lines: list<line>) -> receipt"""


declared: typing.Final = witcall.Declared(
    types={
        ("demo:shop/desk", "line"): DemoShopDesk.Line,
        ("demo:shop/desk", "receipt"): DemoShopDesk.Receipt,
    },
    functions={
        ("demo:shop/desk", "order"): "order",
    },
)
