"""Values of the types of demo:kinds, in the shapes that bindings/python takes and gives."""

from typing import TYPE_CHECKING

from kinds import DemoKindsAll, DemoKindsBase, DemoKindsOver

import witcall

point: DemoKindsBase.Point = DemoKindsBase.Point(-1, 2)
color: DemoKindsBase.Color = DemoKindsBase.Color.GREEN
access: DemoKindsBase.Access = DemoKindsBase.Access.READ | DemoKindsBase.Access.RUN_AS_ROOT
shapes: list[DemoKindsBase.Shape] = [
    "none",
    DemoKindsBase.Shape_Circle(7),
    DemoKindsBase.Shape_Label("a"),
    DemoKindsBase.Shape_Corners((point, point)),
    DemoKindsBase.Shape_Shade(color),
]
maybe: list[DemoKindsBase.Maybe] = [1, None]
nested: DemoKindsBase.Nested = [[witcall.Ok(None), witcall.Err("x"), None], []]
line: DemoKindsOver.Line = DemoKindsOver.Line(start=point, end=point, shape=None)

if TYPE_CHECKING:
    # a text is no number
    number: DemoKindsBase.Size = "1"  # type: ignore[assignment]
    # y is missing
    half = DemoKindsBase.Point(1)  # type: ignore[call-arg]
    # there is no such label
    other = DemoKindsBase.Color.BLUE  # type: ignore[attr-defined]
    # this case has a payload
    circle: DemoKindsBase.Shape = "circle"  # type: ignore[assignment]
    # a record can't be changed
    point.x = 2  # type: ignore[misc]


def draw(over: DemoKindsOver.Functions) -> str:
    drawn = over.draw(line, shapes)
    return f"{len(drawn.value)} shapes" if isinstance(drawn, witcall.Ok) else "an error"


def run(
    base: DemoKindsBase.Functions, imports: DemoKindsAll.Imports, exports: DemoKindsAll.Exports
) -> bool:
    base.clear()
    count: int = imports["free"]([1, 2])
    spot: DemoKindsOver.Spot = imports["demo:kinds/base@1.2.0-Rc.1"].origin()
    same = exports["demo:kinds/over@1.2.0-Rc.1"].same(witcall.Ok(None))
    return base.is_set(access) and count > spot.x and isinstance(same, witcall.Ok)
