// Values of the types of demo:kinds, in the shapes that bindings/js takes and gives.
import { DemoKindsAll, DemoKindsBase, DemoKindsOver } from "./kinds";

const point: DemoKindsBase.Point = { x: -1, y: BigInt(2) };
const color: DemoKindsBase.Color = "green";
const access: DemoKindsBase.Access = ["read", "run-as-root"];
const shapes: DemoKindsBase.Shape[] = ["none", { circle: 7 }, { label: "a" }, { corners: [point, point] }, { shade: color }];
const maybe: DemoKindsBase.Maybe[] = [BigInt(1), undefined];
const nested: DemoKindsBase.Nested = [["ok", { error: "x" }, undefined], []];
const line: DemoKindsOver.Line = { start: point, end: point, shape: undefined };

// @ts-expect-error: 64 bits are BigInt
const number: DemoKindsBase.Size = 1;
// @ts-expect-error: y is missing
const half: DemoKindsBase.Point = { x: 1 };
// @ts-expect-error: there is no such label
const other: DemoKindsBase.Color = "blue";
// @ts-expect-error: this case has a payload
const circle: DemoKindsBase.Shape = "circle";
// @ts-expect-error: a record has each of its fields
const short: DemoKindsOver.Line = { start: point, end: point };

export function draw(over: DemoKindsOver.Functions): string {
  const drawn = over.draw(line, shapes);
  return "ok" in drawn ? `${drawn.ok.length} shapes` : "an error";
}

export function run(base: DemoKindsBase.Functions, imports: DemoKindsAll.Imports, exports: DemoKindsAll.Exports): boolean {
  base.clear();
  const count: number = imports.free(new Uint16Array(3)) + imports.free([1, 2]);
  const spot: DemoKindsOver.Spot = imports["demo:kinds/base@1.2.0-Rc.1"].origin();
  const same: "ok" | "error" = exports["demo:kinds/over@1.2.0-Rc.1"].same("ok");
  return base["is-set"](access) && count > spot.x && same === "ok" && maybe.length < nested.length;
}

export const unused = [number, half, other, circle, short];
