// A package that is open and an instance, as a host in TypeScript has them. Its types are those of bindings/js.
import type * as witcall from "./bindings/js/index";
@BLOCK@
declare const lift: typeof witcall.lift, pkg: witcall.Package, callee: WebAssembly.Instance;
const receipt = order("Ada", [{ item: "tea", count: 2 }]);
export const number: number = receipt.number;
