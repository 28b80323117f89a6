export { instantiate } from "./lib/guest.js";
export { imports } from "./lib/imports.js";
export { load } from "./lib/library.js";
export { lift } from "./lib/lift.js";
export { granted, link } from "./lib/link.js";
export { ModuleFault, NotThisType, Trap, WitError } from "./lib/errors.js";
