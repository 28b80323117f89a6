// The tabs of types and of functions: what their cards show.
import { button, el, plural } from "./dom.js";
import { coreText, functionName, nameOf, partsOf, signatureOf } from "./parts.js";
import { Lights, narrow, picture } from "./picture.js";

/** The types of a package that have a name, but for those that are used from elsewhere. */
export const namedTypes = (pkg) => pkg.types.filter((it) => it.name && it.kind !== "use");

function aboutType(type) {
  const kind = type.kind === "alias" ? `type = ${nameOf(type.target)}` : type.kind;
  return `${kind} in ${type.interface ?? type.world} · ${plural(type.size, "byte")}, aligned to ${type.alignment}`;
}

function layout(type) {
  const told = el("p", { class: "told", "aria-live": "polite" });
  const options = { from: 0, to: Math.max(type.size, 1), lights: new Lights(told), label: type.name };
  return [picture(partsOf(type), options), told];
}

/**
 * A card for each type: its layout, as bytes and as a list.
 * @returns {import("./cards.js").Item[]}
 */
export const typeItems = (pkg) => namedTypes(pkg).map((type) => ({
  id: `${type.interface ?? type.world}#${type.name}`,
  title: type.name,
  about: aboutType(type),
  key: () => JSON.stringify([type.size, narrow.matches, partsOf(type)]),
  fill: () => layout(type),
}));

const row = ([name, words]) => el("tr", {}, el("th", { scope: "row" }, name), el("td", {}, el("code", {}, words)));

function signatures(func, choose) {
  const rows = [["callee exports", coreText(func.lifted)], ["caller imports", coreText(func.lowered)]];
  const call = button("Call it", () => choose(functionName(func)), { "aria-label": `Call ${functionName(func)}` });
  return [el("pre", { class: "signature" }, signatureOf(func)), el("table", {}, ...rows.map(row)), call];
}

/**
 * A card for each function: its signature, and those of its core functions.
 * @param {import("../lib/package.js").Package} pkg
 * @param {(name: string) => void} choose has a function called
 * @returns {import("./cards.js").Item[]}
 */
export const functionItems = (pkg, choose) => pkg.functions.map((func) => ({
  id: functionName(func),
  title: func.name,
  about: `in ${func.interface ?? func.world}`,
  key: () => JSON.stringify([signatureOf(func), func.lifted, func.lowered]),
  fill: () => signatures(func, choose),
}));
