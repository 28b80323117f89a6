// The tab of worlds: what each one imports and exports, as the library's document says it.
import { button, dim, el, plural } from "./dom.js";
import { coreText, functionName, signatureOf } from "./parts.js";

/** A function of a world, with its core signature on the world's side, and a button. */
function functionRow(func, side, choose) {
  const core = coreText(side === "imports" ? func.lowered : func.lifted);
  const call = button("Call it", () => choose(functionName(func)), { "aria-label": `Call ${functionName(func)}` });
  return el("li", {}, el("code", {}, signatureOf(func)), el("code", { class: "dim" }, `core: ${core}`), call);
}

/** The functions of an interface that a world imports or exports, or of the world itself. */
function group(title, functions, side, choose) {
  const rows = functions.map((it) => functionRow(it, side, choose));
  const list = rows.length > 0 ? el("ul", { class: "functions" }, ...rows) : dim("It has types alone.");
  return el("div", { class: "group" }, el("h4", {}, title), list);
}

function sideOf(items, side, { interfaces, numbered, choose }) {
  const own = items.filter((it) => "function" in it).map((it) => numbered.get(it.function));
  const groups = items.filter((it) => "interface" in it).map((it) => {
    const { name, functions } = interfaces[it.interface];
    return group(name, functions.map((number) => numbered.get(number)), side, choose);
  });
  if (own.length > 0) groups.push(group("the world itself", own, side, choose));
  const title = side === "imports" ? "Imports" : "Exports";
  const none = dim(`It ${side} nothing.`);
  return el("div", {}, el("h3", {}, title), ...(groups.length > 0 ? groups : [none]));
}

/**
 * Draws the worlds of a package.
 * @param {HTMLElement} box
 * @param {import("../lib/package.js").Package} pkg
 * @param {(name: string) => void} choose has a function called
 */
export function drawWorlds(box, pkg, choose) {
  const { interfaces, worlds } = pkg.describe();
  const numbered = new Map(pkg.functions.map((it) => [it.number, it]));
  const all = { interfaces, numbered, choose };
  const cards = worlds.map(({ name, imports, exports }) => el("div", { class: "card world" },
    el("h3", {}, name), el("p", {}, `${plural(imports.length, "import")}, ${plural(exports.length, "export")}`),
    el("div", { class: "sides" }, sideOf(imports, "imports", all), sideOf(exports, "exports", all))));
  box.replaceChildren(...(cards.length > 0 ? cards : [dim("There is no world.")]));
}
