// The page: the text on the left, and on the right what it is.
import { WitError } from "../lib/errors.js";
import { load } from "../lib/library.js";
import { CallView } from "./callview.js";
import { Cards } from "./cards.js";
import { copied, plural, setText } from "./dom.js";
import { Editor } from "./editor.js";
import { EXAMPLES } from "./examples.js";
import { Faults } from "./faults.js";
import { opened } from "./files.js";
import { Outputs } from "./outputs.js";
import { narrow } from "./picture.js";
import { packagesOf, placed } from "./text.js";
import { functionItems, namedTypes, typeItems } from "./types.js";
import { drawWorlds } from "./worlds.js";

const $ = (id) => document.getElementById(id);
const [state, right, examples, back, about] = ["state", "right", "examples", "back", "file"].map($);

/** How long the page waits after a key, and until the address has what is shown, in milliseconds. */
const WAIT = 150;
const WAIT_FOR_ADDRESS = 250;

/** What is shown: the package, the file that carries it if there is one, and what was there before that. */
const shown = { witcall: undefined, pkg: undefined, file: undefined, before: undefined };
/** What the address carries besides the text. */
const chosen = { tab: "types", func: "", args: undefined, reply: undefined };

const editor = new Editor({ text: $("text"), marks: $("marks"), numbers: $("numbers") }, typed);
const faults = new Faults($("fault"), editor);
const types = new Cards($("types"), "No type has a name here.");
const functions = new Cards($("functions"), "There is no function.");
const calls = new CallView($("call"), chosen, keep);
const outputs = new Outputs($("outputs"), say);

/** The tabs, with what draws each. */
const TABS = new Map([
  ["types", () => types.draw(typeItems(shown.pkg))],
  ["functions", () => functions.draw(functionItems(shown.pkg, choose))],
  ["worlds", () => drawWorlds($("worlds"), shown.pkg, choose)],
  ["call", () => calls.draw(shown.pkg, shown.file)],
  ["outputs", () => outputs.draw(shown.pkg)],
]);
const NAMES = [...TABS.keys()];
/** The tabs that show an older package. */
const old = new Set();

// ---- the address: the text and the call

let keeping;

function keep() {
  clearTimeout(keeping);
  keeping = setTimeout(kept, WAIT_FOR_ADDRESS);
}

function kept() {
  clearTimeout(keeping);
  const words = new URLSearchParams();
  for (const [name, value] of Object.entries({ wit: editor.value, ...chosen })) if (value) words.set(name, value);
  const hash = `#${words}`;
  if (hash !== location.hash) history.replaceState(null, "", hash);
}

function restore() {
  const words = new URLSearchParams(location.hash.slice(1));
  chosen.tab = TABS.has(words.get("tab")) ? words.get("tab") : "types";
  chosen.func = words.get("func") ?? "";
  chosen.args = words.get("args") ?? undefined;
  chosen.reply = words.get("reply") ?? undefined;
  shown.file = undefined;
  editor.show(words.get("wit") ?? Object.values(EXAMPLES)[0]);
}

// ---- what the text or the file is

function say(words, isBad = false) {
  setText(state, words);
  state.classList.toggle("bad", isBad);
}

/** What to do if each package by itself is right, but not this list of them. */
const ORDER = new Map([[47, "put a package behind those that it uses"], [48, "write a package once"]]);

/** The faults of a text that was refused. */
function faultsOf(parts, { number, line }) {
  const found = shown.witcall.explain(parts.map((it) => it.text)).map((it) => placed(editor.value, parts, it));
  return found.length > 0 ? found : [{ message: line, hint: ORDER.get(number) }];
}

function refused(parts, error) {
  if (!(error instanceof WitError)) throw error;
  faults.show(faultsOf(parts, error));
  say(error.line, true);
  right.classList.add("stale");
}

/** Shows a package in place of the one before it, which is closed unless a user can go back to it. */
function use(pkg) {
  const isKept = shown.pkg === pkg || shown.pkg === shown.before?.file?.pkg;
  if (!isKept) shown.pkg?.close();
  shown.pkg = pkg;
  right.classList.remove("stale");
  faults.show([]);
  const count = `${plural(namedTypes(pkg).length, "type")}, ${plural(pkg.functions.length, "function")}`;
  say(`${count} · witcall ${shown.witcall.version}`);
  for (const name of NAMES) old.add(name);
  show(chosen.tab);
}

/** Opens the packages of the text, and shows what they are. */
function changed() {
  const start = performance.now();
  const parts = packagesOf(editor.value);
  try {
    use(shown.witcall.open(parts.map((it) => it.text)));
  } catch (error) {
    refused(parts, error);
  }
  keep();
  measure(start);
}

/** Measures, for tools of browsers and for tests, how long it took up to the next frame. */
function measure(start) {
  performance.clearMeasures("redraw");
  requestAnimationFrame(() => setTimeout(() => performance.measure("redraw", { start })));
}

let waiting;

function typed() {
  clearTimeout(waiting);
  examples.selectedIndex = -1;
  waiting = setTimeout(changed, WAIT);
}

// ---- another text or file in place of this one, and back

const CARRIERS = { module: "a module that carries its package", binary: "the binary of a package" };

function aboutFile({ name, kind, world, reason }) {
  const runs = kind === "binary" || !world ? "" : reason ? ` It doesn't run here: ${reason}` : " It runs in this page.";
  return `${name} is ${CARRIERS[kind]}${world ? `, of the world ${world.name}` : ""}.${runs}`;
}

/** Shows a text or a file, and keeps what was there. */
function replace({ text, file }) {
  const { func, args, reply } = chosen;
  shown.before = { text: editor.value, file: shown.file, call: { func, args, reply } };
  put({ text, file, call: { func: "", args: undefined, reply: undefined } });
}

function put({ text, file, call }) {
  Object.assign(chosen, call);
  clearTimeout(waiting);
  shown.file = file;
  editor.show(text, Boolean(file));
  back.hidden = shown.before === undefined;
  about.hidden = !file;
  setText(about, file ? aboutFile(file) : "");
  examples.selectedIndex = file ? -1 : Object.values(EXAMPLES).indexOf(text);
  if (!file) return changed();
  use(file.pkg);
  return keep();
}

/** Goes back to what was there before an example or a file. */
function undo() {
  const { before } = shown;
  if (!before) return;
  shown.before = undefined;
  put(before);
}

async function open(file) {
  try {
    const found = await opened(shown.witcall, file);
    replace(found.text === undefined ? { text: found.pkg.toText(), file: found } : { text: found.text });
    if (found.world) show("call");
  } catch (error) {
    say(`${file.name}: ${error.message}`, true);
  }
}

// ---- the tabs

/** Shows a tab, and draws it if it shows an older package. */
function show(tab) {
  chosen.tab = tab;
  for (const name of NAMES) {
    $(name).hidden = name !== tab;
    $(`tab-${name}`).setAttribute("aria-selected", String(name === tab));
    $(`tab-${name}`).tabIndex = name === tab ? 0 : -1;
  }
  if (shown.pkg && old.delete(tab)) TABS.get(tab)();
  keep();
}

/** Has a function called. */
function choose(name) {
  calls.choose(name);
  old.add("call");
  show("call");
  $("tab-call").focus();
}

const KEYS = new Map([["ArrowRight", 1], ["ArrowLeft", -1]]);

NAMES.forEach((name, place) => {
  $(`tab-${name}`).addEventListener("click", () => show(name));
  $(`tab-${name}`).addEventListener("keydown", ({ key }) => {
    if (!KEYS.has(key)) return;
    const next = NAMES[(place + KEYS.get(key) + NAMES.length) % NAMES.length];
    show(next);
    $(`tab-${next}`).focus();
  });
});

// ---- what a user does

examples.append(...Object.keys(EXAMPLES).map((it) => new Option(it)));
examples.addEventListener("change", () => replace({ text: EXAMPLES[examples.value] }));
back.addEventListener("click", undo);
$("open").addEventListener("click", () => $("choose").click());
$("choose").addEventListener("change", ({ target }) => {
  if (target.files.length > 0) open(target.files[0]);
  target.value = "";
});
$("link").addEventListener("click", async () => {
  kept();
  say((await copied(location.href)) ? "The link is copied." : "The address of this page is the link.");
});

const hasFiles = ({ dataTransfer }) => dataTransfer?.types.includes("Files");
const dropping = (isDropping) => document.body.classList.toggle("dropping", isDropping);

window.addEventListener("dragover", (event) => {
  if (!hasFiles(event)) return;
  event.preventDefault();
  dropping(true);
});
window.addEventListener("dragleave", ({ relatedTarget }) => relatedTarget ?? dropping(false));
window.addEventListener("drop", (event) => {
  if (!hasFiles(event)) return;
  event.preventDefault();
  dropping(false);
  open(event.dataTransfer.files[0]);
});
narrow.addEventListener("change", () => shown.pkg && use(shown.pkg));
window.addEventListener("hashchange", () => {
  restore();
  put({ text: editor.value, call: {} });
});

try {
  const packed = Uint8Array.from(atob($("module").textContent.trim()), (it) => it.charCodeAt(0));
  shown.witcall = await load(packed);
  restore();
  put({ text: editor.value, call: {} });
} catch (error) {
  say(`The module doesn't run here: ${error.message}`, true);
}
