// The tab of calls: what a user types, the steps of the call, and the memories.
import { called } from "./call.js";
import { button, dim, el, plural } from "./dom.js";
import { askedOf, ran } from "./guest.js";
import { placeIn } from "./json.js";
import { Shapes, functionName, sampleOf, signatureOf } from "./parts.js";
import { Lights, picture } from "./picture.js";

/** Bytes between two blocks that are drawn as one range. */
const GAP = 32;

/** The most ranges of a memory that are drawn. */
const MOST_RANGES = 8;

/** The color of a part, one for all elements of a list: a list's address, its length and its elements have others. */
function colored(parts, hues) {
  return parts.map((part) => {
    const key = `${part.path.replace(/\[\d+\]/g, "[]")} ${part.kind}`;
    if (!hues.has(key)) hues.set(key, hues.size);
    const [, index] = /\[(\d+)\][^[]*$/.exec(part.path) ?? [];
    return { ...part, hue: hues.get(key), isOdd: Number(index) % 2 === 1 };
  });
}

/** What belongs together in all memories. */
const keyOf = ({ path, kind }) => `${path} ${kind}`;

/** The ranges of a memory that its blocks and parts have, from the first row of 16 bytes on. */
function rangesOf(blocks, parts) {
  const all = [...blocks.map(({ at, size }) => ({ from: at, to: at + size })), ...parts]
    .filter((it) => it.to > it.from).sort((one, other) => one.from - other.from);
  const ranges = [];
  for (const { from, to } of all) {
    const last = ranges.at(-1);
    if (last && from <= last.to + GAP) last.to = Math.max(last.to, to);
    else ranges.push({ from: from & ~15, to });
  }
  return ranges.slice(0, MOST_RANGES);
}

function memoryCard({ title, memory, parts }, lights, hues) {
  const all = memory.blocks.filter((it) => it.size > 0);
  const card = el("div", { class: "card" }, el("h3", {}, title));
  const blocks = all.map(({ at, size, what }) => `${what} at ${at}, ${plural(size, "byte")}`).join(" · ");
  const colors = colored(parts, hues);
  const ranges = rangesOf(all, parts).map(({ from, to }) => {
    const inside = colors.filter((it) => it.from < to && it.to > from);
    return picture(inside, { from, to, bytes: memory.bytes, lights, label: title, keyOf });
  });
  card.append(el("p", {}, blocks || (ranges.length > 0 ? "" : "No byte of it is used.")), ...ranges);
  return card;
}

/** A field for a text of JSON. */
function field(label, value, change) {
  const area = el("textarea", { rows: "3", spellcheck: "false", autocapitalize: "off" });
  area.value = value;
  area.addEventListener("input", () => change(area.value));
  return { area, element: el("label", {}, label, area) };
}

/** What is said of a call that fails: why, in which step, and a button to the place if a text has it. */
function failure({ error, step, steps }, area) {
  const box = el("div", { class: "fault", role: "alert" }, el("h3", {}, "The call fails"));
  const where = `It fails in step ${steps.length + 1}: ${step.charAt(0).toLowerCase()}${step.slice(1)}.`;
  box.append(el("strong", {}, String(error?.message ?? error)), el("p", {}, where));
  const place = area && error?.path ? placeIn(area.value, error.path.replace(/^result/, "")) : undefined;
  if (!area) return box;
  const go = () => {
    area.focus();
    area.setSelectionRange(place?.start ?? 0, place?.end ?? area.value.length);
  };
  box.append(button("Go there", go));
  return box;
}

function stepsOf({ steps, error, step }) {
  const items = steps.map((it) => el("li", {}, el("code", {}, it)));
  if (error) items.push(el("li", { class: "failed" }, `${step}: the call fails.`));
  return el("ol", { class: "steps" }, ...items);
}

/** What a call was, with the fields that it was made of by their names. */
function outcome(done, memories, areas) {
  const told = el("p", { class: "told", "aria-live": "polite" });
  const lights = new Lights(told);
  const hues = new Map();
  const wrong = done.error ? areas.get(done.field) : undefined;
  for (const area of areas.values()) area.setAttribute("aria-invalid", String(area === wrong));
  const cards = memories.map((it) => memoryCard(it, lights, hues));
  const box = el("div", { class: done.error ? "call failed" : "call" }, stepsOf(done), told);
  if (done.error) box.prepend(failure(done, wrong));
  box.append(el("div", { class: "memories" }, ...cards));
  return box;
}

/** The text of a sample, or an empty one of a type with too many values. */
function sampleText(make) {
  try {
    return JSON.stringify(make());
  } catch (error) {
    if (error instanceof RangeError) return "";
    throw error;
  }
}

const newArguments = (func) => sampleText(() => func.parameters.map((it) => sampleOf(it.type)));
const newResult = (func) => (func.result ? sampleText(() => sampleOf(func.result.type)) : "");

/** The tab. `chosen` has the function and the texts that a user typed, which a link carries. */
export class CallView {
  #box;
  #chosen;
  #keep;
  #shapes = new Shapes();
  /** The function and the shape that the typed texts are for. */
  #typed = {};
  #answers = new Map();
  #pkg;
  #opened;

  /**
   * @param {HTMLElement} box
   * @param {{func: string, args?: string, reply?: string}} chosen
   * @param {() => void} keep is called after a change of what is chosen
   */
  constructor(box, chosen, keep) {
    this.#box = box;
    this.#chosen = chosen;
    this.#keep = keep;
  }

  /** Chooses a function, with values that fit it. */
  choose(name) {
    Object.assign(this.#chosen, { func: name, args: undefined, reply: undefined });
    this.#answers.clear();
    this.#typed = {};
  }

  /**
   * @param {import("../lib/package.js").Package} pkg
   * @param {import("./files.js").Opened} [opened] the file that carries the package
   */
  draw(pkg, opened) {
    this.#pkg = pkg;
    this.#opened = opened;
    const func = pkg.functions.find((it) => functionName(it) === this.#chosen.func) ?? this.#first();
    if (!func) {
      this.#box.replaceChildren(dim("There is no function."));
      return;
    }
    if (functionName(func) !== this.#chosen.func) this.choose(functionName(func));
    this.#show(func);
  }

  /** The function that is shown first: one that the module can run, if there is one. */
  #first() {
    const runs = this.#opened?.module ? this.#opened.world?.exports[0] : undefined;
    return runs ?? this.#pkg.functions[0];
  }

  #runs(func) {
    return Boolean(this.#opened?.module) && this.#opened.world.exports.includes(func);
  }

  #show(func) {
    const out = el("div", { id: "call-result" });
    const areas = new Map();
    const fields = this.#fields(func, areas, out);
    const all = [this.#choice(func), el("pre", { class: "signature" }, signatureOf(func)), this.#note(func)];
    const form = [...all.filter(Boolean), fields, this.#buttons(func, areas, out)];
    this.#box.replaceChildren(el("div", { class: "fields" }, ...form), out);
    if (this.#runs(func)) out.replaceChildren(dim("The module runs in this page when you call it."));
    else this.#call(func, areas, out);
  }

  /** The functions, of which one is called. */
  #choice(func) {
    const names = this.#pkg.functions.map(functionName);
    const select = el("select", { "aria-label": "Function" }, ...names.map((it) => el("option", { value: it }, it)));
    select.value = functionName(func);
    select.addEventListener("change", () => {
      this.choose(select.value);
      this.draw(this.#pkg, this.#opened);
      this.#box.querySelector("select").focus();
    });
    return select;
  }

  /** What a user should know about this call: whose code runs, or that the typed JSON is of other types. */
  #note(func) {
    const shape = this.#shapes.ofFunction(func);
    const isTyped = this.#chosen.args !== undefined || this.#chosen.reply !== undefined;
    this.#typed.shape ??= shape;
    if (isTyped && this.#typed.shape !== shape) {
      return el("p", { class: "note renew" }, "The types have changed since you typed this JSON. ");
    }
    this.#typed.shape = shape;
    if (!this.#opened || this.#opened.kind !== "module" || this.#runs(func)) return undefined;
    const { reason } = this.#opened;
    return el("p", { class: "note" }, reason ? `The module doesn't run here: ${reason}`
      : "The module imports this function, so both sides are made here.");
  }

  #fields(func, areas, out) {
    const runs = this.#runs(func);
    const add = (name, label, value, change) => {
      const { area, element } = field(label, value, (words) => {
        change(words);
        if (!runs) this.#call(func, areas, out);
        this.#keep();
      });
      areas.set(name, area);
      return element;
    };
    const typed = (name) => (words) => {
      this.#chosen[name] = words;
    };
    const all = [add("args", "Arguments, a JSON array", this.#chosen.args ?? newArguments(func), typed("args"))];
    if (runs) all.push(...this.#asked(add));
    else if (func.result) {
      all.push(add("reply", "The callee's answer, as JSON", this.#chosen.reply ?? newResult(func), typed("reply")));
    }
    return el("div", { class: "pair" }, ...all);
  }

  /** A field for each function that the module imports and that gives a result. */
  #asked(add) {
    return askedOf(this.#opened.world).map((it) => {
      const name = functionName(it);
      if (!this.#answers.has(name)) this.#answers.set(name, newResult(it));
      return add(name, `What ${name} answers the module, as JSON`, this.#answers.get(name),
        (words) => this.#answers.set(name, words));
    });
  }

  #buttons(func, areas, out) {
    const renew = button("New JSON for these types", () => {
      this.choose(functionName(func));
      this.draw(this.#pkg, this.#opened);
      this.#keep();
      this.#box.querySelector("textarea").focus();
    });
    if (!this.#runs(func)) return el("div", { class: "buttons" }, renew);
    const run = button("Call the module", () => this.#run(func, areas, out), { class: "first" });
    return el("div", { class: "buttons" }, run, renew);
  }

  #call(func, areas, out) {
    const done = called(this.#pkg, func, areas.get("args").value, areas.get("reply")?.value ?? "");
    const memories = ["caller", "callee"].map((who) => ({ title: `The ${who}'s memory`, ...done[who] }));
    out.replaceChildren(outcome(done, memories, areas));
  }

  async #run(func, areas, out) {
    const done = await ran(this.#opened, func, areas.get("args").value, this.#answers);
    if (out.isConnected) out.replaceChildren(outcome(done, done.memories, areas));
  }
}
