// The faults of the text: one at a time, below the editor, with the number of all.
import { button, el } from "./dom.js";

/** A fault's line, with the place below it. */
function placeOf({ start, end, column, source }) {
  const length = Math.max(Math.min(end - start, source.length - column + 1), 1);
  const indent = source.slice(0, column - 1).replace(/[^\t]/g, " ");
  return el("pre", {}, `${source}\n`, el("span", { class: "caret" }, `${indent}${"^".repeat(length)}`));
}

export class Faults {
  #box;
  #editor;
  #all = [];

  /**
   * @param {HTMLElement} box
   * @param {import("./editor.js").Editor} editor
   */
  constructor(box, editor) {
    this.#box = box;
    this.#editor = editor;
  }

  /** @param {object[]} faults as `placed` gives them; they are shown from the text's beginning to its end */
  show(faults) {
    this.#all = [...faults].sort((one, other) => (one.start ?? 0) - (other.start ?? 0));
    this.#editor.mark(this.#all);
    if (faults.length === 0) this.#box.replaceChildren();
    else this.#draw(0);
  }

  #draw(place) {
    const fault = this.#all[place];
    const { message, hint, row, column } = fault;
    const where = row ? `line ${row}, column ${column}: ` : "";
    const box = el("div", { class: "fault" }, el("strong", {}, `${where}${message}`));
    if (row) box.append(placeOf(fault));
    if (hint) box.append(el("p", {}, `What to do: ${hint}${hint.endsWith("?") ? "" : "."}`));
    box.append(el("div", { class: "buttons" }, ...this.#buttons(place)));
    this.#box.replaceChildren(box);
  }

  #buttons(place) {
    const { row, start, end } = this.#all[place];
    const go = row ? [button("Go there", () => this.#editor.select(start, end))] : [];
    const count = this.#all.length;
    if (count === 1) return go;
    const step = (words, by) => button(words, () => {
      this.#draw((place + by + count) % count);
      this.#box.querySelector(`[data-by="${by}"]`).focus();
    }, { data: { by } });
    const counted = el("span", { class: "count" }, `Fault ${place + 1} of ${count}`);
    return [counted, step("Previous", -1), step("Next", 1), ...go];
  }
}
