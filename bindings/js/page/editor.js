// The editor: a text with the numbers of its lines, and with the places of its faults marked.
import { el } from "./dom.js";

const INDENT = "  ";

/** The editor of the page. */
export class Editor {
  #text;
  #marks;
  #numbers;
  #lines = 0;
  #leaves = false;

  /**
   * @param {{text: HTMLTextAreaElement, marks: HTMLElement, numbers: HTMLElement}} elements
   * @param {() => void} typed is called after each change by a user
   */
  constructor({ text, marks, numbers }, typed) {
    this.#text = text;
    this.#marks = marks;
    this.#numbers = numbers;
    text.addEventListener("scroll", () => this.#scrolled());
    text.addEventListener("keydown", (event) => this.#pressed(event));
    text.addEventListener("input", () => {
      this.mark([]);
      this.#number();
      typed();
    });
  }

  get value() {
    return this.#text.value;
  }

  /** Shows another text, which a user may change or not. */
  show(value, isFixed = false) {
    this.#text.readOnly = isFixed;
    if (this.#text.value !== value) this.#text.value = value;
    this.#number();
  }

  /** Moves the focus to a range of the text, and selects it. */
  select(start, end) {
    this.#text.focus();
    this.#text.setSelectionRange(start, end);
  }

  /** Marks the places of faults, which are in the text's order. Those that overlap an earlier one are left out. */
  mark(faults) {
    if (faults.length === 0 && !this.#marks.hasChildNodes()) return;
    const { value } = this.#text;
    const nodes = [];
    let from = 0;
    for (const { start, end } of faults.filter((it) => it.row)) {
      if (start < from) continue;
      nodes.push(value.slice(from, start), el("mark", {}, value.slice(start, end) || " "));
      from = end;
    }
    this.#marks.replaceChildren(...nodes, ...(from > 0 ? [`${value.slice(from)}\n`] : []));
    if (from > 0) this.#scrolled();
  }

  #number() {
    const lines = this.#text.value.split("\n").length;
    if (lines === this.#lines) return;
    this.#lines = lines;
    this.#numbers.textContent = Array.from({ length: lines }, (_, place) => place + 1).join("\n");
  }

  #scrolled() {
    this.#marks.scrollTop = this.#numbers.scrollTop = this.#text.scrollTop;
    this.#marks.scrollLeft = this.#text.scrollLeft;
  }

  /** Tab indents, and Shift and Tab the other way. Escape lets the next Tab leave the editor. */
  #pressed(event) {
    if (event.key === "Shift") return;
    const leaves = this.#leaves;
    this.#leaves = event.key === "Escape";
    if (event.key !== "Tab" || leaves || this.#text.readOnly) return;
    event.preventDefault();
    const { selectionStart: start, selectionEnd: end } = this.#text;
    if (start === end && !event.shiftKey) this.#insert(INDENT);
    else this.#indent(start, end, event.shiftKey);
  }

  /** Indents the lines that a selection touches, or does away with an indent of each. */
  #indent(start, end, isBack) {
    const { value } = this.#text;
    const first = value.lastIndexOf("\n", start - 1) + 1;
    const lines = value.slice(first, end).split("\n");
    const changed = lines.map((it) => (isBack ? it.replace(/^ {1,2}|^\t/, "") : `${INDENT}${it}`)).join("\n");
    if (changed === value.slice(first, end)) return;
    this.#text.setSelectionRange(first, end);
    this.#insert(changed);
    this.#text.setSelectionRange(Math.max(first, start + (isBack ? 0 : INDENT.length)), first + changed.length);
  }

  /** Puts words into the place of the selection, so that the browser can undo it. */
  #insert(words) {
    if (words !== "" && document.execCommand("insertText", false, words)) return;
    const { selectionStart: start, selectionEnd: end } = this.#text;
    this.#text.setRangeText(words, start, end, "end");
    this.#text.dispatchEvent(new Event("input"));
  }
}
