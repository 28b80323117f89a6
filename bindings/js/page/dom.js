// Elements of the page. What a text, a value or a module has becomes text nodes and attributes, and never HTML.

/**
 * Makes an element.
 * @param {string} tag
 * @param {object} [options] attributes, and besides them `style`, `data` and `on`: properties, data and listeners
 * @param {...(Node | string | undefined)} children
 * @returns {HTMLElement}
 */
export function el(tag, options = {}, ...children) {
  const element = document.createElement(tag);
  const { style = {}, data = {}, on = {}, ...attributes } = options;
  for (const [name, value] of Object.entries(attributes)) element.setAttribute(name, value);
  for (const [name, value] of Object.entries(style)) element.style.setProperty(name, value);
  Object.assign(element.dataset, data);
  for (const [name, run] of Object.entries(on)) element.addEventListener(name, run);
  element.append(...children.filter((it) => it !== undefined));
  return element;
}

/** A button that does something. */
export const button = (words, run, options = {}) =>
  el("button", { type: "button", on: { click: run }, ...options }, words);

/** A paragraph about what is not there. */
export const dim = (words) => el("p", { class: "dim" }, words);

const digits = new Intl.NumberFormat("en");

/** A count with its noun. */
export function plural(count, word) {
  const number = count < 1000 ? count : digits.format(count);
  return `${number} ${word}${count === 1 ? "" : "s"}`;
}

/** Sets the text of an element, if it is another one. */
export function setText(element, words) {
  if (element.textContent !== words) element.textContent = words;
}

/** Copies a text, and returns whether that was allowed. */
export async function copied(words) {
  try {
    await navigator.clipboard.writeText(words);
    return true;
  } catch {
    return false;
  }
}
