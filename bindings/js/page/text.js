// The text on the left: its packages, and where a fault of it is.

/** The packages of a text, each from a line on that begins with the word `package`. */
export function packagesOf(text) {
  const starts = [...text.matchAll(/^package\s/gm)].map((it) => it.index);
  if (starts.length < 2) return [{ start: 0, text }];
  starts[0] = 0;
  return starts.map((start, place) => ({ start, text: text.slice(start, starts[place + 1]) }));
}

/** The index of a line and a column, which count from 1. A column is a character, which may be two of a text. */
function indexAt(text, line, column) {
  const lines = text.split("\n");
  const before = lines.slice(0, line - 1).reduce((sum, it) => sum + it.length + 1, 0);
  return before + [...(lines[line - 1] ?? "")].slice(0, column - 1).join("").length;
}

/**
 * A fault of one of the packages of a text, with its place in the whole.
 * @param {string} whole the text of all
 * @param {{start: number, text: string}[]} parts its packages
 * @param {import("../index.js").Fault} fault
 */
export function placed(whole, parts, { text, line, column, endLine, endColumn, message, hint }) {
  if (line === undefined) return { message, hint };
  const part = parts[text];
  const start = part.start + indexAt(part.text, line, column);
  const end = Math.max(part.start + indexAt(part.text, endLine, endColumn), start + 1);
  const before = whole.slice(0, start).split("\n");
  const source = whole.split("\n")[before.length - 1];
  return { message, hint, start, end, row: before.length, column: before.at(-1).length + 1, source };
}
