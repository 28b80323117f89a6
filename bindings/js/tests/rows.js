// The text rows of crates/rows_texts (docs/FORMATS.md, "Text rows"): an input, a command, and the answer.
import { fileOf } from "./support.js";

const FOLDER = "crates/vectors/data/";
const TOKEN = /"([^"]*)"|([^\s",]+)|(,)/g;

/** A number as four letters, which are its digits to the base 26. */
const letters = (number) =>
  [3, 2, 1, 0].map((place) => String.fromCharCode(97 + (Math.floor(number / 26 ** place) % 26))).join("");

/** Copies of a part, each with its number. */
const copies = (count, part) =>
  Array.from({ length: count }, (_, number) =>
    part.replaceAll("{n}", number).replaceAll("{m}", number + 1).replaceAll("{a}", letters(number)));

class Inputs {
  #kept = new Map();

  /** Keeps what a line after `let` has. */
  keep(line) {
    const [name, given] = line.split(/ = (.*)/s);
    const isFile = given.startsWith("file ");
    this.#kept.set(name, isFile ? [fileOf(FOLDER + given.slice("file ".length))] : this.of(given));
  }

  /** The inputs of a line. */
  of(line) {
    const found = [[]];
    const tokens = [...line.matchAll(TOKEN)];
    while (tokens.length > 0) {
      const [, text, word, comma] = tokens.shift();
      const [first, ...more] = comma ? ["", ""] : word === undefined ? [text] : this.#part(word, tokens);
      found.at(-1).push(Buffer.from(first));
      for (const input of more) found.push([Buffer.from(input)]);
    }
    return found.map((parts) => Buffer.concat(parts));
  }

  /** What a word begins, of which the first goes on with the input before it. */
  #part(word, tokens) {
    if (word === "bytes") return [Buffer.from(tokens.shift()[2], "hex")];
    if (word !== "repeat" && word !== "each") return this.#kept.get(word);
    const count = Number(tokens.shift()[2]);
    const [, text, name] = tokens.shift();
    const parts = name === undefined ? copies(count, text) : Array(count).fill(this.#kept.get(name).at(-1));
    return word === "each" ? parts : [Buffer.concat(parts.map((it) => Buffer.from(it)))];
  }
}

/** The rows of a file that have one of these commands. */
export function rowsOf(file, commands) {
  const inputs = new Inputs();
  const rows = [];
  let lines;
  for (const line of fileOf(FOLDER + file).toString().split("\n")) {
    if (line.startsWith("| ") || line === "|") {
      lines?.push(line.slice(2));
      continue;
    }
    lines = undefined;
    if (line.startsWith("let ")) inputs.keep(line.slice(4));
    const [, name, command, given, answer] = /^([^ |#]+): (\S+) (.*) =>(?: (.*))?$/.exec(line) ?? [];
    if (!commands.includes(command)) continue;
    lines = answer === undefined ? [] : [answer];
    rows.push({ name, command, inputs: inputs.of(given), answer: lines });
  }
  return rows;
}
