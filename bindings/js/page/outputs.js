// The tab of outputs: the package as a text, as a document and as a binary, all as the library writes them.
import { button, copied, dim, el, plural } from "./dom.js";

/** The most bytes of a binary, and the most characters of a text, that are shown. */
const MOST_BYTES = 4096;
const MOST_CHARACTERS = 20_000;
const COLUMNS = 16;

/** Bytes as lines: the address, the bytes, and their characters. */
function dump(bytes) {
  const lines = [];
  for (let at = 0; at < bytes.length; at += COLUMNS) {
    const row = [...bytes.subarray(at, at + COLUMNS)];
    const hex = row.map((it) => it.toString(16).padStart(2, "0")).join(" ");
    const letters = row.map((it) => (it > 31 && it < 127 ? String.fromCharCode(it) : ".")).join("");
    lines.push(`${at.toString(16).padStart(6, "0")}  ${hex.padEnd(3 * COLUMNS - 1)}  ${letters}`);
  }
  return lines.join("\n");
}

const documentText = (pkg) => `${JSON.stringify(pkg.describe(), null, 2)}\n`;

/** What a package is written as. `data` is what is downloaded, and `text` what is shown and copied. */
const OUTPUTS = [
  {
    name: "Text", about: "The last package as WIT", suffix: ".wit", type: "text/plain",
    data: (pkg) => pkg.toText(), text: (data) => data,
  },
  {
    name: "JSON", about: "All packages, with layouts and core signatures", suffix: ".json",
    type: "application/json", data: documentText, text: (data) => data,
  },
  {
    name: "Binary", about: "The last package as `witcall bin` writes it", suffix: ".wasm",
    type: "application/wasm", data: (pkg) => pkg.toBinary(), text: (data) => dump(data.subarray(0, MOST_BYTES)),
  },
];

/** The name of a file for a package: letters, digits and hyphens of its name. */
const fileName = (pkg, suffix) => `${pkg.describe().packages.at(-1).replace(/[^A-Za-z0-9.-]+/g, "-")}${suffix}`;

function download(data, name, type) {
  const url = URL.createObjectURL(new Blob([data], { type }));
  el("a", { href: url, download: name }).click();
  setTimeout(() => URL.revokeObjectURL(url), 1000);
}

/** What is not shown of an output. */
function rest(data) {
  const [most, word] = typeof data === "string" ? [MOST_CHARACTERS, "character"] : [MOST_BYTES, "byte"];
  return data.length > most ? `and ${plural(data.length - most, word)} more` : "";
}

/** The tab. */
export class Outputs {
  #box;
  #say;
  #output = OUTPUTS[0];
  #pkg;

  /**
   * @param {HTMLElement} box
   * @param {(words: string) => void} say tells what was done
   */
  constructor(box, say) {
    this.#box = box;
    this.#say = say;
  }

  /** @param {import("../lib/package.js").Package} pkg */
  draw(pkg) {
    this.#pkg = pkg;
    const { about, suffix, type, ...output } = this.#output;
    const data = output.data(pkg);
    const text = output.text(data);
    const copy = button("Copy", async () => {
      const isDone = await copied(text);
      this.#say(isDone ? `${output.name} is copied.` : "This browser doesn't let the page copy.");
    });
    const save = button("Download", () => download(data, fileName(pkg, suffix), type));
    const size = typeof data === "string" ? plural(data.length, "character") : plural(data.length, "byte");
    const shown = text.slice(0, MOST_CHARACTERS);
    this.#box.replaceChildren(
      el("div", { class: "buttons" }, ...OUTPUTS.map((it) => this.#choice(it)), copy, save),
      dim(`${about}: ${size}`),
      el("div", { class: "card" }, el("pre", { class: "output", tabindex: "0", "aria-label": output.name }, shown)),
      dim(rest(data)));
  }

  #choice(it) {
    const choose = () => {
      this.#output = it;
      this.draw(this.#pkg);
      this.#box.querySelector('[aria-pressed="true"]').focus();
    };
    return button(it.name, choose, { "aria-pressed": String(it === this.#output) });
  }
}
