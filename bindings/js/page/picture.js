// Bytes as a picture, beside the list of what they are. A byte or a part that the pointer is over, or that has the
// focus, lights what belongs to it.
import { dim, el, plural } from "./dom.js";

/** The most bytes that are drawn. */
const MOST_BYTES = 512;
const COLUMNS = 16;
const NARROW_COLUMNS = 8;

/** Screens that have no room for a row of 16 bytes. */
export const narrow = matchMedia("(max-width: 520px)");

const hueOf = (place) => (210 + place * 67) % 360;

const rangeOf = ({ from, to }) => (to - from === 1 ? `${from}` : `${from} to ${to - 1}`);
const hex = (byte) => byte.toString(16).padStart(2, "0");
const ascii = (byte) => (byte > 31 && byte < 127 ? String.fromCharCode(byte) : ".");

/** The most characters of a value that are listed. */
const MOST_CHARACTERS = 120;
const cut = (words) => (words.length > MOST_CHARACTERS ? `${words.slice(0, MOST_CHARACTERS)} ..` : words);

/** Lights and darkens what belongs together: elements by a key. */
export class Lights {
  #all = new Map();
  #told;

  /** @param {HTMLElement} told says what is lit */
  constructor(told) {
    this.#told = told;
  }

  /** Has an element lit with those of the same keys. */
  follow(element, keys) {
    for (const key of keys) {
      if (!this.#all.has(key)) this.#all.set(key, []);
      this.#all.get(key).push(element);
    }
  }

  /** Has an element lit with those of the same keys, light them, and say a text. */
  add(element, keys, text) {
    this.follow(element, keys);
    const light = (isLit) => () => {
      for (const key of keys) for (const it of this.#all.get(key)) it.classList.toggle("lit", isLit);
      if (this.#told) this.#told.textContent = isLit ? text : "";
    };
    for (const name of ["pointerenter", "focus"]) element.addEventListener(name, light(true));
    for (const name of ["pointerleave", "blur"]) element.addEventListener(name, light(false));
  }
}

/** Has the arrow keys move the focus over elements, of which one has it. */
function roving(elements, columns) {
  const steps = { ArrowRight: 1, ArrowLeft: -1, ArrowDown: columns, ArrowUp: -columns };
  elements.forEach((it, place) => {
    it.tabIndex = place === 0 ? 0 : -1;
    it.addEventListener("keydown", (event) => {
      const step = steps[event.key];
      const next = step && elements[place + step];
      if (!next) return;
      event.preventDefault();
      it.tabIndex = -1;
      next.tabIndex = 0;
      next.focus();
    });
  });
}

/** For each byte the parts that have it, and of these the first one's number, which is its color. */
function owners(parts, from, to) {
  const all = Array.from({ length: to - from }, () => []);
  parts.forEach((part, place) => {
    if (part.isLabel) return;
    for (let at = Math.max(part.from, from); at < Math.min(part.to, to); at++) all[at - from].push(place);
  });
  return all;
}

function partText(part) {
  const words = [`bytes ${rangeOf(part)}`, part.path, part.kind, part.value];
  return cut(words.filter((it) => it !== undefined && it !== "").join(" · "));
}

const colorOf = (part, place) => ({ "--hue": hueOf(part.hue ?? place) });

/** What a byte is, and how its element looks: it has the color of the first part that it is in. */
function lookOf(at, own, parts, { keyOf, label }) {
  if (own.length === 0) {
    return { said: `byte ${at}: padding`, keys: [`free ${label} ${at}`], class: "byte free", data: {} };
  }
  const said = cut(own.map((it) => partText(parts[it])).join("; "));
  const keys = own.map((it) => keyOf(parts[it], it));
  const data = parts[own[0]].isOdd ? { hue: "", odd: "" } : { hue: "" };
  return { said, keys, class: "byte", data, style: colorOf(parts[own[0]], own[0]) };
}

/** The element of a byte. */
function byteOf(at, look, { bytes, lights }) {
  const { said, keys, ...options } = look;
  const isFree = options.class.endsWith("free");
  const words = bytes ? hex(bytes[at]) : isFree ? "·" : "";
  const cell = el("span", { ...options, title: said, "aria-label": said, role: "img" }, words);
  lights.add(cell, keys, bytes ? `byte ${at} is ${hex(bytes[at])} · ${said}` : said);
  return cell;
}

/** A row of bytes as characters, of which each is lit with its byte. */
function asciiOf(looks, first, { bytes, lights }) {
  const letters = looks.map(({ keys, data, style }, index) => {
    const letter = el("span", { data, style }, ascii(bytes[first + index]));
    lights.follow(letter, keys);
    return letter;
  });
  return el("span", { class: "ascii", "aria-hidden": "true" }, ...letters);
}

/** The rows of bytes of a range, with their characters if they are bytes of a memory. */
function bytesOf(parts, options) {
  const { from, to, label, columns, bytes } = options;
  const looks = owners(parts, from, to).map((own, index) => lookOf(from + index, own, parts, options));
  const cells = looks.map((look, index) => byteOf(from + index, look, options));
  const grid = el("div", { class: bytes ? "bytes of-memory" : "bytes", role: "group", "aria-label": label });
  grid.style.setProperty("--columns", columns);
  for (let first = 0; first < cells.length; first += columns) {
    grid.append(el("span", { class: "address" }, `${from + first}`), ...cells.slice(first, first + columns));
    if (bytes) grid.append(asciiOf(looks.slice(first, first + columns), from + first, options));
  }
  roving(cells, columns);
  return grid;
}

/** A row of the list: a part, or a label of one. */
function rowOf(part, place, parts, { keyOf, lights }) {
  const kind = part.value === undefined ? part.kind : `${part.kind} ${cut(String(part.value))}`;
  const item = el("li", part.isLabel ? { class: "label" } : {},
    el("span", { class: "swatch", style: part.isLabel ? {} : colorOf(part, place) }),
    part.path ? el("span", { class: "name mono" }, part.path) : undefined,
    el("span", { class: "kind" }, kind),
    el("span", { class: "range" }, part.isLabel ? "" : rangeOf(part)));
  const keys = part.isLabel ? [`${keyOf(part, place)} ${place}`, keyOf(parts[part.of], part.of)] : [keyOf(part, place)];
  lights.add(item, keys, part.isLabel ? `${part.kind} · ${part.path}` : partText(part));
  return item;
}

function listOf(parts, options) {
  const items = parts.map((part, place) => rowOf(part, place, parts, options));
  roving(items, 1);
  return el("ul", { class: "parts", "aria-label": options.label }, ...items);
}

/**
 * A picture of a range of bytes.
 * @param {object[]} parts what they are
 * @param {{from: number, to: number, bytes?: Uint8Array, lights: Lights, label: string}} options
 */
export function picture(parts, options) {
  const { from, to, keyOf = (_, place) => `${options.label} ${place}` } = options;
  const end = Math.min(to, from + MOST_BYTES);
  // As many columns as the value has bytes, if they are few.
  const columns = Math.min(narrow.matches ? NARROW_COLUMNS : COLUMNS, Math.max(to - from, 1));
  const all = { ...options, to: end, keyOf, columns };
  const more = to > end ? dim(`and ${plural(to - end, "byte")} more`) : undefined;
  return el("div", { class: "picture" }, el("div", {}, bytesOf(parts, all), more), listOf(parts, all));
}
