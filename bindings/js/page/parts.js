// What bytes are: the fields of a type by its layout, and those of a value in a memory.
import { CASES, FIELDS, meant, numberSize } from "../lib/reach.js";

/** The most parts that are listed. */
const MOST = 400;

/** How a type is written. */
export function nameOf(type) {
  if (!type) return "_";
  if (type.name) return type.name;
  const members = (type.members ?? []).map((it) => nameOf(it.type));
  if (type.kind === "list") return `list<${nameOf(type.target)}>`;
  if (type.kind === "option") return `option<${members[1]}>`;
  if (type.kind === "tuple") return `tuple<${members.join(", ")}>`;
  if (type.kind === "result") return members.every((it) => it === "_") ? "result" : `result<${members.join(", ")}>`;
  return type.kind;
}

const join = (path, name) => (path ? `${path}.${name}` : name);

/** Makes lists of parts. A part is a range of bytes, with a name and what it is. */
class Parts {
  all = [];

  add(from, size, path, kind, more = {}) {
    if (this.all.length < MOST) this.all.push({ from, to: from + size, path, kind, ...more });
  }

  /** A label, which is a value of the bytes of a part: the one with the number `of`. */
  label(of, path, kind) {
    const { from, to } = this.all[of];
    this.add(from, to - from, path, kind, { isShared: true, isLabel: true, of });
  }

  get last() {
    return this.all.length - 1;
  }

  get isFull() {
    return this.all.length >= MOST;
  }
}

const memberPath = ({ kind }, path, { name }, place) => (kind === "tuple" ? `${path}[${place}]` : join(path, name));

/** The parts of a layout with cases: each case is one. Its payload has bytes that other cases have too. */
function caseParts(parts, type, named, at, path) {
  const size = numberSize(type.members.length);
  parts.add(at, size, path, type.kind === "enum" ? nameOf(named) : "number of the case");
  const number = parts.last;
  type.members.forEach((it, place) => {
    const name = join(path, it.name);
    if (!it.type) parts.label(number, name, `case ${place}`);
    else parts.add(at + it.offset, it.size, name, `case ${place}: ${nameOf(it.type)}`, { isShared: true });
  });
}

/** The parts of a layout. */
function layoutParts(parts, named, at, path) {
  const type = meant(named);
  if (parts.isFull) return;
  if (FIELDS.has(type.kind)) {
    type.members.forEach((it, place) => {
      layoutParts(parts, it.type, at + it.offset, memberPath(type, path, it, place));
    });
  } else if (CASES.has(type.kind)) {
    caseParts(parts, type, named, at, path);
  } else if (type.kind === "string" || type.kind === "list") {
    parts.add(at, 4, path, `address of the ${type.kind === "list" ? "elements" : "bytes"}`);
    parts.add(at + 4, 4, path, type.kind === "list" ? `how many ${nameOf(type.target)}` : "how many bytes");
  } else {
    parts.add(at, type.size, path, nameOf(named));
    if (type.kind !== "flags") return;
    const bits = parts.last;
    type.members.forEach((it, bit) => parts.label(bits, join(path, it.name), `bit ${bit}`));
  }
}

/** The parts of a type's layout, and its labels. */
export function partsOf(type) {
  const parts = new Parts();
  layoutParts(parts, type, 0, "");
  return parts.all;
}

const decoder = new TextDecoder();
const READERS = {
  bool: (view, at) => String(view.getUint8(at) !== 0),
  u8: (view, at) => view.getUint8(at), s8: (view, at) => view.getInt8(at),
  u16: (view, at) => view.getUint16(at, true), s16: (view, at) => view.getInt16(at, true),
  u32: (view, at) => view.getUint32(at, true), s32: (view, at) => view.getInt32(at, true),
  u64: (view, at) => view.getBigUint64(at, true), s64: (view, at) => view.getBigInt64(at, true),
  char: (view, at) => JSON.stringify(String.fromCodePoint(view.getUint32(at, true))),
};
const GETTERS = { 1: "getUint8", 2: "getUint16", 4: "getUint32" };

/** The parts of a value that stands in a memory, and of what it has elsewhere. */
class Walk {
  parts = new Parts();

  constructor(bytes) {
    this.bytes = bytes;
    this.view = new DataView(bytes.buffer);
  }

  value(named, at, path) {
    const type = meant(named);
    if (this.parts.isFull) return;
    if (FIELDS.has(type.kind)) {
      type.members.forEach((it, place) => this.value(it.type, at + it.offset, memberPath(type, path, it, place)));
    } else if (CASES.has(type.kind)) {
      this.#cases(type, at, path);
    } else if (type.kind === "string" || type.kind === "list") {
      const [start, count] = [0, 4].map((it) => this.view.getUint32(at + it, true));
      this.parts.add(at, 4, path, "address", { value: start });
      this.parts.add(at + 4, 4, path, type.kind === "list" ? "how many" : "how many bytes", { value: count });
      this.block(type, start, count, path);
    } else if (type.kind === "flags") {
      const bits = this.view[GETTERS[type.size]](at, true);
      const set = type.members.filter((_, bit) => (bits >>> bit) & 1).map((it) => it.name);
      this.parts.add(at, type.size, path, nameOf(named), { value: set.join(" ") || "none" });
    } else {
      this.parts.add(at, type.size, path, nameOf(named), { value: READERS[type.kind](this.view, at) });
    }
  }

  #cases(type, at, path) {
    const size = numberSize(type.members.length);
    const number = this.view[GETTERS[size]](at, true);
    const member = type.members[number];
    this.parts.add(at, size, path, "case", { value: `${number} ${member?.name ?? "none of them"}` });
    if (member?.type) this.value(member.type, at + member.offset, join(path, member.name));
  }

  /** What a text or a list has elsewhere. */
  block(type, start, count, path) {
    if (type.kind === "string") {
      const text = decoder.decode(this.bytes.subarray(start, start + count));
      if (count > 0) this.parts.add(start, count, path, "text", { value: JSON.stringify(text) });
      return;
    }
    const { size } = type.target;
    for (let place = 0; place < count && !this.parts.isFull; place++) {
      this.value(type.target, start + place * size, `${path}[${place}]`);
    }
  }

  /** What core values of a type have in the memory. Returns how many there are. */
  flats(named, flats, first, path, count) {
    const type = meant(named);
    const low = (place) => Number(BigInt.asUintN(32, BigInt(flats[place] ?? 0)));
    if (type.kind === "string" || type.kind === "list") {
      this.block(type, low(first), low(first + 1), path);
    } else if (FIELDS.has(type.kind)) {
      let place = first;
      type.members.forEach((it, index) => {
        this.flats(it.type, flats, place, memberPath(type, path, it, index), count);
        place += count(it.type);
      });
    } else if (CASES.has(type.kind)) {
      const member = type.members[low(first)];
      if (member?.type) this.flats(member.type, flats, first + 1, join(path, member.name), count);
    }
  }
}

/** A walk over a memory, for parts of several values. */
export const walkOver = (bytes) => new Walk(bytes);

const SAMPLES = { bool: true, char: "x", string: "text" };

/** How many values a sample has: no list of it gets elements after the first number, and none is made at the second. */
const MOST_VALUES = 64;
const TOO_MANY = 4096;

/** Makes a sample. It counts its values, since a type of few words may have very many. */
class Sampler {
  #count = 0;

  of(named) {
    const type = meant(named);
    this.#count++;
    if (this.#count > TOO_MANY) throw new RangeError("the type has too many values");
    if (type.kind === "list") return this.#list(type);
    if (type.kind === "tuple") return type.members.map((it) => this.of(it.type));
    if (type.kind === "flags") return type.members.slice(0, 1).map((it) => it.name);
    if (type.kind === "record") return Object.fromEntries(type.members.map((it) => [it.name, this.of(it.type)]));
    if (type.kind === "enum") return type.members.at(-1).name;
    return CASES.has(type.kind) ? this.#case(type) : SAMPLES[type.kind] ?? 7;
  }

  #list({ target }) {
    const elements = [];
    while (elements.length < 2 && this.#count < MOST_VALUES) elements.push(this.of(target));
    return elements;
  }

  #case({ members }) {
    const member = members.find((it) => it.type) ?? members[0];
    return member.type ? { [member.name]: this.of(member.type) } : member.name;
  }
}

/** A value of a type, for JSON. Throws a RangeError if each one is too large. */
export const sampleOf = (named) => new Sampler().of(named);

/** Numbers of shapes: types with the same kinds and labels, also of different packages, have one number. */
export class Shapes {
  #numbers = new Map();
  #known = new WeakMap();

  of(named) {
    const type = meant(named);
    if (!type) return -1;
    if (!this.#known.has(type)) this.#known.set(type, this.#number(type));
    return this.#known.get(type);
  }

  /** The shape of what a function takes and gives. */
  ofFunction({ parameters, result }) {
    return JSON.stringify([parameters.map((it) => this.of(it.type)), this.of(result?.type)]);
  }

  #number({ kind, target, members = [] }) {
    const key = JSON.stringify([kind, this.of(target), members.map((it) => [it.name, this.of(it.type)])]);
    if (!this.#numbers.has(key)) this.#numbers.set(key, this.#numbers.size);
    return this.#numbers.get(key);
  }
}

/** The full name of a function. */
export const functionName = (func) => `${func.interface ?? func.world}#${func.name}`;

/** A function as it is written. */
export function signatureOf(func) {
  const parameters = func.parameters.map((it) => `${it.name}: ${nameOf(it.type)}`).join(", ");
  return `${func.name}: func(${parameters})${func.result ? ` -> ${nameOf(func.result.type)}` : ""}`;
}

/** A core signature as it is written. */
export const coreText = ({ parameters, results }) =>
  `(${parameters.join(", ")})${results.length > 0 ? ` -> ${results.join(", ")}` : ""}`;
