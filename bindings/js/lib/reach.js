// Which bytes of a memory the library reads for a value of a type: the texts and lists that it has, wherever they lie.
// A walk goes the library's own way (crates/adapter/src/asking), and ends where that ends: at a block outside of the
// memory, and at one above the limit. What it reads are the copied bytes, as the library does.

/** The most core values of parameters that do not lie in memory, and of a result. */
const MAX_FLAT = { parameters: 16, result: 1 };

/** One walk over a carrier. */
class Walk {
  #carrier;
  #view;
  #left;

  constructor(carrier, limit) {
    this.#carrier = carrier;
    this.#view = carrier.view;
    this.#left = limit;
  }

  /** Copies the bytes of a value. It is false if they are not all inside. */
  value(at, size) {
    if (at + size > this.#carrier.length) return false;
    this.#carrier.need(at, size);
    return true;
  }

  /** The same of a block, whose bytes are counted. It is false too if they are above the limit. */
  block(at, size) {
    if (size > this.#left || !this.value(at, size)) return false;
    this.#left -= size;
    return true;
  }

  /** The elements of a list that have blocks. */
  elements(at, count, size, element) {
    if (!this.block(at, count * size)) return false;
    for (let place = 0; element && place < count; place++) {
      if (!element(this, at + place * size)) return false;
    }
    return true;
  }

  /** A number of 1, 2 or 4 bytes. */
  number(at, size) {
    const place = this.#carrier.at + at;
    if (size === 4) return this.#view.getUint32(place, true);
    return size === 2 ? this.#view.getUint16(place, true) : this.#view.getUint8(place);
  }

  word(at) {
    return this.number(at, 4);
  }
}

/**
 * @typedef {(walk: Walk, at: number) => boolean} Reader copies what the value at an address has; false ends the walk
 * @typedef {(walk: Walk, flats: (number | bigint)[], first: number) => boolean} FlatReader the same of core values
 */

/** The type that an alias or a used name stands for. */
export const meant = (type) => (type?.kind === "alias" || type?.kind === "use" ? meant(type.target) : type);

/** Kinds with a case at a time, and kinds with all of their members. */
export const CASES = new Set(["variant", "option", "result", "enum"]);
export const FIELDS = new Set(["record", "tuple"]);

/** The bytes of the number of a case. */
export function numberSize(cases) {
  if (cases <= 256) return 1;
  return cases <= 65536 ? 2 : 4;
}

/** Makes a function of a type's, which is the same one for the same type. */
function kept(make) {
  const all = new WeakMap();
  return (type) => {
    const it = meant(type);
    if (!it) return undefined;
    if (!all.has(it)) all.set(it, make(it));
    return all.get(it);
  };
}

/** How many core values a type has. */
export const flatCount = kept((type) => {
  const counts = () => type.members.map((it) => flatCount(it.type) ?? 0);
  if (type.kind === "string" || type.kind === "list") return 2;
  if (FIELDS.has(type.kind)) return counts().reduce((sum, it) => sum + it, 0);
  return CASES.has(type.kind) ? 1 + Math.max(...counts()) : 1;
});

/** Reads one after another, up to the first one that ends the walk. */
function inTurn(readers) {
  if (readers.length === 0) return undefined;
  return (walk, ...place) => readers.every((read) => read(walk, ...place));
}

/** The reader of fields, or undefined if there is nothing behind them. */
const fieldsReader = (members) =>
  inTurn(members.flatMap(({ type, offset }) => {
    const read = reader(type);
    return read ? [(walk, at) => read(walk, at + offset)] : [];
  }));

/** @type {(type: object) => Reader | undefined} */
const reader = kept((type) => {
  if (type.kind === "string") return (walk, at) => walk.block(walk.word(at), walk.word(at + 4));
  if (type.kind === "list") {
    const { size } = type.target;
    const element = reader(type.target);
    return (walk, at) => walk.elements(walk.word(at), walk.word(at + 4), size, element);
  }
  if (FIELDS.has(type.kind)) return fieldsReader(type.members);
  if (!CASES.has(type.kind)) return undefined;
  const cases = type.members.map((it) => reader(it.type));
  const places = type.members.map((it) => it.offset);
  if (!cases.some(Boolean)) return undefined;
  const size = numberSize(cases.length);
  return (walk, at) => {
    const number = walk.number(at, size);
    if (number >= cases.length) return false;
    return !cases[number] || cases[number](walk, at + places[number]);
  };
});

/** The low 32 bits of a core value. */
const low = (flat) => (typeof flat === "bigint" ? Number(BigInt.asUintN(32, flat)) : flat >>> 0);

function flatFieldsReader(members) {
  let count = 0;
  return inTurn(members.flatMap(({ type }) => {
    const place = count;
    const read = flatReader(type);
    count += flatCount(type);
    return read ? [(walk, flats, first) => read(walk, flats, first + place)] : [];
  }));
}

/** @type {(type: object) => FlatReader | undefined} */
const flatReader = kept((type) => {
  if (type.kind === "string") return (walk, flats, first) => walk.block(low(flats[first]), low(flats[first + 1]));
  if (type.kind === "list") {
    const { size } = type.target;
    const element = reader(type.target);
    return (walk, flats, first) => walk.elements(low(flats[first]), low(flats[first + 1]), size, element);
  }
  if (FIELDS.has(type.kind)) return flatFieldsReader(type.members);
  if (!CASES.has(type.kind)) return undefined;
  const cases = type.members.map((it) => flatReader(it.type));
  if (!cases.some(Boolean)) return undefined;
  return (walk, flats, first) => {
    const number = low(flats[first]);
    if (number >= cases.length) return false;
    return !cases[number] || cases[number](walk, flats, first + 1);
  };
});

/**
 * A reader of values that are core values of their own, or lie in memory as one record.
 * @param {{type: object, offset: number}[]} members
 * @param {number} size the record's
 * @param {number} most the most core values
 * @param {(walk: Walk, at: number) => boolean} take takes the record
 */
function valuesReader(members, size, most, take) {
  if (members.reduce((sum, it) => sum + flatCount(it.type), 0) <= most) return flatFieldsReader(members);
  const fields = fieldsReader(members);
  return (walk, flats, first) => {
    const at = low(flats[first]);
    return take(walk, at) && (!fields || fields(walk, at));
  };
}

/** What the library reads of a function's arguments: undefined if it is nothing. */
export const argumentsReader = ({ parameters, size }) =>
  valuesReader(parameters, size, MAX_FLAT.parameters, (walk, at) => walk.block(at, size));

/** What the library reads of a function's result: undefined if it is nothing. */
export const resultReader = ({ result }) =>
  result ? valuesReader([result], result.size, MAX_FLAT.result, (walk, at) => walk.value(at, result.size)) : undefined;

/**
 * Copies what the library reads for core values.
 * @param {FlatReader} read
 * @param {(number | bigint)[]} flats
 * @param {import("./carrier.js").Carrier} carrier
 * @param {number} limit the most bytes of blocks, as the library is told
 */
export const reach = (read, flats, carrier, limit) => read(new Walk(carrier, limit), flats, 0);
