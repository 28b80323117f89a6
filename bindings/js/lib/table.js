// What a package has: its rows, as the library tells them, with their members and their layouts.
import { CODE, REFUSAL } from "./core.js";

/** The kinds of types, by their numbers. Those from `list` on are kinds of rows. */
const KINDS = [
  "none", "bool", "s8", "u8", "s16", "u16", "s32", "u32", "s64", "u64", "char", "string", "list", "option", "result",
  "tuple", "record", "variant", "enum", "flags", "alias", "use", "function",
];
const FIRST_ROW = KINDS.indexOf("list");

/** The owners of rows, by their numbers. */
const OWNERS = [undefined, "interface", "world"];

/** Sizes of structs, and the most core values. */
const ROW_SIZE = 44;
const MEMBER_SIZE = 20;
const MAX_VALUES = 17;

/** Room for each struct, for the kinds of core values, and for most names. */
const ROOM = 256;

const decoder = new TextDecoder();

/** What exports write about a package, in one block of the module that is used again. */
class Answers {
  #pkg;
  #core;
  #handle;
  #at;

  /** @param {import("./package.js").Package} pkg */
  constructor(pkg) {
    this.#pkg = pkg;
    this.#core = pkg.place.core;
    this.#handle = pkg.place.handle;
    this.#at = this.#core.allocate(ROOM);
  }

  #words(count) {
    const { view } = this.#core;
    const words = [];
    for (let at = this.#at; words.length < count; at += 4) words.push(view.getUint32(at, true));
    return words;
  }

  /** The words of a struct, or nothing if there is none of this number. */
  struct(size, name, numbers) {
    const status = this.#core.call(name, this.#handle, numbers, this.#at);
    if (status.number === REFUSAL.NOT_THERE) return undefined;
    if (status.code !== CODE.DONE) throw this.#core.error(status);
    return this.#words(size / 4);
  }

  /** A name. One that has no room in the block is asked for again. */
  name(name, ...numbers) {
    const status = this.#core.call(name, this.#handle, numbers, this.#at, ROOM);
    if (status.code === CODE.DONE) return this.#core.text(this.#at, status.count);
    return decoder.decode(this.#pkg.told(name, numbers));
  }

  /** The kinds of core values that an export tells of a function. */
  signature(name, func) {
    const status = this.#core.call(name, this.#handle, [func], this.#at, MAX_VALUES);
    if (status.code !== CODE.DONE) throw this.#core.error(status);
    return this.#words(status.count).map((it) => (it ? "i64" : "i32"));
  }

  free() {
    this.#core.free(this.#at);
  }
}

/** Reads the rows of a package, from 0 on. */
function rowsOf(answers) {
  const rows = [];
  for (let row; (row = answers.struct(ROW_SIZE, "witcall_row", [rows.length])); ) {
    const [kind, , size, alignment, ...rest] = row;
    const [ownerKind, owner, members] = rest.slice(4);
    rows.push({
      target: rest.slice(0, 4),
      owner: [ownerKind, owner],
      members,
      type: { kind: KINDS[kind], number: rows.length, size, alignment },
    });
  }
  return rows;
}

class Reader {
  #answers;
  #rows;
  #owners = new Map();

  /** @param {Answers} answers */
  constructor(answers) {
    this.#answers = answers;
    this.#rows = rowsOf(answers);
  }

  /** A type by its four words: the object of its row, if it has one. */
  #type([kind, row, size, alignment]) {
    if (kind === 0) return null;
    return kind < FIRST_ROW ? { kind: KINDS[kind], size, alignment } : this.#rows[row].type;
  }

  #owner([kind, number]) {
    const key = `${kind} ${number}`;
    if (!this.#owners.has(key)) this.#owners.set(key, this.#answers.name("witcall_owner_name", kind, number));
    return { [OWNERS[kind]]: this.#owners.get(key) };
  }

  #members(number, count) {
    return Array.from({ length: count }, (_, index) => {
      const [kind, row, size, alignment, offset] = this.#answers.struct(MEMBER_SIZE, "witcall_member", [number, index]);
      const name = this.#answers.name("witcall_member_name", number, index);
      return { name, type: this.#type([kind, row, size, alignment]), size, alignment, offset };
    });
  }

  #function({ type: { number, size, alignment }, target, owner, members }) {
    const result = this.#type(target);
    const core = (way) => ({
      parameters: this.#answers.signature(`witcall_${way}_params`, number),
      results: this.#answers.signature(`witcall_${way}_result`, number),
    });
    return {
      number,
      ...this.#owner(owner),
      name: this.#answers.name("witcall_row_name", number),
      size,
      alignment,
      parameters: this.#members(number, members),
      result: result && { type: result, size: result.size, alignment: result.alignment, offset: 0 },
      lifted: core("lifted"),
      lowered: core("lowered"),
    };
  }

  /** Fills in what a type has besides its layout. */
  #filled({ type, target, owner, members }) {
    if (owner[0]) {
      Object.assign(type, this.#owner(owner), { name: this.#answers.name("witcall_row_name", type.number) });
    }
    if (target[0]) type.target = this.#type(target);
    if (members) type.members = this.#members(type.number, members);
    return type;
  }

  read() {
    const isFunction = (row) => row.type.kind === "function";
    return {
      types: this.#rows.filter((row) => !isFunction(row)).map((row) => this.#filled(row)),
      functions: this.#rows.filter(isFunction).map((row) => this.#function(row)),
    };
  }
}

/**
 * The functions and the types of a package.
 * @param {import("./package.js").Package} pkg
 */
export function tableOf(pkg) {
  const answers = new Answers(pkg);
  try {
    return new Reader(answers).read();
  } finally {
    answers.free();
  }
}
