// One half of a call: what it reads of one memory is copied into the module, and what it writes is copied into the
// other one.
import { CODE, Space } from "./core.js";
import { argumentsReader, reach, resultReader } from "./reach.js";

/** The most core values that a core function takes, and the sizes of structs. */
export const MAX_VALUES = 17;
const VALUE_SIZE = 16;
const REQUEST_SIZE = 8;
const BLOCK_SIZE = 12;
export const NOTHING = new Uint8Array();

/**
 * How many requests and blocks have room in the block that each run has for its arrays, and where these stand in it.
 */
const FEW = 32;
const ANSWER = MAX_VALUES * VALUE_SIZE;
const TOLD = 2 * ANSWER;
const REQUESTS = 3 * ANSWER;
const BLOCKS = REQUESTS + FEW * REQUEST_SIZE;
const ARRAYS_SIZE = BLOCKS + FEW * BLOCK_SIZE;

/** Whether a number is one of 32 bits without a sign. */
const isWord = (value) => Number.isInteger(value) && value >= 0 && value < 2 ** 32;

/** Whether a number is an i32, with a sign or without one. */
export const isI32 = (value) => Number.isInteger(value) && value >= -(2 ** 31) && value < 2 ** 32;

const isI64 = (value) => typeof value === "bigint" && value >= -(2n ** 63n) && value < 2n ** 64n;

/**
 * @typedef {number | bigint} Flat an i32 or an i64
 * @typedef {{align: number, size: number}} Request
 * @typedef {{align: number, size: number, at: number}} Block
 * @typedef {{bytes: Uint8Array, grant: (asked: Request[]) => Block[]}} Side a component's memory and its allocator
 * @typedef {[number, number]} Words the address and the length of an array in the module
 */

/** The arrays of one run in an instance, which are freed together. Runs that end leave their first block to others. */
export class Run {
  #space;
  #arrays;
  #carriers = [];

  /** @param {{core: import("./core.js").Core, handle: number}} place */
  constructor({ core, handle }) {
    this.core = core;
    this.handle = handle;
    this.#space = new Space(core);
    this.#arrays = core.arrays.pop() ?? core.allocate(ARRAYS_SIZE);
  }

  /** Where an array stands: at its place, if it has few elements, or in a block of its own. */
  array(place, few, size, count) {
    return count <= few ? this.#arrays + place : this.#space.take(count * size);
  }

  /** A carrier of a memory. */
  #carrier(bytes) {
    const carrier = this.core.carriers.take(bytes);
    this.#carriers.push(carrier);
    return carrier;
  }

  /**
   * Copies what the library reads of a memory for core values.
   * @param {import("./reach.js").FlatReader} reader
   * @returns {Words}
   */
  read(reader, flats, bytes, limit) {
    const carrier = this.#carrier(bytes);
    reach(reader, flats, carrier, limit);
    return [carrier.at, bytes.length];
  }

  /** @returns {Words} */
  copy(bytes) {
    return [bytes.length === 0 ? 0 : this.#space.put(bytes), bytes.length];
  }

  /** @returns {Words} */
  putValues(place, values) {
    const start = this.array(place, MAX_VALUES, VALUE_SIZE, values.length);
    const { view } = this.core;
    let at = start;
    for (const value of values) {
      const isWide = typeof value === "bigint";
      if (!isI32(value) && !isI64(value)) throw new TypeError(`${String(value)} is neither an i32 nor an i64`);
      view.setUint32(at, isWide ? 1 : 0, true);
      view.setBigUint64(at + 8, isWide ? BigInt.asUintN(64, value) : BigInt(value >>> 0), true);
      at += VALUE_SIZE;
    }
    return [start, values.length];
  }

  /** @returns {Words} */
  putBlocks(blocks) {
    const start = this.array(BLOCKS, FEW, BLOCK_SIZE, blocks.length);
    const { view } = this.core;
    let place = start;
    for (const { align, size, at } of blocks) {
      const numbers = [align, size, at];
      if (!numbers.every(isWord)) throw new TypeError(`a block is not of numbers of 32 bits: ${numbers.map(String)}`);
      view.setUint32(place, align, true);
      view.setUint32(place + 4, size, true);
      view.setUint32(place + 8, at, true);
      place += BLOCK_SIZE;
    }
    return [start, blocks.length];
  }

  valuesAt(start, count) {
    const { view } = this.core;
    const values = [];
    for (let at = start; values.length < count; at += VALUE_SIZE) {
      values.push(view.getUint32(at, true) ? view.getBigInt64(at + 8, true) : view.getInt32(at + 8, true));
    }
    return values;
  }

  requestsAt(start, count) {
    const { view } = this.core;
    const requests = [];
    for (let at = start; requests.length < count; at += REQUEST_SIZE) {
      requests.push({ align: view.getUint32(at, true), size: view.getUint32(at + 4, true) });
    }
    return requests;
  }

  /**
   * Asks which blocks are needed. `ask` gets a room for requests, and how many it has.
   * @param {(room: number, count: number) => import("./core.js").Status} ask
   * @returns {{status: import("./core.js").Status, asked?: Request[]}}
   */
  asked(ask) {
    const few = this.array(REQUESTS, FEW, REQUEST_SIZE, FEW);
    const status = ask(few, FEW);
    if (status.code !== CODE.DONE) return { status };
    if (status.count <= FEW) return { status, asked: this.requestsAt(few, status.count) };
    const all = this.array(REQUESTS, FEW, REQUEST_SIZE, status.count);
    return { status, asked: this.requestsAt(all, ask(all, status.count).count) };
  }

  /**
   * Runs a call over copies of blocks of a memory, and copies them back. The library writes nothing else. It leaves the
   * padding in them as it is, so they are copied into the module too.
   * @param {(copy: number, length: number, told: number) => import("./core.js").Status} call
   * @returns {Flat[]} the core values that the call told
   */
  written(bytes, places, call) {
    const { core } = this;
    const carrier = places.length > 0 ? this.#carrier(bytes) : undefined;
    const inside = [];
    for (const place of places) {
      if (place.at + place.size > bytes.length) continue;
      carrier.fetch(place.at, place.size);
      inside.push(place);
    }
    const told = this.array(TOLD, MAX_VALUES, VALUE_SIZE, MAX_VALUES);
    const status = call(carrier?.at ?? 0, carrier ? bytes.length : 0, told);
    for (const { at, size } of inside) carrier.store(at, size);
    if (status.code !== CODE.DONE) throw core.error(status);
    return this.valuesAt(told, status.count);
  }

  free() {
    if (this.#arrays === undefined) return;
    this.core.arrays.push(this.#arrays);
    this.#arrays = undefined;
    this.#space.free();
    for (const carrier of this.#carriers) this.core.carriers.give(carrier);
    this.#carriers = [];
  }
}

/** What each half of a call reads. */
const READERS = { witcall_enter: argumentsReader, witcall_leave: resultReader };

/** A half of the calls of one function: `witcall_enter` or `witcall_leave`. */
export class Half {
  #pkg;
  #func;
  #name;
  #asking;
  #limit;
  #reader;

  /**
   * @param {import("./package.js").Package} pkg
   * @param {object} func one of its functions
   * @param {"witcall_enter" | "witcall_leave"} name
   * @param {number} limit the most bytes that the blocks may have together
   */
  constructor(pkg, func, name, limit) {
    this.#pkg = pkg;
    this.#func = func.number;
    this.#name = name;
    this.#asking = `${name}_requests`;
    this.#limit = limit;
    this.#reader = READERS[name](func);
  }

  /**
   * Carries values from one memory into blocks of the other one.
   * @param {Flat[][]} values the core values of the call, and after them the answer if this is the second half
   * @param {Side} from
   * @param {Side} to
   * @param {Block} [area] the return area
   * @returns {Flat[]}
   */
  carry(values, from, to, area) {
    const { place } = this.#pkg;
    let run = new Run(place);
    try {
      let read = this.#read(run, values.at(-1), from);
      // What reads nothing of a memory asks for no blocks either.
      const blocks = this.#reader ? to.grant(this.#ask(run, values.at(-1), read)) : [];
      // The allocator may have made calls of its own, in which the instance was lost, or the package closed.
      const now = this.#pkg.place;
      if (now !== place) {
        run.free();
        run = new Run(now);
        read = this.#read(run, values.at(-1), from);
      }
      return this.#write(run, values, read, to, blocks, area);
    } finally {
      run.free();
    }
  }

  #read(run, values, from) {
    return this.#reader ? run.read(this.#reader, values, from.bytes, this.#limit) : [0, 0];
  }

  /** Asks which blocks are needed. */
  #ask(run, values, read) {
    const flats = run.putValues(0, values);
    const { status, asked } = run.asked((room, count) =>
      run.core.call(this.#asking, run.handle, [this.#func], ...flats, ...read, room, count, this.#limit));
    if (status.code !== CODE.DONE) throw run.core.error(status);
    return asked;
  }

  /** Runs the half over copies of the blocks and of the return area. */
  #write(run, values, read, to, blocks, area) {
    const flats = run.putValues(0, values[0]);
    if (values.length > 1) flats.push(...run.putValues(ANSWER, values[1]));
    const granted = run.putBlocks(blocks);
    const places = area ? [...blocks, area] : blocks;
    return run.written(places.length > 0 ? to.bytes : NOTHING, places, (copy, length, told) => {
      const words = [...flats, ...read, copy, length, ...granted, told, MAX_VALUES];
      return run.core.call(this.#name, run.handle, [this.#func], ...words);
    });
  }
}
