// One instance of the module. Its addresses and lengths are 64-bit, so they are BigInt at its border. Here they are
// numbers.
import { Carriers } from "./carrier.js";
import { ModuleFault, Trap, WitError } from "./errors.js";

/** The number of the binary interface that this package is written for (WITCALL_ABI of include/witcall.h). */
const ABI = 2;

/** Codes of a status, and numbers of refusals, as in include/witcall.h. */
export const CODE = { DONE: 0, REFUSED: 1, TRAP: 2, NO_MEMORY: 3 };
export const REFUSAL = { NOT_THIS_TYPE: 62, NO_FUNCTION: 63, NO_MEMORY: 66, NOT_OPEN: 70, NO_ROOM: 71, NOT_THERE: 75 };

/** The room that witcall_status_line needs, and that of a status. */
const MAX_STATUS_LINE = 64;
const STATUS_SIZE = 16;

const encoder = new TextEncoder();
const decoder = new TextDecoder();

/**
 * @typedef {{code: number, number: number, step: number, count: number}} Status
 * @typedef {number | (number | bigint)[]} Word a pointer or a length, or a list of numbers that go as they are: 32-bit
 * ones, or BigInt
 */

export class Core {
  /** Whether the engine stopped this instance. It is not used any more then, since it may have ended anywhere. */
  lost = false;
  carriers = new Carriers(this);
  /** Blocks that runs have left (lib/half.js). */
  arrays = [];
  #exports;
  #status;
  #wideStatus;
  #line;
  #bytes;
  #view;

  /** @param {WebAssembly.Exports} exports */
  constructor(exports) {
    this.#exports = exports;
    if (typeof exports.witcall_abi !== "function") throw new TypeError("this is not the module of the library");
    const abi = this.#run("witcall_abi", []);
    if (abi !== ABI) throw new TypeError(`the module's interface is ${abi}, and this package needs ${ABI}`);
    this.#status = this.allocate(STATUS_SIZE);
    this.#wideStatus = BigInt(this.#status);
    this.#line = this.allocate(MAX_STATUS_LINE);
  }

  #run(name, words) {
    try {
      return this.#exports[name](...words);
    } catch (cause) {
      // The module has no imports, so that only the engine stops it.
      this.lost = true;
      throw new ModuleFault(`the engine stopped ${name}: ${cause.message}`, { cause });
    }
  }

  /** The module's memory. It is good up to the next call, in which the memory may grow. */
  get bytes() {
    const { buffer } = this.#exports.memory;
    if (this.#bytes?.buffer !== buffer) this.#bytes = new Uint8Array(buffer);
    return this.#bytes;
  }

  /** The same as numbers, which are little endian. */
  get view() {
    const { buffer } = this.#exports.memory;
    if (this.#view?.buffer !== buffer) this.#view = new DataView(buffer);
    return this.#view;
  }

  /**
   * Calls an export that returns a status.
   * @param {string} name
   * @param {...Word} words
   * @returns {Status}
   */
  call(name, ...words) {
    const all = [this.#wideStatus];
    for (const word of words) {
      if (typeof word === "number") all.push(BigInt(word));
      else all.push(...word);
    }
    this.#run(name, all);
    const { view } = this;
    const at = this.#status;
    return {
      code: view.getUint32(at, true),
      number: view.getUint32(at + 4, true),
      step: view.getUint32(at + 8, true),
      count: view.getUint32(at + 12, true),
    };
  }

  /** Frees what a handle stands for. */
  close(handle) {
    if (!this.lost) this.#run("witcall_close", [BigInt(handle)]);
  }

  /** A block of so many bytes, at a multiple of 16. */
  allocate(size) {
    const at = Number(this.#run("malloc", [BigInt(Math.max(size, 1))]));
    if (at === 0) throw new WitError(REFUSAL.NO_MEMORY, `error ${REFUSAL.NO_MEMORY} no memory`);
    return at;
  }

  free(at) {
    if (!this.lost) this.#run("free", [BigInt(at)]);
  }

  /** A text that the library wrote. */
  text(at, length) {
    return decoder.decode(this.bytes.subarray(at, at + length));
  }

  /** The error of a refusal that the package makes itself, with the library's line. */
  refusal(number) {
    return this.error({ code: CODE.REFUSED, number, step: 0, count: 0 });
  }

  /**
   * A refusal or a trap as an error, with the library's line.
   * @param {Status} status
   * @param {ErrorOptions} [options]
   */
  error(status, options) {
    // A status goes by value, as two 64-bit numbers.
    const { code, number, step, count } = status;
    const both = [[code, number], [step, count]].map(([low, high]) => BigInt(low) | (BigInt(high) << 32n));
    const told = this.call("witcall_status_line", both, this.#line, MAX_STATUS_LINE);
    const line = this.text(this.#line, told.count);
    return code === CODE.TRAP ? new Trap(line, options) : new WitError(number, line);
  }
}

/** Blocks of an instance's memory that are freed together. */
export class Space {
  #taken = [];

  /** @param {Core} core */
  constructor(core) {
    this.core = core;
  }

  take(size) {
    const at = this.core.allocate(size);
    this.#taken.push(at);
    return at;
  }

  /** Copies bytes into the module. */
  put(bytes) {
    const at = this.take(bytes.length);
    this.core.bytes.set(bytes, at);
    return at;
  }

  /** Copies a text into the module, and returns its address and its length. */
  putText(text) {
    const bytes = encoder.encode(text);
    return [this.put(bytes), bytes.length];
  }

  /** Frees all. */
  free() {
    for (const at of this.#taken) this.core.free(at);
    this.#taken = [];
  }
}
