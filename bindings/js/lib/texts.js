// Values as texts of JSON that go into a component's memory, and out of it. The library writes and reads them there.
import { CODE, REFUSAL } from "./core.js";
import { NotThisType } from "./errors.js";
import { resultFault } from "./faults.js";
import { MAX_VALUES, NOTHING, Run } from "./half.js";
import { ROOM, toldBy } from "./package.js";
import { argumentsReader, resultReader } from "./reach.js";

const encoder = new TextEncoder();
const decoder = new TextDecoder();

/** The most room that a text is given before its length is known. */
const MOST_ROOM = 65536;

/** The exports that ask for the blocks of values, and fill them. */
const ARGUMENTS = ["witcall_json_requests", "witcall_fill_json"];
const RESULT = ["witcall_result_json_requests", "witcall_fill_result_json"];

/** Why a text of arguments is refused. If they are of another type, the error has the place. */
function argumentsRefusal({ core, handle }, func, text, status) {
  const error = core.error(status);
  if (status.number !== REFUSAL.NOT_THIS_TYPE) return error;
  const told = toldBy(core, (at, room) => core.call("witcall_json_fault", handle, [func.number], ...text, at, room));
  return new NotThisType(error.number, error.line, decoder.decode(told));
}

/** The same of a result. */
function resultRefusal(core, func, json, status) {
  const error = core.error(status);
  return status.number === REFUSAL.NOT_THIS_TYPE ? resultFault(core, func, decoder.decode(json), error) : error;
}

/** The values of one function, over the memory of a component that has it or imports it. */
export class Texts {
  #pkg;
  #func;
  #side;
  #limit;
  #arguments;
  #result;
  /** Room for texts as long as those before. */
  #room = ROOM;

  /**
   * @param {import("./package.js").Package} pkg
   * @param {object} func one of its functions
   * @param {import("./link.js").Side} side the memory and its allocator
   * @param {number} limit the most bytes that blocks may have together
   */
  constructor(pkg, func, side, limit) {
    this.#pkg = pkg;
    this.#func = func;
    this.#side = side;
    this.#limit = limit;
    this.#arguments = argumentsReader(func);
    this.#result = resultReader(func);
  }

  /** Puts arguments into the memory, and returns the values for the core function. */
  putArguments(text) {
    return this.#put(ARGUMENTS, text);
  }

  /** Puts the result of an import's call into the memory, and returns its core values. `flats` are the call's. */
  putResult(text, flats) {
    const { result, lowered } = this.#func;
    const hasArea = result !== null && lowered.results.length === 0;
    const area = hasArea ? [{ align: result.alignment, size: result.size, at: flats.at(-1) >>> 0 }] : [];
    return this.#put(RESULT, text, flats, area);
  }

  /** The text of what a core function answered. */
  readResult(answer) {
    return this.#read("witcall_read_json", this.#result, answer);
  }

  /** The text of the arguments of an import's call. */
  readArguments(flats) {
    return this.#read("witcall_read_arguments_json", this.#arguments, flats);
  }

  #put([asking, filling], text, flats, area = []) {
    const { place } = this.#pkg;
    const json = encoder.encode(text);
    let run = new Run(place);
    try {
      const blocks = this.#granted(run, asking, json);
      // The allocator may have made calls of its own, in which the instance was lost, or the package closed.
      if (this.#pkg.place !== place) {
        run.free();
        run = new Run(this.#pkg.place);
      }
      const words = [...(flats ? run.putValues(0, flats) : []), ...run.copy(json)];
      const granted = run.putBlocks(blocks);
      const places = [...blocks, ...area];
      return run.written(places.length > 0 ? this.#side.bytes : NOTHING, places, (copy, length, told) =>
        run.core.call(filling, run.handle, [this.#func.number], ...words, copy, length, ...granted, told, MAX_VALUES));
    } finally {
      run.free();
    }
  }

  /** Has the blocks granted that a text asks for. */
  #granted(run, asking, json) {
    const text = run.copy(json);
    const { status, asked } = run.asked((room, count) =>
      run.core.call(asking, run.handle, [this.#func.number], ...text, room, count, this.#limit));
    if (status.code === CODE.DONE) return this.#side.grant(asked);
    if (asking === ARGUMENTS[0]) throw argumentsRefusal(run, this.#func, text, status);
    throw resultRefusal(run.core, this.#func, json, status);
  }

  #read(reading, reader, flats) {
    const { core, handle } = this.#pkg.place;
    const run = new Run({ core, handle });
    try {
      const values = run.putValues(0, flats);
      // What is read is copied once, so that a second call with more room has the same answer.
      const read = reader ? run.read(reader, flats, this.#side.bytes, this.#limit) : [0, 0];
      const told = toldBy(core, (at, room) =>
        core.call(reading, handle, [this.#func.number], ...values, ...read, at, room, this.#limit), this.#room);
      this.#room = Math.min(Math.max(this.#room, told.length), MOST_ROOM);
      return decoder.decode(told);
    } finally {
      run.free();
    }
  }
}
