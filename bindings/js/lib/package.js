import { CODE, REFUSAL, Space } from "./core.js";
import { ModuleFault, WitError } from "./errors.js";
import { insteadOf } from "./nearest.js";
import { tableOf } from "./table.js";
import { worldsOf } from "./worlds.js";

/** The size of a handle, and the room that most names and lines need. */
const HANDLE_SIZE = 16;
export const ROOM = 256;

const decoder = new TextDecoder();

/**
 * Opens inputs in an instance, or the package that a module carries.
 * @param {Core} core
 * @param {Uint8Array[]} inputs
 * @param {boolean} [isModule]
 * @returns {number} the handle's address
 */
export function opened(core, inputs, isModule = false) {
  const space = new Space(core);
  const handle = core.allocate(HANDLE_SIZE);
  try {
    core.bytes.fill(0, handle, handle + HANDLE_SIZE);
    const status = openedAs(space, inputs, isModule, handle);
    if (status.code === CODE.DONE) return handle;
    throw refusal(core, status, handle);
  } catch (error) {
    core.free(handle);
    throw error;
  } finally {
    space.free();
  }
}

/** Why a package was refused: the whole line, if the handle stands for it. It stands for nothing after some errors. */
function refusal(core, status, handle) {
  try {
    return new WitError(status.number, decoder.decode(told(core, "witcall_line", handle)));
  } catch (error) {
    if (error.number === REFUSAL.NOT_OPEN) return core.error(status);
    throw error;
  } finally {
    core.close(handle);
  }
}

/** Copies inputs into the module, one after another. Returns their address and length, and those of their lengths. */
function putInputs(space, inputs) {
  const { core } = space;
  const length = inputs.reduce((sum, input) => sum + input.length, 0);
  const bytes = space.take(length);
  const lengths = space.take(8 * inputs.length);
  let end = bytes;
  for (const [place, input] of inputs.entries()) {
    core.bytes.set(input, end);
    core.view.setBigUint64(lengths + 8 * place, BigInt(input.length), true);
    end += input.length;
  }
  return [bytes, length, lengths, inputs.length];
}

function openedAs(space, inputs, isModule, handle) {
  const { core } = space;
  const [bytes, length, ...lengths] = putInputs(space, inputs);
  if (isModule) return core.call("witcall_open_module", bytes, length, handle);
  if (inputs.length === 1) return core.call("witcall_open", bytes, length, handle);
  return core.call("witcall_open_set", bytes, length, ...lengths, handle);
}

/**
 * What is wrong with texts, as the library's document says it.
 * @param {Core} core
 * @param {Uint8Array[]} texts
 */
export function explained(core, texts) {
  const space = new Space(core);
  try {
    return JSON.parse(decoder.decode(told(core, "witcall_explain", ...putInputs(space, texts))));
  } finally {
    space.free();
  }
}

/** The bytes that an export writes into an array, which has as much room as it takes. */
const told = (core, name, ...words) => toldBy(core, (at, room) => core.call(name, ...words, at, room));

/** The bytes that a call writes into an array. If that has too little room, it is called again with enough. */
export function toldBy(core, call, room = ROOM) {
  for (;;) {
    const at = core.allocate(room);
    try {
      const status = call(at, room);
      if (status.code === CODE.DONE) return core.bytes.slice(at, at + status.count);
      if (status.number !== REFUSAL.NO_ROOM || status.count <= room) throw core.error(status);
      room = status.count;
    } finally {
      core.free(at);
    }
  }
}

/** Frees a package of an instance. */
function freed({ core, handle }) {
  core.close(handle);
  core.free(handle);
}

/** Frees packages that nobody closed, after JavaScript forgot them. If the engine stops that, the instance is lost. */
const forgotten = new FinalizationRegistry((place) => {
  try {
    freed(place);
  } catch (error) {
    if (!(error instanceof ModuleFault)) throw error;
  }
});

/** A package that is open, with those that it depends on. */
export class Package {
  #library;
  #inputs;
  #isModule;
  #place;
  #table;

  /**
   * @param {import("./library.js").Library} library
   * @param {Uint8Array[]} inputs
   * @param {boolean} [isModule] whether the one input is a module that carries the package
   */
  constructor(library, inputs, isModule = false) {
    this.#library = library;
    this.#inputs = inputs;
    this.#isModule = isModule;
    this.#open();
  }

  #open() {
    const { core } = this.#library;
    this.#place = { core, handle: opened(core, this.#inputs, this.#isModule) };
    forgotten.unregister(this);
    forgotten.register(this, this.#place, this);
  }

  /**
   * Where the package is: an instance, and its handle there. If the engine stopped the instance, it is opened in
   * another one. The value is the same one as before if both are.
   */
  get place() {
    if (!this.#place) {
      throw this.#library.core.refusal(REFUSAL.NOT_OPEN);
    }
    if (this.#place.core.lost) this.#open();
    return this.#place;
  }

  /** The bytes that an export tells of the package. */
  told(name, ...words) {
    const { core, handle } = this.place;
    return told(core, name, handle, ...words);
  }

  get #rows() {
    this.place;
    return (this.#table ??= tableOf(this));
  }

  /** The functions of the package and of those that it depends on. */
  get functions() {
    return this.#rows.functions;
  }

  /** Their types, each with its layout. */
  get types() {
    return this.#rows.types;
  }

  /** The worlds of the package and of those that it depends on. A module has one. */
  get worlds() {
    return worldsOf(this);
  }

  /**
   * The function of this name.
   * @param {string} interfaceName the interface's full name, as `a:b/c@1.0.0`
   * @param {string} name
   */
  find(interfaceName, name) {
    return this.#found("witcall_find", [interfaceName, name], () => this.functions.filter((it) => it.interface));
  }

  /** A function that a world itself imports. */
  findImport(world, name) {
    return this.#found("witcall_find_import", [world, name], () => this.#worldFunctions("imports"));
  }

  /** A function that a world itself exports. */
  findExport(world, name) {
    return this.#found("witcall_find_export", [world, name], () => this.#worldFunctions("exports"));
  }

  /** The function of these names, which is one of `all`. */
  #found(which, names, all) {
    const { core, handle } = this.place;
    const space = new Space(core);
    try {
      const status = core.call(which, handle, ...names.flatMap((it) => space.putText(it)));
      if (status.code === CODE.DONE) return this.functions.find((it) => it.number === status.count);
      const error = core.error(status);
      if (status.number === REFUSAL.NO_FUNCTION) error.message += `: ${insteadOf(all(), ...names)}`;
      throw error;
    } finally {
      space.free();
    }
  }

  /** The functions that worlds import or export by themselves. */
  #worldFunctions(side) {
    return this.worlds.flatMap((it) => it[side]).filter((it) => it.world);
  }

  /** The package as a text. Of several it is the last one, which opens again after the others. */
  toText() {
    return decoder.decode(this.told("witcall_to_text"));
  }

  /** The package and those before it as one document, which docs/package.schema.json describes. */
  describe() {
    return JSON.parse(decoder.decode(this.told("witcall_describe")));
  }

  /** The package as a binary. Of several it is the last one, which opens again after the others. */
  toBinary() {
    return this.told("witcall_to_binary");
  }

  /** Frees the package. It is not to be used any more; closing it again does nothing. */
  close() {
    const place = this.#place;
    this.#place = undefined;
    forgotten.unregister(this);
    if (place) freed(place);
  }
}

// `using` closes a package, where there is such a word.
if (Symbol.dispose) Package.prototype[Symbol.dispose] = Package.prototype.close;
