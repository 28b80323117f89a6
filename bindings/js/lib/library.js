import { Core } from "./core.js";
import { Package, explained, toldBy } from "./package.js";
import { isWellFormed } from "./values.js";

const encoder = new TextEncoder();
const decoder = new TextDecoder();

/** Version 1 of gzip's files begins with these bytes. */
const isGzip = (bytes) => bytes[0] === 0x1f && bytes[1] === 0x8b;

async function fetched(source) {
  if (String(source).startsWith("file:")) {
    const { readFile } = await import("node:fs/promises");
    return readFile(new URL(source));
  }
  const answer = await fetch(source);
  const { ok, status, statusText } = answer;
  if (!ok) throw Object.assign(new Error(`${source}: ${status} ${statusText}`), { code: status });
  return answer.arrayBuffer();
}

/** What the address of this file ends with in a checkout of the repository, and the codes of what is not there. */
const CHECKOUT = /\/bindings\/js\/lib\/library\.js$/;
const MISSING = ["ENOENT", 404];

/** The module of this package. In a checkout, which has none, it is that of the release. */
async function packaged() {
  try {
    return await fetched(new URL("../witcall.wasm", import.meta.url));
  } catch (error) {
    if (!MISSING.includes(error.code) || !CHECKOUT.test(import.meta.url)) throw error;
    return fetched(import.meta.url.replace(CHECKOUT, "/release/witcall.wasm.gz"));
  }
}

/** What the buffers of a realm are, also those of another one. */
const BUFFER = /^\[object (Shared)?ArrayBuffer\]$/;

/** A view of bytes, whatever kind of view or buffer they are given as. An error says what is taken. */
function viewOf(source, taken) {
  if (ArrayBuffer.isView(source)) return new Uint8Array(source.buffer, source.byteOffset, source.byteLength);
  if (BUFFER.test(Object.prototype.toString.call(source))) return new Uint8Array(source);
  throw new TypeError(`${taken}, and not ${source === null ? source : typeof source}`);
}

const A_PACKAGE = "a package is a text or bytes";
const A_MODULE = "a module is bytes";

const listOf = (inputs) => (Array.isArray(inputs) ? inputs : [inputs]);
const bytesOf = (input) => (typeof input === "string" ? encoded(input) : viewOf(input, A_PACKAGE));

/** The bytes of a surrogate, which are no UTF-8. */
const bytesOfLone = (code) => [0xe0 | (code >> 12), 0x80 | ((code >> 6) & 0x3f), 0x80 | (code & 0x3f)];

/** The bytes of a text. The library refuses one with a lone surrogate, which has none in UTF-8. */
function encoded(text) {
  if (isWellFormed(text)) return encoder.encode(text);
  const bytesOfPart = (it) => (isWellFormed(it) ? Array.from(encoder.encode(it)) : bytesOfLone(it.charCodeAt(0)));
  return Uint8Array.from(Array.from(text).flatMap(bytesOfPart));
}

async function plain(bytes) {
  if (!isGzip(bytes)) return bytes;
  const stream = new Blob([bytes]).stream().pipeThrough(new DecompressionStream("gzip"));
  return new Response(stream).arrayBuffer();
}

/**
 * Loads the library's module, from its bytes or from a URL. They may be packed by gzip.
 * @param {BufferSource | string | URL | WebAssembly.Module} [source] if it is left out, the module of this package, or
 * of the release if this is a checkout
 * @returns {Promise<Library>}
 */
export async function load(source) {
  if (source instanceof WebAssembly.Module) return instantiated(source);
  const isUrl = typeof source === "string" || source instanceof URL;
  const bytes = source === undefined ? await packaged() : isUrl ? await fetched(source) : source;
  return instantiated(await WebAssembly.compile(await plain(viewOf(bytes, A_MODULE))));
}

/** The library of a module, which is instantiated at once, so that another module is refused. */
function instantiated(module) {
  const library = new Library(module);
  library.core;
  return library;
}

/** The library: a module, and one instance of it at a time. */
export class Library {
  #module;
  #core;

  /** @param {WebAssembly.Module} module */
  constructor(module) {
    this.#module = module;
  }

  /**
   * The instance. If the engine stopped it, this is a new one, and each package opens itself in it.
   * @returns {Core}
   */
  get core() {
    if (!this.#core || this.#core.lost) this.#core = new Core(new WebAssembly.Instance(this.#module).exports);
    return this.#core;
  }

  /** The library's version, as `0.3.0+` and the first 12 digits of its commit, or as `0.2.0` in versions up to that. */
  get version() {
    const { core } = this;
    return decoder.decode(toldBy(core, (at, room) => core.call("witcall_version", at, room)));
  }

  /**
   * Opens a package, or the last one of several, which may use the packages before it.
   * @param {string | BufferSource | (string | BufferSource)[]} inputs texts or binaries, dependencies first
   * @returns {Package}
   */
  open(inputs) {
    // A copy, since the package is opened again from it, if the engine stopped the instance.
    return new Package(this, listOf(inputs).map((input) => bytesOf(input).slice()));
  }

  /**
   * Opens the package that a module carries, with those that it depends on.
   * @param {BufferSource} module a core module with a world, or a component as other tools write a world or a package
   * @returns {Package}
   */
  openModule(module) {
    return new Package(this, [viewOf(module, A_MODULE).slice()], true);
  }

  /**
   * Tells what is wrong with the packages of these texts, in any order. Texts of one package are its files.
   * @param {string | BufferSource | (string | BufferSource)[]} texts
   * @returns {Fault[]} none if nothing is wrong
   */
  explain(texts) {
    const all = listOf(texts).map(bytesOf);
    if (all.length === 0) return [];
    // Behind the index of a binary stands the name of its package.
    const faultOf = ({ file, error, ...fault }) => ({ text: Number.parseInt(file, 10), number: error, ...fault });
    return explained(this.core, all).map(faultOf);
  }
}
