// Files that a user opens: texts, binaries of packages, and modules that carry their package.
import { WitError } from "../lib/errors.js";

const decoder = new TextDecoder("utf-8", { fatal: true });

/** What each module and each component begins with. */
const MAGIC = [0, 0x61, 0x73, 0x6d];
const NOT_THIS_SHAPE = 44;

const isWasm = (bytes) => MAGIC.every((it, place) => bytes[place] === it);

function textOf(bytes) {
  try {
    return decoder.decode(bytes);
  } catch {
    return undefined;
  }
}

/**
 * What a file has: a text, or a package with what carries it.
 * @typedef {object} Opened
 * @property {string} name the name of the file
 * @property {string} [text] the text, if the file is one
 * @property {import("../lib/package.js").Package} [pkg]
 * @property {"module" | "binary"} [kind] what carries the package
 * @property {object} [world] the world of a module
 * @property {WebAssembly.Module} [module] the module, if the engine takes it
 * @property {string} [reason] why the engine doesn't
 */

/** The package that a module carries, or undefined if it carries none. */
function carriedBy(witcall, bytes) {
  try {
    return witcall.openModule(bytes);
  } catch (error) {
    if (error instanceof WitError && error.number === NOT_THIS_SHAPE) return undefined;
    throw error;
  }
}

/** The package that a binary is. If it is none, the error is what the library explains. */
function packageOf(witcall, bytes) {
  try {
    return witcall.open([bytes]);
  } catch (error) {
    if (!(error instanceof WitError)) throw error;
    const [fault] = witcall.explain([bytes]);
    throw fault ? new WitError(fault.number ?? NOT_THIS_SHAPE, fault.message) : error;
  }
}

async function compiled(bytes) {
  try {
    return { module: await WebAssembly.compile(bytes) };
  } catch (error) {
    return { reason: error.message };
  }
}

/**
 * Opens a file.
 * @param {import("../lib/library.js").Library} witcall
 * @param {File} file
 * @returns {Promise<Opened>}
 */
export async function opened(witcall, file) {
  const bytes = new Uint8Array(await file.arrayBuffer());
  const { name } = file;
  const text = isWasm(bytes) ? undefined : textOf(bytes);
  if (text !== undefined) return { name, text };
  const pkg = carriedBy(witcall, bytes);
  if (!pkg) return { name, kind: "binary", pkg: packageOf(witcall, bytes) };
  return { name, kind: "module", pkg, world: pkg.worlds[0], ...(await compiled(bytes)) };
}
