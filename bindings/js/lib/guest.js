// Guests that carry their world.
import { imports } from "./imports.js";
import { lift } from "./lift.js";
import { importsOf } from "./link.js";
import { empty, own } from "./own.js";

/** The exports of a guest as functions of values: by interfaces, and those of the world itself by their names. */
function exported(pkg, world, options) {
  const all = empty();
  for (const func of world.exports) {
    const owner = func.interface ? (all[func.interface] ??= empty()) : all;
    owner[func.name] = lift(pkg, func, options);
  }
  return all;
}

/** The first of these import objects that has an import itself gives it. */
const firstOf = (...objects) => ({ module, name }) => {
  for (const object of objects) {
    const value = own(own(object, module), name);
    if (value !== undefined) return value;
  }
  return undefined;
};

/** The instance of a module that carries its world, over its package. */
async function instantiated(pkg, module, implementation, { imports: others, ...options }) {
  const [world] = pkg.worlds;
  if (!world) throw new TypeError("the module has no world");
  let instance;
  const served = imports(pkg, world.name, implementation, { ...options, guest: () => instance });
  const compiled = await WebAssembly.compile(module);
  instance = await WebAssembly.instantiate(compiled, importsOf(compiled, firstOf(served, others)));
  instance.exports._initialize?.();
  return { pkg, world, instance, exports: exported(pkg, world, { ...options, callee: instance }) };
}

/**
 * Makes an instance of a core module that carries its world, whose imports are functions of JavaScript's values.
 *
 * @param {import("./library.js").Library} library
 * @param {BufferSource} module its bytes
 * @param {object} [implementation] for each interface that the world imports an object of its functions, under the
 * interface's full name, and each function that the world itself imports
 * @param {object} [options]
 * @param {WebAssembly.Imports} [options.imports] what else the module imports: what these objects have themselves
 * @param {number} [options.limit] the greatest size of its memory: values that have more bytes are refused
 * @param {import("./link.js").granted} [options.grant] who grants blocks, if it isn't `cabi_realloc` alone
 */
export async function instantiate(library, module, implementation = {}, options = {}) {
  const pkg = library.openModule(module);
  try {
    return await instantiated(pkg, module, implementation, options);
  } catch (error) {
    pkg.close();
    throw error;
  }
}
