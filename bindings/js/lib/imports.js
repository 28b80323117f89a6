// Functions of JavaScript's values as the imports of a guest.
import { REFUSAL } from "./core.js";
import { STEP } from "./entering.js";
import { isPromise, promiseFault, reworded } from "./faults.js";
import { LIMIT, Side, granted, limitOf, ran, stopping } from "./link.js";
import { empty, given } from "./own.js";
import { Texts } from "./texts.js";
import { decodedAll, encoded } from "./values.js";

/** The module that a core module imports a function of a world itself from. */
const ROOT = "$root";

/** Puts a result into the guest's memory, and returns its core value, if it has one. */
function answered(texts, flats, value, type) {
  try {
    return texts.putResult(encoded(value, type), flats)[0];
  } catch (error) {
    throw reworded(error, value, type);
  }
}

/** A function of JavaScript's values as a guest imports it. */
function imported(pkg, func, implementation, { caller, limit }) {
  const texts = new Texts(pkg, func, caller, limit);
  return (...flats) => {
    const values = decodedAll(texts.readArguments(flats), func.parameters);
    const value = ran(implementation, values, stopping(pkg, STEP.BODY));
    if (func.result !== null) return answered(texts, flats, value, func.result.type);
    if (isPromise(value)) throw promiseFault(pkg.place.core.refusal(REFUSAL.NOT_THIS_TYPE), func);
    return undefined;
  };
}

/** The implementation of a function, which is looked up at each call, and called as a method. */
function methodOf(owner, name, of) {
  const found = () => {
    const method = given(owner, name);
    if (typeof method !== "function") throw new TypeError(`the implementation has no function ${of}${name}`);
    return method;
  };
  found();
  return (...values) => Reflect.apply(found(), owner, values);
}

/** An import object with what these objects have themselves. */
function copied(others) {
  const all = empty();
  for (const [module, functions] of Object.entries(others)) all[module] = Object.assign(empty(), functions);
  return all;
}

/**
 * The import object of a guest whose imports are functions of JavaScript's values.
 *
 * @param {import("./package.js").Package} pkg
 * @param {string} world the full name of a world of the package, as `a:b/w@1.0.0`
 * @param {object} implementation for each interface that the world imports an object of its functions, under the
 * interface's full name, and each function that the world itself imports
 * @param {object} options
 * @param {() => WebAssembly.Instance} options.guest the guest, once it is instantiated
 * @param {WebAssembly.Imports} [options.imports] what else the guest imports: what these objects have themselves
 * @param {number} [options.limit] the greatest size of its memory: values that have more bytes are refused
 * @param {typeof granted} [options.grant] who grants blocks, if it isn't `cabi_realloc` alone
 * @returns {WebAssembly.Imports}
 */
export function imports(pkg, world, implementation, { guest, imports: others = {}, limit = LIMIT, grant = granted }) {
  const started = () => {
    const instance = guest();
    if (!instance) throw new TypeError("the guest calls its imports before it is instantiated");
    return instance;
  };
  const options = { caller: new Side(started, grant), limit: limitOf(limit) };
  const all = copied(others);
  const add = (module, func, method) => {
    all[module] ??= empty();
    all[module][func.name] = imported(pkg, func, method, options);
  };
  const found = pkg.worlds.find((it) => it.name === world);
  if (!found) throw new TypeError(`the package has no world ${world}`);
  for (const func of found.imports) {
    if (func.interface) {
      add(func.interface, func, methodOf(given(implementation, func.interface), func.name, `${func.interface}#`));
    } else {
      add(ROOT, func, methodOf(implementation, func.name, ""));
    }
  }
  return all;
}
