// Two core instances, of which the one calls functions of the other. The library carries the values between their
// memories.
import { CODE } from "./core.js";
import { STEP, STOPPED, entered } from "./entering.js";
import { Half, isI32 } from "./half.js";
import { empty, own } from "./own.js";

/** Bytes that the blocks of one half may have together, if `link` is not told another limit. */
export const LIMIT = 2 ** 24;

/** Runs code of a component. If the engine traps in it, the result is that of `stopped`. */
export function ran(core, values, stopped) {
  try {
    return core(...values);
  } catch (error) {
    if (error instanceof WebAssembly.RuntimeError) return stopped(error);
    throw error;
  }
}

/**
 * Has an instance's own allocator grant blocks, one after another, up to the first one for which it traps.
 * @param {WebAssembly.Instance} instance
 * @param {import("./half.js").Request[]} asked
 * @returns {import("./half.js").Block[]}
 */
export function granted(instance, asked) {
  const blocks = [];
  const { cabi_realloc: realloc } = instance.exports;
  for (const { align, size } of asked) {
    if (typeof realloc !== "function") throw new TypeError("the guest exports no function cabi_realloc");
    const at = ran(realloc, [0, 0, align, size], () => undefined);
    if (at === undefined) break;
    if (!isI32(at)) throw new TypeError(`cabi_realloc answered ${String(at)}, which is no i32`);
    blocks.push({ align, size, at: at >>> 0 });
  }
  return blocks;
}

/** A component's memory, which may grow and move, and its allocator. */
export class Side {
  #instance;
  #grant;

  constructor(instance, grant) {
    this.#instance = instance;
    this.#grant = grant;
  }

  get bytes() {
    const { memory } = this.#instance().exports;
    if (memory?.buffer === undefined) throw new TypeError("the guest exports no memory");
    return new Uint8Array(memory.buffer);
  }

  grant(asked) {
    if (asked.length === 0) return [];
    const blocks = this.#grant(this.#instance(), asked);
    if (!Array.isArray(blocks)) throw new TypeError(`grant gives an array of blocks, and not ${String(blocks)}`);
    return blocks;
  }
}

/** What a core function answered: no value, one, or several of a function that is none of the Canonical ABI. */
export function valuesOf(answer) {
  if (answer === undefined) return [];
  return Array.isArray(answer) ? answer : [answer];
}

/** Throws the trap of a component that the engine stopped in a step. */
export const stopping = (pkg, step) => (cause) => {
  throw pkg.place.core.error({ code: CODE.TRAP, number: STOPPED, step, count: 0 }, { cause });
};

/** The name under which a core module exports a function: that of a world itself has no interface. */
const coreName = (func) => (func.interface ? `${func.interface}#${func.name}` : func.name);

/**
 * A function as the caller imports it, over the core function of the callee.
 * @param {import("./package.js").Package} pkg
 * @param {object} func one of its functions
 * @param {{caller: Side, callee: Side, exports: WebAssembly.Exports, limit: number}} sides
 */
export function lowered(pkg, func, { caller, callee, exports, limit }) {
  const { body, post } = coreOf(exports, func);
  const enter = new Half(pkg, func, "witcall_enter", limit);
  const leave = new Half(pkg, func, "witcall_leave", limit);
  // A result that is no core value goes to an address behind the arguments.
  const hasArea = func.result !== null && func.lowered.results.length === 0;
  return (...flats) => entered(pkg, exports, () => {
    const handed = enter.carry([flats], caller, callee);
    const answer = valuesOf(ran(body, handed, stopping(pkg, STEP.BODY)));
    const area = hasArea ? { align: func.result.alignment, size: func.result.size, at: flats.at(-1) >>> 0 } : undefined;
    const [back] = leave.carry([flats, answer], callee, caller, area);
    if (post) ran(post, answer, stopping(pkg, STEP.POST));
    return back;
  });
}

/** The core function of a function, and its post-return, if the callee exports one. */
export function coreOf(exports, func) {
  const name = coreName(func);
  const body = own(exports, name);
  if (typeof body !== "function") throw new TypeError(`the callee exports no function ${name}`);
  const after = `cabi_post_${name}`;
  const post = own(exports, after);
  if (post !== undefined && typeof post !== "function") throw new TypeError(`${after} of the callee is no function`);
  return { body, post };
}

export function limitOf(limit) {
  if (!Number.isSafeInteger(limit) || limit < 0) throw new RangeError(`${String(limit)} is no limit in bytes`);
  return limit;
}

/**
 * The import object of a module, with what is found for each of its imports. The engine looks up the guest's names in
 * it, so no object in it has a prototype.
 * @param {WebAssembly.Module} module
 * @param {(it: WebAssembly.ModuleImportDescriptor) => unknown} found undefined if there is nothing
 */
export function importsOf(module, found) {
  const all = empty();
  for (const it of WebAssembly.Module.imports(module)) {
    const value = found(it);
    if (value !== undefined) (all[it.module] ??= empty())[it.name] = value;
  }
  return all;
}

/**
 * Makes an instance of the caller. What `imports` lacks is a function of the callee, which the package declares.
 *
 * @param {import("./package.js").Package} pkg
 * @param {object} options
 * @param {WebAssembly.Module} options.caller
 * @param {WebAssembly.Instance} options.callee
 * @param {WebAssembly.Imports} [options.imports] what else the caller imports: what these objects have themselves
 * @param {number} [options.limit] the greatest size of both memories: blocks that have more bytes together are refused
 * @param {typeof granted} [options.grant] who grants blocks, if it isn't `cabi_realloc` alone
 * @returns {WebAssembly.Instance}
 */
export function link(pkg, { caller, callee, imports = {}, limit = LIMIT, grant = granted }) {
  let instance;
  const started = () => {
    if (!instance) throw new TypeError("the caller calls the callee before it is instantiated");
    return instance;
  };
  const sides = {
    caller: new Side(started, grant),
    callee: new Side(() => callee, grant),
    exports: callee.exports,
    limit: limitOf(limit),
  };
  const found = ({ module, name }) => own(own(imports, module), name) ?? lowered(pkg, pkg.find(module, name), sides);
  instance = new WebAssembly.Instance(caller, importsOf(caller, found));
  return instance;
}
