// What stands where a value of a type has to. Of arguments the library tells the place, and what has to stand there. It
// is asked about a result as about the one argument of a function that takes such a value.
import { Space } from "./core.js";
import { NotThisType, WitError } from "./errors.js";
import { opened, toldBy } from "./package.js";
import { meant } from "./reach.js";
import { isObject, isPlain, isTooGreat, isWellFormed, loneOf, memberOf } from "./values.js";

const encoder = new TextEncoder();
const decoder = new TextDecoder();

const PROMISE = "a promise: a function of values can't be asynchronous";

export const isPromise = (value) =>
  (typeof value === "object" || typeof value === "function") && typeof value?.then === "function";

// ---- values in the words of JavaScript

/** The most digits of a BigInt that are told. */
const MOST_DIGITS = 60;

/** What an object is of, if it is none that has fields: `Map`, `Date`, but not `Object` and none of a list. */
function classOf(value) {
  const tag = Object.prototype.toString.call(value).slice("[object ".length, -1);
  return isObject(value) && tag !== "Object" ? tag : undefined;
}

/** What a value is that has no JSON, or that JSON has in other words, or undefined. */
function wordsOf(value) {
  if (isPromise(value)) return PROMISE;
  if (typeof value === "string" && !isWellFormed(value)) {
    return `a text with the lone surrogate \`\\u${loneOf(value).charCodeAt(0).toString(16)}\``;
  }
  if (isTooGreat(value)) return "a BigInt of more than 1023 bits";
  if (typeof value === "bigint" && `${value}`.length <= MOST_DIGITS) return `\`${value}\``;
  if (classOf(value) !== undefined) return `an object of \`${classOf(value)}\``;
  if (typeof value === "function" || typeof value === "symbol") return `a ${typeof value}`;
  return value === undefined || (typeof value === "number" && !Number.isFinite(value)) ? `\`${value}\`` : undefined;
}

/** A step of a path, to an element or to a field, and what a fault ends with. */
const PATH_STEP = /\[(\d+)\]|\.([^.[]+)/g;
const FOUND = ", and not `";

/** What stands at a path in a value. */
function standing(path, value, type) {
  for (const [, index, key] of path.matchAll(PATH_STEP)) {
    const it = meant(type);
    // An option's value stands in place of the option.
    if (index !== undefined || !isPlain(it)) value = value?.[index ?? key];
    if (index === undefined) type = memberOf(it, key);
    else type = it.kind === "list" ? it.target : it.members[index].type;
  }
  return value;
}

/**
 * The error about a value, with what stands there in the words of JavaScript.
 * @param {unknown} error
 * @param {unknown} value
 * @param {object} type
 */
export function reworded(error, value, type) {
  if (!(error instanceof NotThisType)) return error;
  const { message, path, fault } = error;
  const words = wordsOf(standing(path, value, type));
  const end = fault.lastIndexOf(FOUND);
  if (words === undefined || end < 0) return error;
  error.fault = `${fault.slice(0, end)}, and not ${words}`;
  error.message = message.slice(0, message.length - fault.length) + error.fault;
  return error;
}

// ---- results

const nameOf = (func) => `${func.interface ?? func.world}#${func.name}`;

/** How a result is written. */
function resultText([ok, error]) {
  if (error) return `result<${ok ?? "_"}, ${error}>`;
  return ok ? `result<${ok}>` : "result";
}

/** The text of a package with a function that takes a type: every type in it has a name of its own. */
class Writer {
  #names = new Map();
  #lines = [];

  /** How a type is named. */
  #name(named) {
    const type = meant(named);
    if (!type) return undefined;
    if (!type.members && !type.target) return type.kind;
    if (!this.#names.has(type)) {
      const [before, after] = this.#declared(type);
      const name = `t${this.#names.size}`;
      this.#names.set(type, name);
      this.#lines.push(`${before} ${name} ${after}`);
    }
    return this.#names.get(type);
  }

  /** How a type is declared: what stands before its name, and after it. */
  #declared(type) {
    const { kind } = type;
    if (kind === "list") return ["type", `= list<${this.#name(type.target)}>;`];
    const names = type.members.map((it) => this.#name(it.type));
    if (kind === "option") return ["type", `= option<${names[1]}>;`];
    if (kind === "tuple") return ["type", `= tuple<${names}>;`];
    if (kind === "result") return ["type", `= ${resultText(names)};`];
    const typed = (name) => (kind === "record" ? `: ${name}` : `(${name})`);
    const labels = type.members.map((it, place) => `%${it.name}${names[place] ? typed(names[place]) : ""}`);
    return [kind, `{ ${labels.join(", ")} }`];
  }

  text(type) {
    const name = this.#name(type);
    return `package a:b; interface c { ${this.#lines.join("\n")} f: func(x: ${name}); }`;
  }
}

/** What is wrong with a text that is no value of a type, as of an argument. */
function toldOf(core, type, json) {
  const handle = opened(core, [encoder.encode(new Writer().text(type))]);
  const space = new Space(core);
  try {
    const names = ["a:b/c", "f"].flatMap((it) => space.putText(it));
    const { count } = core.call("witcall_find", handle, ...names);
    const text = space.putText(`[${json}]`);
    return decoder.decode(toldBy(core, (at, room) =>
      core.call("witcall_json_fault", handle, [count], ...text, at, room)));
  } finally {
    space.free();
    core.close(handle);
    core.free(handle);
  }
}

/** What the library says of the first argument. */
const FIRST = /^\[0\](\S*): (.+)$/s;

/**
 * The error about a text that is no result of a function. If the library can't say where, it is the one that is given.
 * @param {import("./core.js").Core} core
 * @param {object} func
 * @param {string} json
 * @param {WitError} error
 */
export function resultFault(core, func, json, error) {
  try {
    const found = FIRST.exec(toldOf(core, func.result.type, json));
    if (!found) return error;
    return new NotThisType(error.number, error.line, `result${found[1]} of ${nameOf(func)}: ${found[2]}`);
  } catch (other) {
    if (other instanceof WitError) return error;
    throw other;
  }
}

/** The error about a promise that a function without a result gives. */
export const promiseFault = (error, func) =>
  new NotThisType(error.number, error.line, `result of ${nameOf(func)}: the function has none, and gave ${PROMISE}`);
