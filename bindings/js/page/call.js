// A call with values as JSON, between two memories of this page.
import { Half } from "../lib/half.js";
import { flatCount } from "../lib/reach.js";
import { Texts } from "../lib/texts.js";
import { nameOf, walkOver } from "./parts.js";

const SIZE = 65536;
const MAX_FLAT = 16;

/** Where the blocks of each memory begin. They begin elsewhere, so that one sees that addresses change. */
const FIRST = { caller: 64, callee: 2048 };

/** A memory, and an allocator that makes blocks one above another. */
class Memory {
  bytes = new Uint8Array(SIZE);
  blocks = [];
  #top;

  constructor(first) {
    this.#top = first;
  }

  take(align, size, what) {
    const at = Math.ceil(this.#top / align) * align;
    this.#top = at + size;
    const block = { align, size, at, what };
    this.blocks.push(block);
    return block;
  }

  grant = (asked) => asked.map(({ align, size }) => this.take(align, size, "block"));
}

const word = (flat) => (typeof flat === "bigint" ? `i64 ${flat}` : `i32 ${flat}`);
export const words = (flats) => flats.map(word).join(", ") || "nothing";

/** The parts of arguments: of the record of all, or of what the core values point to. */
export function argumentParts(func, flats, bytes) {
  const walk = walkOver(bytes);
  const count = func.parameters.reduce((sum, it) => sum + flatCount(it.type), 0);
  let place = 0;
  for (const { name, type, offset } of func.parameters) {
    if (count > MAX_FLAT) walk.value(type, (flats[0] >>> 0) + offset, name);
    else walk.flats(type, flats, place, name, flatCount);
    place += flatCount(type);
  }
  return walk.parts.all;
}

/** The parts of a result, at an address or as a core value. */
export function resultParts(func, flats, bytes) {
  if (!func.result || flatCount(func.result.type) === 1) return [];
  const walk = walkOver(bytes);
  walk.value(func.result.type, flats[0] >>> 0, "result");
  return walk.parts.all;
}

/**
 * Makes a call.
 * @param {import("../lib/package.js").Package} pkg
 * @param {object} func
 * @param {string} args a JSON array of the arguments
 * @param {string} reply the JSON of the result
 * @returns {{steps: string[], caller: object, callee: object, result?: string, error?: Error, step?: string,
 * field?: "args" | "reply"}} if there is an error, `step` is where, and `field` is which text it is about
 */
export function called(pkg, func, args, reply) {
  const memories = { caller: new Memory(FIRST.caller), callee: new Memory(FIRST.callee) };
  const parts = { caller: [], callee: [] };
  const steps = [];
  const of = (who) => ({ memory: memories[who], parts: parts[who] });
  const done = { steps, caller: of("caller"), callee: of("callee") };
  const stores = { step: "The arguments are written into the caller's memory", field: "args" };
  try {
    result(pkg, func, { args, reply, parts, steps, stores, done, ...memories });
  } catch (error) {
    done.error = error;
    done.step = stores.step;
    done.field = stores.field;
  }
  return done;
}

function result(pkg, func, call) {
  const { args, reply, caller, callee, parts, steps, stores, done } = call;
  const enter = new Half(pkg, func, "witcall_enter", SIZE);
  const leave = new Half(pkg, func, "witcall_leave", SIZE);
  const [texts, replies] = [caller, callee].map((it) => new Texts(pkg, func, it, SIZE));
  const given = texts.putArguments(args);
  const hasArea = func.result !== null && func.lowered.results.length === 0;
  const area = hasArea ? caller.take(func.result.alignment, func.result.size, "return area") : undefined;
  const flats = area ? [...given, area.at] : given;
  parts.caller.push(...argumentParts(func, given, caller.bytes));
  steps.push(`The caller passes ${words(flats)}.`);
  Object.assign(stores, { step: "The arguments go into the callee's memory", field: undefined });
  const handed = enter.carry([flats], caller, callee);
  parts.callee.push(...argumentParts(func, handed, callee.bytes));
  steps.push(`The callee's core function gets ${words(handed)}.`);
  Object.assign(stores, { step: "The answer is written into the callee's memory", field: "reply" });
  const answer = answered(func, replies, given, { reply, callee });
  parts.callee.push(...resultParts(func, answer, callee.bytes));
  steps.push(`It answers ${words(answer)}.`);
  Object.assign(stores, { step: "The answer goes into the caller's memory", field: undefined });
  const back = leave.carry([flats, answer], callee, caller, area);
  const found = area ? [area.at] : back;
  parts.caller.push(...resultParts(func, found, caller.bytes));
  steps.push(area ? `The caller finds the result at ${area.at}.` : `The caller gets ${words(back)}.`);
  if (!func.result) return;
  done.result = texts.readResult(found);
  steps.push(`Read there, it is ${done.result}, of type ${nameOf(func.result.type)}.`);
}

/** Puts an answer into the callee's memory, as the result of a call whose return area is there. */
function answered(func, texts, given, { reply, callee }) {
  if (!func.result) return [];
  if (func.lowered.results.length > 0) return texts.putResult(reply, given);
  const { at } = callee.take(func.result.alignment, func.result.size, "block");
  texts.putResult(reply, [...given, at]);
  return [at];
}
