// Calls of a module that carries its world. It runs in this page, and each function that it imports answers what a user
// typed.
import { Side, coreOf, granted, importsOf, valuesOf } from "../lib/link.js";
import { own } from "../lib/own.js";
import { Texts } from "../lib/texts.js";
import { argumentParts, resultParts, words } from "./call.js";
import { functionName } from "./parts.js";

/** The most bytes of a call's values, and the most calls of imports that are told. */
const LIMIT = 2 ** 20;
const MOST_CALLS = 50;

/** The module that a core module imports a function of a world itself from. */
const ROOT = "$root";

const keyOf = (module, name) => JSON.stringify([module, name]);

/** The functions that a world imports and whose answers are typed. */
export const askedOf = (world) => world.imports.filter((it) => it.result);

/** One run of a module, in an instance of its own. */
class Run {
  steps = [];
  memories = [];
  step = "The module is made into an instance";
  field;
  #blocks = [];
  #opened;
  #answers;
  #instance;

  constructor(opened, answers) {
    this.#opened = opened;
    this.#answers = answers;
  }

  #begin(step, field) {
    Object.assign(this, { step, field });
  }

  #side = new Side(() => this.#instance, (instance, asked) => {
    const blocks = granted(instance, asked);
    this.#blocks.push(...blocks.map((it) => ({ ...it, what: "block" })));
    return blocks;
  });

  #texts(func) {
    return new Texts(this.#opened.pkg, func, this.#side, LIMIT);
  }

  /** A function that the module imports. */
  #imported(func) {
    const texts = this.#texts(func);
    const name = functionName(func);
    return (...flats) => {
      const given = texts.readArguments(flats);
      const answer = this.#answers.get(name);
      const gets = func.result ? `, and gets ${answer}` : "";
      if (this.steps.length < MOST_CALLS) this.steps.push(`The module calls ${name} with ${given}${gets}.`);
      if (!func.result) return undefined;
      const { step } = this;
      this.#begin(`The answer of ${name} is written into the module's memory`, name);
      const [flat] = texts.putResult(answer, flats);
      this.#begin(step);
      return flat;
    };
  }

  async start() {
    const { module, world } = this.#opened;
    const all = new Map(world.imports.map((it) => [keyOf(it.interface ?? ROOT, it.name), this.#imported(it)]));
    const object = importsOf(module, (it) => all.get(keyOf(it.module, it.name)));
    this.#instance = await WebAssembly.instantiate(module, object);
    this.#instance.exports._initialize?.();
  }

  /** Keeps the memory as it is now, with what is known of it. */
  #keep(title, parts) {
    const memory = own(this.#instance.exports, "memory");
    const bytes = memory ? new Uint8Array(memory.buffer).slice() : new Uint8Array();
    this.memories.push({ title, memory: { bytes, blocks: this.#blocks }, parts: parts(bytes) });
    this.#blocks = [];
  }

  call(func, args) {
    const texts = this.#texts(func);
    const { body, post } = coreOf(this.#instance.exports, func);
    this.#begin("The arguments are written into the module's memory", "args");
    const handed = texts.putArguments(args);
    this.#keep("The module's memory before the call", (bytes) => argumentParts(func, handed, bytes));
    this.steps.push(`Its core function gets ${words(handed)}.`);
    this.#begin("The module's code runs");
    const answer = valuesOf(body(...handed));
    this.steps.push(`It answers ${words(answer)}.`);
    this.#begin("The answer is read in the module's memory");
    const result = texts.readResult(answer);
    this.#keep("The module's memory after the call", (bytes) => resultParts(func, answer, bytes));
    if (func.result) this.steps.push(`Read there, it is ${result}.`);
    this.#begin("The module frees the answer");
    post?.(...answer);
    return result;
  }
}

/**
 * Calls a function that a module exports.
 * @param {import("./files.js").Opened} opened the module, its package and its world
 * @param {object} func
 * @param {string} args a JSON array of the arguments
 * @param {Map<string, string>} answers the JSON of the results of what it imports, by their full names
 */
export async function ran(opened, func, args, answers) {
  const run = new Run(opened, answers);
  const done = { steps: run.steps, memories: run.memories };
  try {
    await run.start();
    done.result = run.call(func, args);
  } catch (error) {
    // A module may throw what it was handed, and that is an error here. Nothing else throws in a page.
    Object.assign(done, { error, step: run.step, field: run.field });
  }
  return done;
}
