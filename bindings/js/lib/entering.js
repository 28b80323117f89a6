// Calls of instances. The standard's `may_enter`: an instance is not entered again until its call ends.
import { CODE } from "./core.js";
import { Trap } from "./errors.js";

/** K7, a component that stops, and the steps in which it can. */
export const STOPPED = 7;
export const STEP = { BODY: 4, POST: 7 };

const RUNS = "the guest runs, and is not entered again meanwhile";

/** The exports of the instances that are in a call. */
const running = new WeakSet();

/**
 * Runs a call of an instance, known by its exports. If it is in a call already, this is a trap, and nothing is run.
 * @param {import("./package.js").Package} pkg
 * @param {WebAssembly.Exports} exports
 * @param {() => T} call
 * @returns {T}
 * @template T
 */
export function entered(pkg, exports, call) {
  if (running.has(exports)) {
    const { message } = pkg.place.core.error({ code: CODE.TRAP, number: STOPPED, step: STEP.BODY, count: 0 });
    throw new Trap(`${message}: ${RUNS}`);
  }
  running.add(exports);
  try {
    return call();
  } finally {
    running.delete(exports);
  }
}
