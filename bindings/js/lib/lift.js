// A component's function as a function of JavaScript's values.
import { STEP, entered } from "./entering.js";
import { reworded } from "./faults.js";
import { LIMIT, Side, coreOf, granted, limitOf, ran, stopping, valuesOf } from "./link.js";
import { Texts } from "./texts.js";
import { decodedText, encodedAll } from "./values.js";

/** Puts arguments, and their text, into the component's memory, and returns the values for the core function. */
function handedOver(texts, text, values, parameters) {
  try {
    return texts.putArguments(text);
  } catch (error) {
    throw reworded(error, values, { kind: "tuple", members: parameters });
  }
}

/**
 * A function that an instance exports, as a function of values. The Canonical ABI calls this `lift`. An instance is
 * entered by one call at a time.
 *
 * @param {import("./package.js").Package} pkg
 * @param {object} func one of its functions
 * @param {object} options
 * @param {WebAssembly.Instance} options.callee
 * @param {number} [options.limit] the greatest size of its memory: blocks that have more bytes together are refused
 * @param {typeof granted} [options.grant] who grants blocks, if it isn't `cabi_realloc` alone
 */
export function lift(pkg, func, { callee, limit = LIMIT, grant = granted }) {
  const { body, post } = coreOf(callee.exports, func);
  const texts = new Texts(pkg, func, new Side(() => callee, grant), limitOf(limit));
  const call = (given, values) => {
    const handed = handedOver(texts, given, values, func.parameters);
    const answer = valuesOf(ran(body, handed, stopping(pkg, STEP.BODY)));
    const text = texts.readResult(answer);
    if (post) ran(post, answer, stopping(pkg, STEP.POST));
    return text;
  };
  return (...values) => {
    const given = encodedAll(values, func.parameters);
    const text = entered(pkg, callee.exports, () => call(given, values));
    return func.result === null ? undefined : decodedText(text, func.result.type);
  };
}
