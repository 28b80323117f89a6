// Names that a guest chooses are looked up here: in what an object has itself, and not in what JavaScript gives to all.

/** An object for names that a guest chooses. It has nothing but what is put into it. */
export const empty = () => Object.create(null);

/** What an object has under a name itself, or undefined. */
export const own = (object, name) =>
  object !== null && object !== undefined && Object.hasOwn(object, name) ? object[name] : undefined;

/** The end of what the engine's own functions are as texts. */
const NATIVE = /\{\s*\[native code\]\s*\}\s*$/;

/** Whether each prototype that was asked for is of a class. */
const asked = new WeakMap();

/** Whether a prototype is of a class that is written in JavaScript, and not one of the engine's. */
function isOfClass(prototype) {
  if (!asked.has(prototype)) {
    const made = own(prototype, "constructor");
    const isMade = typeof made === "function" && own(made, "prototype") === prototype;
    asked.set(prototype, isMade && !NATIVE.test(Function.prototype.toString.call(made)));
  }
  return asked.get(prototype);
}

/**
 * What a user gives under a name: what the object has itself, or its class, or a class that this one extends. The
 * constructor of a class is none of it.
 */
export function given(object, name) {
  if (object === null || (typeof object !== "object" && typeof object !== "function")) return undefined;
  if (Object.hasOwn(object, name)) return object[name];
  if (name === "constructor") return undefined;
  for (let it = Object.getPrototypeOf(object); it !== null && isOfClass(it); it = Object.getPrototypeOf(it)) {
    if (Object.hasOwn(it, name)) return object[name];
  }
  return undefined;
}
