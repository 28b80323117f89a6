/** What the library refuses. `number` is that of docs/ERRORS.md, and the message is the library's line. */
export class WitError extends Error {
  name = "WitError";

  /**
   * @param {number} number
   * @param {string} line
   */
  constructor(number, line) {
    super(line);
    this.number = number;
    this.line = line;
  }
}

/**
 * A fault as `[0].lines[2]: a `u8` is ..` of an argument, or as `result.count of a:b/c#f: a `u8` is ..`: the path of a
 * value, whose it is, and what is wrong with it.
 */
const FAULT = /^(\[\S*|result(?:[.[]\S*)?)( of \S+)?: (.+)$/s;

/** A value of another type: 62. `path` is its place in the arguments or in the result, and `fault` what is wrong. */
export class NotThisType extends WitError {
  name = "NotThisType";

  /**
   * @param {number} number
   * @param {string} line
   * @param {string} told the library's line about the place
   */
  constructor(number, line, told) {
    super(number, line);
    const [, path, of = "", fault] = FAULT.exec(told) ?? [told, "", "", told];
    this.path = path;
    this.fault = fault;
    this.message = `${line}${path && ` at ${path}`}${of}: ${fault}`;
  }
}

/**
 * A line as `trap K5 utf8 in lift-args`: the number of the kind, its word, and the word of the step. A colon and a hint
 * may follow.
 */
const TRAP = /^trap K(\d) (\S+) in ([a-z-]+)(?:: .+)?$/;

/** The end of a call between two components. The callee is not run again after it. */
export class Trap extends Error {
  name = "Trap";

  /**
   * @param {string} line
   * @param {ErrorOptions} [options] the cause, if the engine stopped a component
   */
  constructor(line, options) {
    super(line, options);
    const [, number, kind, step] = TRAP.exec(line) ?? [];
    this.number = Number(number);
    this.kind = kind;
    this.step = step;
  }
}

/**
 * The engine stopped the module itself, because a stack was too small. Packages can be used again: they are opened anew
 * in another instance of the module.
 */
export class ModuleFault extends Error {
  name = "ModuleFault";
}
