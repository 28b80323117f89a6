// Where a value stands in a text of JSON, by its path, as the library tells it of a value of another type.

const TOKEN = /\s*("(?:[^"\\]|\\.)*"|[^\s",:[\]{}]+|[[\]{},:])/y;
const PATH_STEP = /\[(\d+)\]|\.([^.[]+)/g;

class Reader {
  #text;
  #at = 0;

  constructor(text) {
    this.#text = text;
  }

  /** The next token, and where it stands. Without one the text has no such place. */
  next() {
    TOKEN.lastIndex = this.#at;
    const found = TOKEN.exec(this.#text);
    if (!found) throw new RangeError("the text ends");
    this.#at = TOKEN.lastIndex;
    return { token: found[1], start: this.#at - found[1].length, end: this.#at };
  }

  /** Reads a value. `visit` gets the place of each value in it, by the steps that lead there. */
  value(steps, visit) {
    const { token, start, end } = this.next();
    if (token !== "{" && token !== "[") {
      visit(steps, { start, end });
      return;
    }
    visit(steps, { start, end: this.#members(token === "{", steps, visit) });
  }

  /** Reads the members of an object or an array, and returns where it ends. */
  #members(isObject, steps, visit) {
    for (let place = 0; ; place++) {
      const before = this.#at;
      const { token, end } = this.next();
      if (token === "}" || token === "]") return end;
      if (token !== ",") this.#at = before;
      this.value([...steps, isObject ? this.#key() : String(place)], visit);
    }
  }

  #key() {
    const key = JSON.parse(this.next().token);
    this.next();
    return key;
  }
}

/**
 * The place of a value, or undefined if the text has none there.
 * @param {string} text
 * @param {string} path such as `[0].lines[2].count`
 * @returns {{start: number, end: number} | undefined}
 */
export function placeIn(text, path) {
  const wanted = JSON.stringify([...path.matchAll(PATH_STEP)].map(([, index, key]) => index ?? key));
  let found;
  try {
    new Reader(text).value([], (steps, place) => {
      if (JSON.stringify(steps) === wanted) found = place;
    });
  } catch {
    return found;
  }
  return found;
}
