// Writes the guests that the pages use, as modules of WebAssembly: hello.wasm, letters.wasm and caller.wasm. It needs
// no compiler: each instruction is here as its bytes. A guest is usually written in a language that is compiled.
//
// usage: node make.mjs [FOLDER]      FOLDER is that of the command, if it is left out
import { writeFileSync } from "node:fs";
import { join } from "node:path";

/** A number in LEB128, and a signed one, which is not negative. */
const leb = (number) => (number < 0x80 ? [number] : [(number & 0x7f) | 0x80, ...leb(number >>> 7)]);
const signed = (number) => (number < 0x40 ? [number] : [(number & 0x7f) | 0x80, ...signed(number >>> 7)]);

const vector = (items) => [...leb(items.length), ...items.flat()];
const text = (words) => vector([...new TextEncoder().encode(words)]);

// ---- instructions

const get = (local) => [0x20, local];
const set = (local) => [0x21, local];
const call = (func) => [0x10, func];
const number = (value) => [0x41, ...signed(value)];
const [ADD, SUBTRACT, AND, EQUAL, LESS] = [[0x6a], [0x6b], [0x71], [0x46], [0x49]];
const [LOAD_BYTE, STORE_BYTE] = [[0x2d, 0, 0], [0x3a, 0, 0]];
const storeWord = (offset) => [0x36, 2, offset];
const [TOP, SET_TOP, WIDEN] = [[0x23, 0], [0x24, 0], [0xad]];
const [BLOCK, LOOP, IF, END] = [[0x02, 0x40], [0x03, 0x40], [0x04, 0x40], [0x0b]];
const branch = (depth) => [0x0c, depth];
const branchIf = (depth) => [0x0d, depth];

// ---- modules

const TYPES = { i32: 0x7f, i64: 0x7e };
const kinds = (list) => vector(list.map((kind) => TYPES[kind]));
const section = (id, items) => {
  const body = vector(items);
  return [id, ...leb(body.length), ...body];
};
const bodyOf = ({ locals = 0, code }) => {
  const body = [...vector(locals > 0 ? [[...leb(locals), TYPES.i32]] : []), ...code.flat(), ...END];
  return [...leb(body.length), ...body];
};

/** `cabi_realloc`: a new block above the last one, up to the end of the page. */
const REALLOC = {
  name: "cabi_realloc",
  parameters: ["i32", "i32", "i32", "i32"],
  results: ["i32"],
  locals: 1,
  code: [
    TOP, get(2), ADD, number(1), SUBTRACT, number(0), get(2), SUBTRACT, AND, set(4), // at = (top + align - 1) & -align
    get(4), get(3), ADD, SET_TOP, get(4), // top = at + size
  ],
};

/** A module with a memory of one page and an allocator. Imported functions come first. */
function moduleOf({ imports = [], functions, data = "" }) {
  const own = [...functions, REALLOC];
  const signature = ({ parameters, results }) => [0x60, ...kinds(parameters), ...kinds(results)];
  const exported = own.map(({ name }, place) => [...text(name), 0, ...leb(imports.length + place)]);
  return new Uint8Array([
    ...[0, 0x61, 0x73, 0x6d, 1, 0, 0, 0],
    ...section(1, [...imports, ...own].map(signature)),
    ...section(2, imports.map(({ module, name }, place) => [...text(module), ...text(name), 0, ...leb(place)])),
    ...section(3, own.map((_, place) => leb(imports.length + place))),
    ...section(5, [[0, 1]]),
    ...section(6, [[TYPES.i32, 1, ...number(1024), ...END]]),
    ...section(7, [[...text("memory"), 2, 0], ...exported]),
    ...section(10, own.map(bodyOf)),
    ...section(11, data ? [[0, ...number(16), ...END, ...text(data)]] : []),
  ]);
}

// ---- guests

/** Imports `say`, and exports `greet`, which says the name that it gets, and returns how many bytes it has. */
const HELLO = {
  imports: [{ module: "demo:hello/host", name: "say", parameters: ["i32", "i32"], results: [] }],
  functions: [{
    name: "demo:hello/guest#greet",
    parameters: ["i32", "i32"],
    results: ["i64"],
    code: [get(0), get(1), call(0), get(1), WIDEN],
  }],
};

/** Exports `upper`: it makes a text upper case where it lies, and returns 8, where the pair of the text is. */
const LETTERS = {
  functions: [{
    name: "demo:text/letters#upper",
    parameters: ["i32", "i32"],
    results: ["i32"],
    locals: 2,
    code: [
      number(8), get(0), storeWord(0), number(8), get(1), storeWord(4),
      get(0), set(2), // at
      BLOCK, LOOP,
      get(2), get(0), get(1), ADD, EQUAL, branchIf(1), // until at == address + length
      get(2), LOAD_BYTE, set(3),
      get(3), number(97), SUBTRACT, number(26), LESS, // a letter from a to z
      IF, get(2), get(3), number(32), SUBTRACT, STORE_BYTE, END,
      get(2), number(1), ADD, set(2), branch(0),
      END, END,
      number(8),
    ],
  }],
};

/** Imports `upper`, and exports `run`, which calls it with a text at 16. Its return area is at 8. */
const CALLER = {
  imports: [{ module: "demo:text/letters", name: "upper", parameters: ["i32", "i32", "i32"], results: [] }],
  functions: [{ name: "run", parameters: [], results: [], code: [number(16), number(12), number(8), call(0)] }],
  data: "two memories",
};

const [folder = "."] = process.argv.slice(2);
for (const [name, guest] of Object.entries({ hello: HELLO, letters: LETTERS, caller: CALLER })) {
  writeFileSync(join(folder, `${name}.wasm`), moduleOf(guest));
}
