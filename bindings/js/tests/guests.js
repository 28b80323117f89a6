// Core modules for the tests, made without a compiler.
const TYPES = { i32: 0x7f, i64: 0x7e, externref: 0x6f };
const MAGIC = [0, 0x61, 0x73, 0x6d, 1, 0, 0, 0];
const SECTION = { CUSTOM: 0, TYPE: 1, IMPORT: 2, FUNCTION: 3, MEMORY: 5, GLOBAL: 6, EXPORT: 7, CODE: 10 };
const KIND = { FUNCTION: 0, MEMORY: 2 };

/** An unsigned number in LEB128. */
function leb(number) {
  const low = number & 0x7f;
  return number < 0x80 ? [low] : [low | 0x80, ...leb(number >>> 7)];
}

const vector = (items) => [...leb(items.length), ...items.flat()];
const text = (words) => vector([...new TextEncoder().encode(words)]);

function section(id, items) {
  const body = vector(items);
  return [id, ...leb(body.length), ...body];
}

const kinds = (list) => vector(list.map((kind) => TYPES[kind]));
const signature = ({ parameters, results }) => [0x60, ...kinds(parameters), ...kinds(results)];

/** The allocator of a module, which its host makes: the import `cabi_realloc` of `test`. */
const REALLOC = { module: "test", name: "cabi_realloc", parameters: Array(4).fill("i32"), results: ["i32"] };

/**
 * A module with a memory, which exports each function that it imports under the function's own name: those of a package
 * as a caller has them, and its allocator.
 * @param {object[]} functions as Package.functions has them
 * @param {number} pages
 */
export function forwarding(functions, pages) {
  const all = [REALLOC, ...functions.map((it) => ({ module: it.interface, name: it.name, ...it.lowered }))];
  const bytes = [
    ...MAGIC,
    ...section(SECTION.TYPE, all.map(signature)),
    ...section(SECTION.IMPORT, all.map(({ module, name }, index) => [text(module), text(name), 0, leb(index)].flat())),
    ...section(SECTION.MEMORY, [[0, ...leb(pages)]]),
    ...section(SECTION.EXPORT, [
      [...text("memory"), KIND.MEMORY, 0],
      ...all.map(({ name }, index) => [...text(name), KIND.FUNCTION, ...leb(index)]),
    ]),
  ];
  return new WebAssembly.Module(new Uint8Array(bytes));
}

/** `cabi_realloc`: a block above the last one, for which the memory grows page by page. */
const BUMP = [
  [0x23, 0, 0x20, 2, 0x6a, 0x41, 1, 0x6b, 0x41, 0, 0x20, 2, 0x6b, 0x71, 0x22, 4], // at = (top + align - 1) & -align
  [0x20, 3, 0x6a, 0x24, 0], // top = at + size
  [0x02, 0x40, 0x03, 0x40, 0x23, 0, 0x3f, 0, 0x41, 16, 0x74, 0x4d, 0x0d, 1], // until top <= pages * 65536
  [0x41, 1, 0x40, 0, 0x41, 0x7f, 0x46, 0x04, 0x40, 0x00, 0x0b, 0x0c, 0, 0x0b, 0x0b], // grow, or stop
  [0x20, 4],
].flat();

/** Calls an import with the parameters, and with an area if the result goes to one. */
function relayed(func, index, area) {
  const values = func.lifted.parameters.flatMap((_, k) => [0x20, ...leb(k)]);
  const hasArea = func.lowered.results.length < func.lifted.results.length;
  const address = [0x41, ...leb(area)];
  return [...values, ...(hasArea ? address : []), 0x10, ...leb(index), ...(hasArea ? address : [])];
}

const body = (locals, code) => {
  const bytes = [...vector(locals), ...code, 0x0b];
  return [...leb(bytes.length), ...bytes];
};

/**
 * A guest whose exports hand all of their arguments to functions that it imports, and give what these answer. It has a
 * memory of one page, and an allocator for which it grows.
 * @param {[object, {module: string, name: string}][]} pairs functions that are exported, and whom each asks
 */
export function relaying(pairs) {
  const own = pairs.map(([func]) => ({ name: func.interface ? `${func.interface}#${func.name}` : func.name, ...func.lifted }));
  const asked = pairs.map(([func]) => func.lowered);
  const all = [...asked, ...own, { ...REALLOC }];
  const AREA = 16;
  const bytes = [
    ...MAGIC,
    ...section(SECTION.TYPE, all.map(signature)),
    ...section(SECTION.IMPORT, pairs.map(([, { module, name }], index) => [...text(module), ...text(name), 0, ...leb(index)])),
    ...section(SECTION.FUNCTION, [...own, REALLOC].map((_, k) => leb(asked.length + k))),
    ...section(SECTION.MEMORY, [[0, 1]]),
    ...section(SECTION.GLOBAL, [[TYPES.i32, 1, 0x41, ...leb(1024), 0x0b]]),
    ...section(SECTION.EXPORT, [
      [...text("memory"), KIND.MEMORY, 0],
      ...[...own, REALLOC].map(({ name }, k) => [...text(name), KIND.FUNCTION, ...leb(asked.length + k)]),
    ]),
    ...section(SECTION.CODE, [...pairs.map(([func], k) => body([], relayed(func, k, AREA))), body([[1, TYPES.i32]], BUMP)]),
  ];
  return new WebAssembly.Module(new Uint8Array(bytes));
}

/** The names of a module's functions from a place on. */
const exportsFrom = (first, functions) =>
  functions.map(({ name }, k) => [...text(name), KIND.FUNCTION, ...leb(first + k)]);

/**
 * A module of a stranger: it imports functions, and exports its own ones, each of which has these instructions.
 * @param {{module: string, name: string, parameters: string[], results: string[]}[]} asked
 * @param {{name: string, parameters: string[], results: string[], code: number[]}[]} own
 * @param {[string, ArrayBuffer][]} sections custom ones
 */
export function stranger(asked, own, sections = []) {
  const bytes = [
    ...MAGIC,
    ...section(SECTION.TYPE, [...asked, ...own].map(signature)),
    ...section(SECTION.IMPORT, asked.map(({ module, name }, k) => [...text(module), ...text(name), 0, ...leb(k)])),
    ...section(SECTION.FUNCTION, own.map((_, k) => leb(asked.length + k))),
    ...section(SECTION.MEMORY, [[0, 1]]),
    ...section(SECTION.EXPORT, [[...text("memory"), KIND.MEMORY, 0], ...exportsFrom(asked.length, own)]),
    ...section(SECTION.CODE, own.map(({ code }) => body([], code))),
    ...sections.flatMap(([name, content]) => {
      const all = [...text(name), ...new Uint8Array(content)];
      return [SECTION.CUSTOM, ...leb(all.length), ...all];
    }),
  ];
  return new Uint8Array(bytes);
}

/** What a stranger's module imports to freeze the host's `Object.prototype`, and a function that does so. */
export const FREEZING = {
  asked: [
    { module: "constructor", name: "constructor", parameters: [], results: ["externref"] },
    { module: "constructor", name: "getPrototypeOf", parameters: ["externref"], results: ["externref"] },
    { module: "constructor", name: "freeze", parameters: ["externref"], results: ["externref"] },
  ],
  code: [0x10, 0, 0x10, 1, 0x10, 1, 0x10, 2, 0x1a],
};

/** An instance as a callee has it, whose core functions are of JavaScript, with blocks above `top`. */
export function callee(pages, functions, top = 1024) {
  const memory = new WebAssembly.Memory({ initial: pages });
  return { exports: { memory, cabi_realloc: bump(() => memory, top), ...functions } };
}

/** An allocator that only makes new blocks, and traps if the memory has no room. */
export function bump(memory, top) {
  return (old, oldSize, align, size) => {
    const at = Math.ceil(top / align) * align;
    if (at + size > memory().buffer.byteLength) throw new WebAssembly.RuntimeError("unreachable");
    top = at + size;
    return at;
  };
}
