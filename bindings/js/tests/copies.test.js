// Halves copy the pages that they read, and blocks. What they do is compared with calls over copies of whole memories,
// for random types and values, and for values that are changed at random.
import assert from "node:assert/strict";
import { test } from "node:test";
import { ModuleFault, imports, lift, link } from "../index.js";
import { CODE, Space } from "../lib/core.js";
import { Half, MAX_VALUES, Run } from "../lib/half.js";
import { callee, forwarding } from "./guests.js";
import { Random, randomType } from "./random.js";
import { loaded } from "./support.js";

const witcall = await loaded();
const PAGE = 65536;
const SOURCE = new Uint8Array(16 * PAGE).map((_, k) => k * 3);
const TARGET = new Uint8Array(8 * PAGE).map((_, k) => k * 7);
const PADS = Array.from({ length: 16 }, (_, k) => `p${k}: u8`).join(", ");

/** Functions that take a type, take it in memory, and give it. */
const textOf = ({ declared, type }) =>
  `package a:b; interface c { ${declared.join(" ")} take: func(x: ${type}); many: func(x: ${type}, ${PADS}); ` +
  `give: func() -> ${type}; }`;

/** An allocator of a memory, which leaves gaps, and grants for every request. */
function sparse(random, top) {
  return (asked) =>
    asked.map(({ align, size }) => {
      const at = Math.ceil((top + random.below(random.of([4, 1500]))) / align) * align;
      top = at + size;
      return { align, size, at };
    });
}

/** Puts a value into a memory, as the arguments of a function. */
function filled(pkg, func, json, { bytes, grant }) {
  const run = new Run(pkg.place);
  const words = [run.handle, [func.number], ...run.copy(new TextEncoder().encode(json))];
  const ask = (room, count) => run.core.call("witcall_json_requests", ...words, room, count, 2 ** 30);
  const { status, asked } = run.asked(ask);
  assert.equal(status.code, CODE.DONE);
  const blocks = grant(asked);
  const places = run.putBlocks(blocks);
  const flats = run.written(bytes, blocks, (copy, length, told) =>
    run.core.call("witcall_fill_json", ...words, copy, length, ...places, told, MAX_VALUES));
  run.free();
  return flats;
}

/**
 * A half over copies of both memories: what is asked, the outcome, and the bytes of the target.
 * @param {{pkg: object, func: object, name: string, values: any[][], limit: number, from: Uint8Array, area?: object}} call
 */
function whole({ pkg, func, name, values, limit, from }, to, grant) {
  const { core, handle } = pkg.place;
  const space = new Space(core);
  const run = new Run(pkg.place);
  try {
    const [source, target] = [from, to].map((it) => [space.put(it), it.length]);
    const flats = values.map((some, which) => run.putValues(which * MAX_VALUES * 16, some));
    const ask = (room, count) =>
      core.call(`${name}_requests`, handle, [func.number], ...flats.at(-1), ...source, room, count, limit);
    const { status, asked } = run.asked(ask);
    if (status.code !== CODE.DONE) return { end: core.error(status).message, bytes: to };
    const places = run.putBlocks(grant(asked));
    const told = space.take(MAX_VALUES * 16);
    const words = [...flats.flat(), ...source, ...target, ...places, told, MAX_VALUES];
    const done = core.call(name, handle, [func.number], ...words);
    const end = done.code === CODE.DONE ? run.valuesAt(told, done.count) : core.error(done).message;
    return { asked, end, bytes: core.bytes.slice(target[0], target[0] + target[1]) };
  } finally {
    run.free();
    space.free();
  }
}

/** The same by `Half`. */
function byPages({ pkg, func, name, values, limit, from, area }, bytes, grant) {
  let asked = [];
  const to = { bytes, grant: (these) => grant((asked = these)) };
  const endOf = () => {
    try {
      return new Half(pkg, func, name, limit).carry(values, { bytes: from }, to, area);
    } catch (error) {
      return error.message;
    }
  };
  return { end: endOf(), asked, bytes };
}

/** Changes what the carriers have from calls before. */
function poison(random, length) {
  const { core } = witcall;
  const carriers = [1, 2].map(() => core.carriers.take({ length }));
  for (const { at, size } of carriers) core.bytes.fill(random.below(256), at, at + size);
  for (const carrier of carriers) core.carriers.give(carrier);
}

/** Changes some words of a memory, mostly to addresses within it. */
function changed(random, bytes, places) {
  const view = new DataView(bytes.buffer);
  for (let count = random.below(4); count > 0; count--) {
    const { at, size } = random.of(places);
    if (size < 4) continue;
    const word = random.of([random.below(300), random.below(bytes.length), bytes.length - random.below(9), 2 ** 32 - 1]);
    view.setUint32(at + random.below(size - 3), word, true);
  }
}

/** Compares both ways of a call, and returns its end. */
function same(random, call) {
  const { from } = call;
  const seed = random.below(1000000);
  const grant = () => sparse(new Random(seed), 64);
  const wanted = whole(call, TARGET.slice(), grant());
  poison(random, from.length);
  const before = from.slice();
  const found = byPages(call, TARGET.slice(), grant());
  assert.deepEqual(found.end, wanted.end);
  if (wanted.asked?.length > 0) assert.deepEqual(found.asked, wanted.asked);
  assert.ok(Buffer.from(found.bytes.buffer).equals(wanted.bytes), "the target has other bytes");
  assert.ok(Buffer.from(from.buffer).equals(before), "the source was written to");
  return wanted.end;
}

/** A value in a memory, as it goes flat, and in a record of parameters; then some of its words are changed. */
function placed(random, pkg, text, isChanged) {
  const bytes = SOURCE.slice();
  const places = [];
  let top = random.of([64, 5 * PAGE]);
  const grant = (asked) => {
    const blocks = sparse(random, top)(asked);
    top = Math.max(top, ...blocks.map(({ at, size }) => at + size));
    places.push(...blocks);
    return blocks;
  };
  const [take, many] = ["take", "many"].map((name) => pkg.find("a:b/c", name));
  const taken = filled(pkg, take, `[${text}]`, { bytes, grant });
  const spilled = filled(pkg, many, `[${text}${",7".repeat(16)}]`, { bytes, grant });
  if (isChanged) changed(random, bytes, places);
  return { bytes, taken, spilled };
}

/** The calls of one type, with a value as it is and with changed ones. Their ends go to `ends`. */
function compared(random, ends) {
  const declared = [];
  const { type, value } = randomType(random, 3, declared);
  const pkg = witcall.open(textOf({ declared, type }));
  const [take, many, give] = ["take", "many", "give"].map((name) => pkg.find("a:b/c", name));
  const { result, lowered } = give;
  const isFlat = lowered.results.length > 0;
  const area = isFlat ? undefined : { align: result.alignment, size: result.size, at: 7 * PAGE };
  for (let round = 0; round < 6; round++) {
    const text = value();
    if (text.length > 5000) continue;
    const { bytes, taken, spilled } = placed(random, pkg, text, round > 1);
    const shared = { pkg, limit: random.of([2 ** 24, 2 ** 24, random.below(5000)]), from: bytes };
    const answers = isFlat ? [[], taken] : [[area.at], spilled];
    ends.push(same(random, { ...shared, func: take, name: "witcall_enter", values: [taken] }));
    ends.push(same(random, { ...shared, func: many, name: "witcall_enter", values: [spilled] }));
    ends.push(same(random, { ...shared, func: give, name: "witcall_leave", values: answers, area }));
  }
  pkg.close();
}

/** The word of an end. */
const kindOf = (end) => (Array.isArray(end) ? "done" : end.replace(/ in .*/, ""));

test("halves do with pages what they do with whole memories", () => {
  const seed = Number(process.env.WITCALL_SEED ?? 1);
  const rounds = Number(process.env.WITCALL_ROUNDS ?? 8);
  const ends = [];
  for (let round = 0; round < rounds; round++) compared(new Random(seed * 1000000 + round), ends);
  const kinds = new Set(ends.map(kindOf));
  assert.ok(kinds.has("done") && kinds.size > 2, `${[...kinds]}`);
});

/** How many bytes a call copies, from whose memories of so many pages texts and a list at their ends are read. */
function copied(pages) {
  const pkg = witcall.open("package a:b; interface c { f: func(s: string, l: list<u32>) -> string; }");
  const end = pages * PAGE - 2048;
  const to = callee(pages, { "a:b/c#f": () => end, cabi_realloc: (old, oldSize, align, size) => end + 512 + size });
  const imports = { test: { cabi_realloc: () => end + 512 } };
  const caller = link(pkg, { caller: forwarding(pkg.functions, pages), callee: to, imports });
  new DataView(to.exports.memory.buffer).setUint32(end, end + 100, true);
  new DataView(to.exports.memory.buffer).setUint32(end + 4, 20, true);
  const { set } = Uint8Array.prototype;
  let sum = 0;
  Uint8Array.prototype.set = function counted(array, ...more) {
    sum += array.length;
    return set.call(this, array, ...more);
  };
  try {
    caller.exports.f(end + 32, 20, end + 64, 16, end + 16);
  } finally {
    Uint8Array.prototype.set = set;
  }
  pkg.close();
  return sum;
}

test("a call copies as much of a great memory as of a small one", () => {
  const bytes = copied(1);
  assert.ok(bytes < 8192, `${bytes}`);
  for (const pages of [16, 256, 4096]) assert.equal(copied(pages), bytes);
});

test("a call within a call has its own copies", () => {
  const pkg = witcall.open("package a:b; interface c { f: func(s: string); }");
  const from = new Uint8Array(PAGE).fill(97);
  const to = new Uint8Array(PAGE);
  const half = new Half(pkg, pkg.find("a:b/c", "f"), "witcall_enter", 2 ** 20);
  const call = (at, depth) => {
    const grant = ([{ align, size }]) => {
      if (depth > 0) call(at + 100, depth - 1);
      // What the outer call reads is what was there before its allocator ran.
      from.fill(98, at, at + 10);
      return [{ align, size, at: at + 5000 }];
    };
    half.carry([[at, 10]], { bytes: from }, { bytes: to, grant });
  };
  call(300, 4);
  const found = [300, 400, 500, 600, 700].map((at) => Buffer.from(to.subarray(at + 5000, at + 5010)).toString());
  assert.deepEqual(found, Array(5).fill("a".repeat(10)));
  assert.equal(to.reduce((sum, byte) => sum + (byte ? 1 : 0), 0), 50);
});

// ---- memories that change while they are read

/** Runs a call. Each byte that is copied out of these memories is another one after that. */
function changing(memories, run) {
  const { set } = Uint8Array.prototype;
  Uint8Array.prototype.set = function changed(array, ...more) {
    set.call(this, array, ...more);
    if (memories.some((it) => it.buffer === array.buffer)) array.fill(0xa5);
  };
  try {
    return run();
  } finally {
    Uint8Array.prototype.set = set;
  }
}

const LINES = Array.from({ length: 100 }, (_, k) => `line ${k} of a text that has more than 256 bytes`);
const LISTED = `package a:b; interface c { give: func() -> list<string>; take: func(x: list<string>); }
world w { import c; }`;
const [AREA, LIST, TEXTS] = [8, 64, 1024];

/** Puts the lines into a memory, one after another, with their list, whose address and length are in the area. */
function putLines({ buffer }) {
  const view = new DataView(buffer);
  let at = TEXTS;
  for (const [place, line] of LINES.entries()) {
    new Uint8Array(buffer).set(new TextEncoder().encode(line), at);
    view.setUint32(LIST + 8 * place, at, true);
    view.setUint32(LIST + 8 * place + 4, line.length, true);
    at += line.length;
  }
  view.setUint32(AREA, LIST, true);
  view.setUint32(AREA + 4, LINES.length, true);
}

test("each byte of a memory is read once, however often the library is asked", () => {
  const pkg = witcall.open(LISTED);
  for (const shared of [false, true]) {
    const memory = new WebAssembly.Memory({ initial: 1, maximum: 1, shared });
    const guest = { exports: { memory, "a:b/c#give": () => AREA } };
    const give = lift(pkg, pkg.find("a:b/c", "give"), { callee: guest });
    for (let count = 0; count < 3; count++) {
      putLines(memory);
      assert.deepEqual(changing([memory], give), LINES);
    }
    let taken;
    const host = { give: () => [], take: (lines) => (taken = lines) };
    const object = imports(pkg, "a:b/w", { "a:b/c": host }, { guest: () => guest });
    putLines(memory);
    changing([memory], () => object["a:b/c"].take(LIST, LINES.length));
    assert.deepEqual(taken, LINES);
  }
  pkg.close();
});

/** A caller with the lines, and a callee that keeps what it takes. */
function taking(pkg, grantOf = (grant) => grant) {
  let taken;
  let bump = TEXTS;
  const grant = (instance, asked) => asked.map(({ align, size }) => {
    bump = Math.ceil(bump / align) * align + size;
    return { align, size, at: bump - size };
  });
  const keep = (at, count) => {
    taken = textsAt(to.exports.memory, at, count);
  };
  const to = callee(1, { "a:b/c#give": () => 0, "a:b/c#take": keep });
  const options = { callee: to, imports: { test: { cabi_realloc: () => 0 } }, grant: grantOf(grant) };
  const caller = link(pkg, { caller: forwarding(pkg.functions, 1), ...options });
  putLines(caller.exports.memory);
  return { caller, to, take: () => caller.exports.take(LIST, LINES.length) ?? taken };
}

function textsAt({ buffer }, at, count) {
  const pairs = new Uint32Array(buffer, at, 2 * count);
  const textOf = (_, k) => new TextDecoder().decode(new Uint8Array(buffer, pairs[2 * k], pairs[2 * k + 1]));
  return Array.from({ length: count }, textOf);
}

test("each byte is read once between two instances", () => {
  const pkg = witcall.open(LISTED);
  const { caller, to, take } = taking(pkg);
  assert.deepEqual(changing([caller.exports.memory, to.exports.memory], take), LINES);
  pkg.close();
});

test("a memory that changed while the module was stopped is read again, and other blocks are refused", () => {
  const pkg = witcall.open(LISTED);
  const stop = (more) => (grant) => (instance, asked) => {
    assert.throws(() => pkg.place.core.call("witcall_line", 0xfffffff0, 0, 0), ModuleFault);
    more();
    return grant(instance, asked);
  };
  assert.deepEqual(taking(pkg, stop(() => undefined)).take(), LINES);
  const lengthen = () => new DataView(longer.caller.exports.memory.buffer).setUint32(LIST + 12, 99, true);
  const longer = taking(pkg, stop(lengthen));
  assert.throws(longer.take, { number: 73, message: "error 73 other block 2" });
  const change = () => new Uint8Array(other.caller.exports.memory.buffer).fill(33, TEXTS, TEXTS + 1);
  const other = taking(pkg, stop(change));
  assert.deepEqual(other.take(), [`!${LINES[0].slice(1)}`, ...LINES.slice(1)]);
  pkg.close();
});
