// Memories of a stranger, as examples/c/hostile.c has them: lists whose elements all lie at the same address. A half
// asks for their blocks within a limit, and the lines are those of examples/c/hostile.expected.
import assert from "node:assert/strict";
import { test } from "node:test";
import { lift } from "../index.js";
import { Half } from "../lib/half.js";
import { callee } from "./guests.js";
import { fileOf, loaded } from "./support.js";

const witcall = await loaded();

const LIMIT = 1048576;
const MOST_MILLISECONDS = 5000;

/** Ends a half before anything is granted. */
class Asked extends Error {
  constructor(asked) {
    super(`${asked.length} blocks`);
    this.bytes = asked.reduce((sum, { size }) => sum + size, 0);
  }
}

/** The package of examples/c/hostile.c. */
function packageText() {
  const both = (name, type) => `take${name}: func(x: ${type}); give${name}: func() -> ${type};`;
  const within = (outer, count, inner) => `${`${outer}<`.repeat(count)}${inner}${">".repeat(count)}`;
  const functions = [
    ...[3, 4, 5, 6, 7, 8].map((levels) => both(levels, within("list", levels, "u8"))),
    both("-texts", "list<string>"),
    both("-options", "list<option<string>>"),
    both("-results", "list<result<list<u32>, list<u8>>>"),
    both("-records", "list<r>"),
    both("-tuples", within("list", 1, within("tuple", 60, "u8"))),
    `spilled: func(${[..."abcdefghi"].map((name) => `${name}: string`).join(", ")});`,
  ];
  return `package a:b; interface c { record r { a: string, b: list<u16> } ${functions.join(" ")} }`;
}

const pkg = witcall.open(packageText());

/** What a half asks for, as a line of hostile.expected, and in how much processor time. */
function line(half, func, values, bytes, limit) {
  const from = { bytes };
  const to = {
    grant: (asked) => {
      throw new Asked(asked);
    },
  };
  const began = process.cpuUsage();
  try {
    new Half(pkg, pkg.find("a:b/c", func), half, limit).carry([values], from, to);
    return "done";
  } catch (error) {
    const { user, system } = process.cpuUsage(began);
    assert.ok((user + system) / 1000 < MOST_MILLISECONDS, `${func} took ${(user + system) / 1000} ms`);
    return error.message;
  }
}

/** The same of a list that is an argument, and of one that is a result, whose address and length lie at `pair`. */
function lines(take, flats, pair, bytes, limit) {
  const entered = line("witcall_enter", take, flats, bytes, limit);
  assert.equal(line("witcall_leave", take.replace("take", "give"), [pair], bytes, limit), entered, take);
  return entered;
}

const words = (...numbers) => Uint32Array.from(numbers);
const memory = (array) => new Uint8Array(array.buffer);

function* levels() {
  const shared = memory(Uint32Array.from({ length: 128 }, (_, place) => (place % 2) * 64));
  let bytes = 64;
  for (let level = 2; level <= 8; level++) {
    bytes = 8 * 64 + 64 * bytes;
    if (level === 2) continue;
    yield* around(`${level} levels in 512 bytes`, `take${level}`, [0, 64], 0, shared, bytes, [LIMIT, 0]);
  }
}

function* around(name, take, flats, pair, bytes, all, limits) {
  for (const limit of limits) yield `${name}, a limit of ${limit} bytes: ${lines(take, flats, pair, bytes, limit)}`;
  if (all >= 32 * LIMIT) return;
  yield `${name}, a limit of just the sum: ${lines(take, flats, pair, bytes, all)}`;
  yield `${name}, one byte less: ${lines(take, flats, pair, bytes, all - 1)}`;
}

const SHARED = 4096;
const SHAPES = [
  ["texts", "texts", [0, SHARED], 0, SHARED],
  ["options of texts", "options", [1, 0, SHARED], 1, SHARED],
  ["results of lists", "results", [0, 0, SHARED / 4], 1, SHARED],
  ["records", "records", [0, 0, 0, SHARED / 2], 2, SHARED],
  ["empty texts", "texts", [0, 0], 0, 0],
];

/** Elements whose words are the same for all. What they share begins behind them. */
function* elements([name, func, element, place, shared], count) {
  const end = 8 + 4 * element.length * count;
  const bytes = new Uint8Array(end + SHARED).fill(97, end);
  bytes.set(memory(words(8, count)));
  const one = memory(words(...Object.assign([...element], { [place]: end })));
  for (let k = 0; k < count; k++) bytes.set(one, 8 + one.length * k);
  const all = count * (one.length + shared);
  yield* around(`${count} ${name} at one place`, `take-${func}`, [8, count], 0, bytes, all, [LIMIT]);
}

function* tuples() {
  const bytes = new Uint8Array(8 + 16384);
  bytes.set(memory(words(8, 16384)));
  yield* around("16384 numbers in 60 tuples", "take-tuples", [8, 16384], 0, bytes, 16384, [LIMIT]);
}

function* spilled() {
  const bytes = memory(Uint32Array.from({ length: 18 }, (_, place) => (place % 2) * 72));
  const all = 72 + 9 * 72;
  const limits = { "a limit of just the sum": all, "one byte less": all - 1, "the record alone": 72 };
  for (const [limited, limit] of Object.entries(limits)) {
    yield `9 texts in a record, ${limited}: ${line("witcall_enter", "spilled", [0], bytes, limit)}`;
  }
}

test("what a stranger's memories ask for is bounded by the limit", () => {
  const shapes = SHAPES.flatMap((shape) => [...elements(shape, 64), ...elements(shape, 50000)]);
  const found = [...levels(), ...shapes, ...tuples(), ...spilled()];
  const expected = fileOf("examples/c/hostile.expected").toString().trimEnd().split("\n");
  // The other lines are of halves whose blocks nobody was asked for, which a host in JavaScript can't run.
  const isAsked = (it) => it.includes(", ") && !/, (enter|leave) with /.test(it);
  assert.deepEqual(found, expected.filter(isAsked));
});

test("a half ends at the first block that is not granted", () => {
  const bytes = memory(Uint32Array.from({ length: 128 }, (_, place) => (place % 2) * 64));
  const to = { bytes: new Uint8Array(LIMIT), grant: (asked) => asked.slice(0, 1).map((it) => ({ ...it, at: 0 })) };
  const half = new Half(pkg, pkg.find("a:b/c", "take4"), "witcall_enter", 2 ** 25);
  assert.throws(() => half.carry([[0, 64]], { bytes }, to), { message: "trap K6 full in lower-args" });
});

test("a list of small records takes memory by its bytes, and not above the limit", () => {
  const count = 20000;
  const small = witcall.open("package t:t; interface i { record r { a: u8 } f: func() -> list<r>; }");
  const from = callee(1, { "t:t/i#f": () => 0 });
  new Uint32Array(from.exports.memory.buffer, 0, 2).set([8, count]);
  const read = (limit) => lift(small, small.functions[0], { callee: from, limit })();
  const before = witcall.core.bytes.length;
  assert.throws(() => read(count - 1), { number: 76, message: "error 76 above the limit" });
  assert.ok(witcall.core.bytes.length - before < 2 ** 20);
  assert.equal(read(count).length, count);
  assert.ok(witcall.core.bytes.length - before < 1500 * count, `${witcall.core.bytes.length - before}`);
  small.close();
});
