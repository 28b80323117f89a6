// Values that are none of their type, in arguments of `lift` and in what a served function gives: where, and what is
// there.
import assert from "node:assert/strict";
import { test } from "node:test";
import { NotThisType, imports, lift } from "../index.js";
import { decodedText } from "../lib/values.js";
import { callee } from "./guests.js";
import { Random, randomType } from "./random.js";
import { loaded } from "./support.js";

const witcall = await loaded();

/** What a call throws, or undefined. */
function thrownBy(call) {
  try {
    call();
  } catch (error) {
    return error;
  }
  return undefined;
}

/** Functions that take a type and that give it: what each says of a value. */
function sides({ declared = [], type }) {
  const functions = `take: func(x: ${type}); give: func() -> ${type};`;
  const pkg = witcall.open(`package a:b; interface c { ${declared.join(" ")} ${functions} } world w { import c; }`);
  const guest = callee(4, { "a:b/c#take": () => undefined });
  let value;
  const host = { "a:b/c": { take: () => undefined, give: () => value } };
  const object = imports(pkg, "a:b/w", host, { guest: () => guest });
  const taking = lift(pkg, pkg.find("a:b/c", "take"), { callee: guest });
  const { result, lowered } = pkg.find("a:b/c", "give");
  const area = lowered.results.length > 0 ? [] : [64];
  return {
    pkg,
    type: result.type,
    taken: (it) => thrownBy(() => taking(it)),
    given: (it) => thrownBy(() => ((value = it), object["a:b/c"].give(...area))),
  };
}

/** A value in which something else stands at a random place. */
function broken(random, value, other) {
  if (typeof value !== "object" || value === null || random.below(3) === 0) return other;
  const keys = Object.keys(value);
  if (keys.length === 0) return other;
  const key = random.of(keys);
  const copy = Array.isArray(value) ? [...value] : { ...value };
  copy[key] = broken(random, value[key], other);
  return copy;
}

const OTHERS = [null, undefined, true, -1, 1.5, 300, 2n ** 64n, "text", "\ud800", [], [[1]], {}, { a: 1 }, NaN, () => 0,
  Symbol("s"), Promise.resolve(1), { l0: "\udc00" }, { "\ud800": 1 }];

test("a result that is none of its type has the place and the words of an argument", () => {
  const paths = new Set();
  let count = 0;
  for (let round = 0; round < 120; round++) {
    const random = new Random(5000 + round);
    const declared = [];
    const made = randomType(random, 3, declared);
    const { pkg, type, taken, given } = sides({ declared, type: made.type });
    for (let turn = 0; turn < 12; turn++) {
      const text = made.value();
      if (text.length > 3000) continue;
      const value = broken(random, decodedText(text, type), random.of(OTHERS));
      const [argument, result] = [taken(value), given(value)];
      assert.equal(result instanceof NotThisType, argument instanceof NotThisType, `${argument} ${result}`);
      if (!argument) continue;
      count++;
      const { path, fault, message } = argument;
      const of = path.replace("[0]", "result");
      assert.deepEqual([result.path, result.fault, result.number], [of, fault, 62]);
      assert.equal(message, `error 62 not this type at ${path}: ${fault}`);
      assert.equal(result.message, `error 62 not this type at ${of} of a:b/c#give: ${fault}`);
      paths.add(path);
    }
    pkg.close();
  }
  assert.ok(count > 300 && paths.size > 60, `${count} ${paths.size}`);
});

const SHOP = {
  declared: [
    "record line { name: string, note: option<string>, count: u64 }",
    "variant state { open, paid(list<line>) }",
  ],
  type: "state",
};
const TEA = { name: "tea", note: undefined, count: 1n };
const line = (more) => ({ paid: [TEA, { ...TEA, note: "x", ...more }] });

test("what stands there is named as JavaScript has it", () => {
  const { pkg, taken, given } = sides(SHOP);
  const promise = "a promise: a function of values can't be asynchronous";
  const count = "a `u64` is a whole number of 64 bits, from 0 on, and not";
  const text = "a `string` is a text, and not";
  const state = 'a variant is one of `"open"`, `{"paid":..}`, and not';
  const wanted = [
    [line({ count: Promise.resolve(1n) }), ".paid[1].count", `${count} ${promise}`],
    [line({ count: { then() {} } }), ".paid[1].count", `${count} ${promise}`],
    [line({ count: undefined }), ".paid[1].count", `${count} \`undefined\``],
    [line({ count: NaN }), ".paid[1].count", `${count} \`NaN\``],
    [line({ count: -Infinity }), ".paid[1].count", `${count} \`-Infinity\``],
    [line({ count: Symbol.iterator }), ".paid[1].count", `${count} a symbol`],
    [line({ count: null }), ".paid[1].count", `${count} \`null\``],
    [line({ count: -1n }), ".paid[1].count", `${count} \`-1\``],
    [line({ name: "a\ud83d" }), ".paid[1].name", `${text} a text with the lone surrogate \`\\ud83d\``],
    [line({ name: "\ude00\ud83d" }), ".paid[1].name", `${text} a text with the lone surrogate \`\\ude00\``],
    [line({ name: () => "tea" }), ".paid[1].name", `${text} a function`],
    [line({ note: "\udfff" }), ".paid[1].note.some", `${text} a text with the lone surrogate \`\\udfff\``],
    [line({ note: Promise.resolve() }), ".paid[1].note.some", `${text} ${promise}`],
    [Promise.resolve("open"), "", `${state} ${promise}`],
    ["open\ud800", "", `${state} a text with the lone surrogate \`\\ud800\``],
    [undefined, "", `${state} \`undefined\``],
    [line({ count: 2n ** 64n }), ".paid[1].count", `${count} \`18446744073709551616\``],
    [line({ count: -(10n ** 58n) }), ".paid[1].count", `${count} \`-1${"0".repeat(58)}\``],
    [line({ name: new String("tea") }), ".paid[1].name", `${text} an object of \`String\``],
    [line({ note: new Date(0) }), ".paid[1].note.some", `${text} an object of \`Date\``],
    [new Map([["paid", []]]), "", `${state} an object of \`Map\``],
    [{ paid: new Set([TEA]) }, ".paid", "a list is an array, and not an object of `Set`"],
    [{ paid: new ArrayBuffer(2) }, ".paid", "a list is an array, and not an object of `ArrayBuffer`"],
    [{ paid: Promise.resolve([]) }, ".paid", `a list is an array, and not ${promise}`],
  ];
  for (const [value, path, fault] of wanted) {
    const [argument, result] = [taken(value), given(value)];
    assert.deepEqual([argument.path, argument.fault, argument.line], [`[0]${path}`, fault, "error 62 not this type"]);
    assert.deepEqual([result.path, result.fault, result.line], [`result${path}`, fault, "error 62 not this type"]);
  }
  for (const value of [line({}), "open", line({ note: "🙂" })]) {
    assert.deepEqual([taken(value), given(value)], [undefined, undefined]);
  }
  pkg.close();
});

test("a name with a lone surrogate is no label", () => {
  const { pkg, taken, given } = sides(SHOP);
  for (const it of [taken, given]) assert.match(it({ "\ud800": [] }).fault, /, and not `\{"\ufffd":\[\]\}`$/);
  pkg.close();
});

test("whole numbers go with all of their digits", () => {
  const { pkg, taken } = sides({ type: "u64" });
  for (const value of [2 ** 53, 2 ** 60 + 2 ** 9, 2 ** 63, -0]) assert.equal(taken(value), undefined);
  for (const value of [2 ** 64, 1e21, -(2 ** 60)]) assert.equal(taken(value).path, "[0]");
  const guest = callee(1, { "a:b/c#f": (x) => x });
  const same = witcall.open("package a:b; interface c { f: func(x: u64) -> u64; }");
  const f = lift(same, same.functions[0], { callee: guest });
  for (const value of [2 ** 53, 2 ** 60 + 2 ** 9, 2 ** 63]) assert.equal(f(value), BigInt(value));
  pkg.close();
});

test("arguments that are too many or too few have no place", () => {
  const pkg = witcall.open("package a:b; interface c { f: func(x: u8, y: u8); }");
  const f = lift(pkg, pkg.functions[0], { callee: callee(1, { "a:b/c#f": () => undefined }) });
  for (const values of [[], [1], [1, 2, 3], [Promise.resolve()]]) {
    const error = thrownBy(() => f(...values));
    assert.deepEqual([error.path, error.message], ["", `error 62 not this type: ${error.fault}`]);
  }
  pkg.close();
});

test("a promise of a function without a result is named", () => {
  const pkg = witcall.open("package a:b; interface c { f: func(); } world w { import c; import g: func(); }");
  let value;
  const host = { "a:b/c": { f: () => value }, g: async () => undefined };
  const object = imports(pkg, "a:b/w", host, { guest: () => undefined });
  for (const it of [undefined, 1, "text", {}, null, { then: 1 }]) {
    value = it;
    assert.equal(object["a:b/c"].f(), undefined);
  }
  value = Promise.resolve();
  const fault = "the function has none, and gave a promise: a function of values can't be asynchronous";
  const message = (of) => `error 62 not this type at result of ${of}: ${fault}`;
  const wanted = { name: "NotThisType", number: 62, path: "result", fault, message: message("a:b/c#f") };
  assert.throws(() => object["a:b/c"].f(), wanted);
  assert.throws(() => object.$root.g(), { message: message("a:b/w#g") });
  pkg.close();
});

/** A value within so many arrays. */
function within(levels, value) {
  let found = value;
  for (let level = 0; level < levels; level++) found = [found];
  return found;
}

test("a value of any depth has its place", () => {
  const { pkg, taken, given } = sides({ type: `${"list<".repeat(62)}u8${">".repeat(62)}` });
  for (const value of [within(62, 256), within(200, 1), within(100000, 1)]) {
    assert.equal(taken(value).path, `[0]${"[0]".repeat(62)}`);
    assert.equal(given(value).path, `result${"[0]".repeat(62)}`);
  }
  pkg.close();
});

test("a value within itself has its place", () => {
  const { pkg, taken, given } = sides(SHOP);
  const list = [];
  list.push(list, list);
  const object = { name: "tea" };
  Object.assign(object, { note: object, count: object });
  const wanted = [
    [list, "", "`[null,null]`"],
    [{ paid: list }, ".paid[0]", "`[null,null]`"],
    [{ paid: [object] }, ".paid[0].note.some", '`{"count":null,"name":"tea","note":null}`'],
  ];
  for (const [value, path, shown] of wanted) {
    for (const [it, root] of [[taken(value), "[0]"], [given(value), "result"]]) {
      assert.deepEqual([it.number, it.path], [62, root + path]);
      assert.ok(it.fault.endsWith(`, and not ${shown}`), it.fault);
    }
  }
  pkg.close();
});

test("a BigInt of any length is told", () => {
  const { pkg, taken, given } = sides({ type: "s64" });
  for (const value of [2n ** 63n, -(2n ** 63n) - 1n, 2n ** 1023n - 1n, 2n ** 1023n, -(2n ** 1023n), 10n ** 6000n]) {
    const shown = /, and not (`-?\d[\d.e+]+`|a BigInt of more than 1023 bits)$/;
    for (const it of [taken(value), given(value)]) assert.match(it.fault, shown);
  }
  pkg.close();
});

test("faults of results leave no memory behind in the module", () => {
  const { pkg, given } = sides(SHOP);
  given("shut");
  const before = witcall.core.bytes.length;
  for (let count = 0; count < 300; count++) given("shut");
  assert.equal(witcall.core.bytes.length, before);
  pkg.close();
});
