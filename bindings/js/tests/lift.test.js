import assert from "node:assert/strict";
import { test } from "node:test";
import { NotThisType, Trap, WitError, lift } from "../index.js";
import { decodedText, encodedAll } from "../lib/values.js";
import { callee } from "./guests.js";
import { loaded } from "./support.js";

const witcall = await loaded();
const decoder = new TextDecoder();
const encoder = new TextEncoder();

const SHOP = `package demo:shop;
interface desk {
    record line { name: string, count: u8 }
    variant state { open, paid(u64) }
    total: func(lines: list<line>, state: state, note: option<char>) -> option<string>;
    sum: func(xs: list<s64>) -> s64;
    close: func();
}`;

/** A function of `demo:shop/desk` over one page of memory, whose core function gets the memory and the values. */
function shop(name, core, options = {}) {
  const pkg = witcall.open(SHOP);
  const full = `demo:shop/desk#${name}`;
  const instance = callee(1, { [full]: (...values) => core(new DataView(instance.exports.memory.buffer), ...values) });
  return lift(pkg, pkg.find("demo:shop/desk", name), { callee: instance, limit: 65536, ...options });
}

const textAt = (view, at) =>
  decoder.decode(new Uint8Array(view.buffer, view.getUint32(at, true), view.getUint32(at + 4, true)));

/** The core function of `total`: it answers the names, one after another, and what else it got. */
function names(view, lines, count, paid, sum, hasNote, note) {
  const all = Array.from({ length: count }, (_, k) => `${view.getUint8(lines + 12 * k + 8)} ${textAt(view, lines + 12 * k)}`);
  const text = encoder.encode([...all, paid, sum, hasNote, note].join());
  new Uint8Array(view.buffer).set(text, 256);
  [1, 256, text.length].forEach((word, place) => view.setUint32(128 + 4 * place, word, true));
  return 128;
}

test("values go into the memory and come back", () => {
  const total = shop("total", names);
  const lines = [{ name: "tea", count: 2 }, { name: 'ä"', count: 255 }];
  assert.equal(total(lines, { paid: 2n ** 64n - 1n }, "x"), '2 tea,255 ä",1,-1,1,120');
  assert.equal(total([], "open", undefined), "0,0,0,0");
});

test("64-bit numbers are BigInt", () => {
  const sum = shop("sum", (view, at, count) =>
    Array.from({ length: count }, (_, k) => view.getBigInt64(at + 8 * k, true)).reduce((a, b) => a + b, 0n));
  assert.equal(sum([2n ** 62n, 1, -3n]), 2n ** 62n - 2n);
  assert.equal(sum(new BigInt64Array([5n, 6n])), 11n);
});

test("a core function's answer is an i32 or an i64", () => {
  const answers = (type, answer) => {
    const pkg = witcall.open(`package a:b; interface c { f: func() -> ${type}; }`);
    return lift(pkg, pkg.functions[0], { callee: callee(1, { "a:b/c#f": () => answer }) })();
  };
  for (const answer of [0, 1, -1, 2 ** 31, 2 ** 32 - 1, -(2 ** 31)]) assert.equal(answers("u32", answer), answer >>> 0);
  for (const answer of [0n, -1n, 2n ** 64n - 1n, -(2n ** 63n)]) {
    assert.equal(answers("u64", answer), BigInt.asUintN(64, answer));
  }
  for (const answer of [2 ** 32, -(2 ** 31) - 1, 2 ** 53, 0.5, 2n ** 64n, -(2n ** 63n) - 1n, true, "1", {}]) {
    for (const type of ["u32", "u64", "bool", "list<u8>"]) {
      const message = `${answer} is neither an i32 nor an i64`;
      assert.throws(() => answers(type, answer), { name: "TypeError", message });
    }
  }
});

test("a function without a result gives undefined", () => {
  assert.equal(shop("close", () => undefined)(), undefined);
});

test("what is no value is refused before the component runs", () => {
  const numberOf = (limit, ...values) => {
    try {
      shop("total", () => assert.fail("the component runs"), { limit })(...values);
    } catch (error) {
      assert.ok(error instanceof WitError, error);
      return error.number;
    }
  };
  for (const values of [[], [[], "open"], [[], "shut", undefined], [[{ name: "tea", count: 256 }], "open", undefined],
    [[{ name: "tea" }], "open", undefined], [[{ name: "tea", count: 1.5 }], "open", undefined], [null, "open", "x"]]) {
    assert.equal(numberOf(65536, ...values), 62);
  }
  assert.equal(numberOf(65536, [{ name: "\ud800", count: 1 }], "open", undefined), 62);
  assert.equal(numberOf(65536, Array(200).fill().reduce((inner) => [inner], 1), "open", undefined), 62);
  assert.equal(numberOf(14, [{ name: "tea", count: 1 }], "open", undefined), 76);
});

test("a value of another type has its place", () => {
  const total = shop("total", () => assert.fail("the component runs"));
  assert.throws(() => total([{ name: "tea", count: 256 }], "open", undefined), (error) => {
    assert.ok(error instanceof NotThisType && error instanceof WitError, error);
    const { number, line, path, fault } = error;
    const wanted = "a `u8` is a whole number from 0 to 255, and not `256`";
    assert.deepEqual([number, line, path, fault], [62, "error 62 not this type", "[0][0].count", wanted]);
    return error.message === `error 62 not this type at [0][0].count: ${wanted}`;
  });
  assert.throws(() => total([]), { name: "NotThisType", path: "" });
});

test("traps have their steps", () => {
  const trapOf = (core, ...values) => {
    try {
      shop("total", core)(...values);
    } catch (error) {
      assert.ok(error instanceof Trap, error);
      return error.message;
    }
  };
  const none = [[], "open", undefined];
  assert.equal(trapOf(names, [{ name: "x".repeat(65000), count: 1 }], "open", undefined), "trap K6 full in place");
  assert.equal(trapOf(() => 1, ...none), "trap K3 align in lift-result");
  assert.equal(trapOf(() => 65536, ...none), "trap K4 bounds in lift-result");
  assert.equal(trapOf(() => undefined, ...none), "trap K8 coresignature in lift-result");
  const stops = () => {
    throw new WebAssembly.RuntimeError("unreachable");
  };
  assert.equal(trapOf(stops, ...none), "trap K7 body in body");
});

test("what the guest lacks is told, and what is no function, no array of blocks or no limit", () => {
  const text = "package a:b; interface c { f: func(s: string); }";
  const made = (exports, options) => {
    const pkg = witcall.open(text);
    return () => lift(pkg, pkg.functions[0], { callee: { exports }, ...options })("abc");
  };
  const told = (message, exports, options) => assert.throws(made(exports, options), { name: "TypeError", message });
  const [memory, f, cabi_realloc] = [new WebAssembly.Memory({ initial: 1 }), () => undefined, () => 1024];
  assert.equal(made({ memory, "a:b/c#f": f, cabi_realloc })(), undefined);
  told("the callee exports no function a:b/c#f", { memory, cabi_realloc });
  told("the guest exports no function cabi_realloc", { memory, "a:b/c#f": f });
  told("the guest exports no memory", { "a:b/c#f": f, cabi_realloc });
  told("cabi_post_a:b/c#f of the callee is no function", { memory, "a:b/c#f": f, cabi_realloc, "cabi_post_a:b/c#f": 5 });
  for (const blocks of [undefined, null, 1024, "1024", {}]) {
    told(`grant gives an array of blocks, and not ${blocks}`, { memory, "a:b/c#f": f }, { grant: () => blocks });
  }
  const limit = Symbol("none");
  assert.throws(made({ "a:b/c#f": f }, { limit }), { name: "RangeError", message: "Symbol(none) is no limit in bytes" });
});

test("a value at the end of the memory is read", () => {
  const end = shop("total", (view) => {
    [1, 65533, 3].forEach((word, place) => view.setUint32(65520 + 4 * place, word, true));
    new Uint8Array(view.buffer).set(encoder.encode("end"), 65533);
    return 65520;
  });
  assert.equal(end([], "open", undefined), "end");
});

test("texts of values", () => {
  const u64 = { kind: "u64" };
  const option = (type) => ({ kind: "option", members: [{ name: "none", type: null }, { name: "some", type }] });
  const both = (value, type) => {
    const text = encodedAll([value], [{ type }]);
    return [text, decodedText(text.slice(1, -1), type)];
  };
  assert.deepEqual(both(7n, { kind: "alias", target: u64 }), ["[7]", 7n]);
  assert.deepEqual(both(undefined, option(u64)), ['["none"]', undefined]);
  assert.deepEqual(both({ some: undefined }, option(option(u64))), ['[{"some":"none"}]', { some: undefined }]);
  assert.deepEqual(both("none", option(option(u64))), ['["none"]', "none"]);
  const text = '12 "\\" 34';
  assert.deepEqual(both([text], { kind: "list", target: { kind: "string" } }), [`[["12 \\"\\\\\\" 34"]]`, [text]]);
  const flags = { kind: "flags", members: [{ name: "a1", type: null }] };
  assert.deepEqual(both(["a1"], flags), ['[["a1"]]', ["a1"]]);
});
