// Guests whose imports are functions of JavaScript's values. The guest hands what it is called with to its imports, and
// gives what they answer.
import assert from "node:assert/strict";
import { test } from "node:test";
import { ModuleFault, Trap, WitError, granted, imports, lift } from "../index.js";
import { decodedText } from "../lib/values.js";
import { relaying } from "./guests.js";
import { Random, randomType } from "./random.js";
import { loaded } from "./support.js";

const witcall = await loaded();

const SHOP = `package demo:shop@1.2.0;
interface types {
    record line { name: string, count: u8 }
    variant state { open, paid(u64), %refused(string) }
    enum color { red, green }
    flags marks { new, %record, big }
}
interface host {
    use types.{line, state, color, marks};
    total: func(lines: list<line>, state: state, note: option<char>) -> result<string, list<string>>;
    sum: func(xs: list<s64>) -> s64;
    many: func(a: string, b: string, c: string, d: string, e: string, f: string, g: string, h: string, i: string) -> u32;
    next: func(state: state) -> state;
    mixed: func(c: color, m: marks, t: tuple<u8, s64>, o: option<option<u8>>, b: bool) -> tuple<color, marks, s16, bool>;
    say: func(text: string);
    tick: func();
    now: func() -> u64;
}
interface desk {
    use types.{line, state, color, marks};
    total: func(lines: list<line>, state: state, note: option<char>) -> result<string, list<string>>;
    sum: func(xs: list<s64>) -> s64;
    many: func(a: string, b: string, c: string, d: string, e: string, f: string, g: string, h: string, i: string) -> u32;
    next: func(state: state) -> state;
    mixed: func(c: color, m: marks, t: tuple<u8, s64>, o: option<option<u8>>, b: bool) -> tuple<color, marks, s16, bool>;
    say: func(text: string);
    tick: func();
    now: func() -> u64;
}
world shop { import host; export desk; import ask: func(x: u32) -> string; export tell: func(x: u32) -> string; }
world other { import types; }`;
const [HOST, DESK, WORLD] = ["host", "desk", "shop"].map((name) => `demo:shop/${name}@1.2.0`);

/** The guest of the world, with an implementation: its exports as functions of values. */
function shop(functions, { root = () => "", ...options } = {}) {
  const pkg = witcall.open(SHOP);
  const nothing = Object.fromEntries(pkg.functions.filter((it) => it.interface === HOST).map((it) => [it.name, () => 0]));
  let guest;
  const object = imports(pkg, WORLD, { [HOST]: { ...nothing, ...functions }, ask: root }, { guest: () => guest, ...options });
  const tell = pkg.findExport(WORLD, "tell");
  const desk = pkg.functions.filter((it) => it.interface === DESK);
  const module = relaying([...desk.map((it) => [it, { module: HOST, name: it.name }]), [tell, { module: "$root", name: "ask" }]]);
  guest = new WebAssembly.Instance(module, object);
  const exported = Object.fromEntries([...desk, tell].map((it) => [it.name, lift(pkg, it, { callee: guest })]));
  return { pkg, guest, ...exported };
}

test("values go to JavaScript and come back", () => {
  const total = (lines, state, note) =>
    note === "x" ? { error: lines.map((it) => it.name) } : { ok: `${lines.map((it) => `${it.count} ${it.name}`)} ${typeof state}` };
  const made = shop({
    total,
    sum: (xs) => xs.reduce((a, b) => a + b, 0n),
    many: (...all) => all.join("").length,
    next: (state) => (state === "open" ? { paid: 2n ** 64n - 1n } : state.paid ? { refused: `${state.paid}` } : "open"),
    mixed: (c, m, t, o, b) => [c, [...m, "big"], Number(t[1]) + t[0], o === "none" && !b],
  });
  const lines = [{ name: "tea", count: 2 }, { name: 'ä"', count: 255 }];
  assert.deepEqual(made.total(lines, "open", undefined), { ok: '2 tea,255 ä" string' });
  assert.deepEqual(made.total(lines, { refused: "no" }, "x"), { error: ["tea", 'ä"'] });
  assert.equal(made.sum([2n ** 62n, -1n]), 2n ** 62n - 1n);
  assert.equal(made.many(..."abcdefgh", "ijk"), 11);
  assert.deepEqual(["open", { paid: 7n }, { refused: "" }].map((it) => made.next(it)), [{ paid: 2n ** 64n - 1n }, { refused: "7" }, "open"]);
  assert.deepEqual(made.mixed("green", ["record"], [1, -3n], "none", false), ["green", ["record", "big"], -2, true]);
});

test("functions without parameters or result, and those of a world itself", () => {
  const said = [];
  const made = shop({ say: (text) => said.push(text), tick: () => said.push("tick"), now: () => 5n }, { root: (x) => `${x}!` });
  assert.equal(made.say("two\u0000memories 🙂"), undefined);
  made.tick();
  assert.equal(made.now(), 5n);
  assert.equal(made.tell(2 ** 32 - 1), "4294967295!");
  assert.deepEqual(said, ["two\u0000memories 🙂", "tick"]);
});

test("an implementation is called as a method", () => {
  const host = { count: 3n, now() { return this.count; } };
  const pkg = witcall.open("package a:b; interface c { now: func() -> u64; } world w { import c; }");
  const object = imports(pkg, "a:b/w", { "a:b/c": host }, { guest: () => assert.fail("no memory is needed") });
  assert.equal(object["a:b/c"].now(), 3n);
});

test("random values of random types come back as they were", () => {
  for (let round = 0; round < 60; round++) {
    const random = new Random(round);
    const declared = [];
    const types = random.list(4, () => randomType(random, 3, declared));
    const all = [randomType(random, 3, declared), ...types];
    const functions = `f: func(${all.map((it, k) => `x${k}: ${it.type}`)}) -> tuple<${all.map((it) => it.type)}>;`;
    const pkg = witcall.open(`package a:b; interface c { ${declared.join(" ")} ${functions} } world w { import c; }`);
    const [f] = pkg.functions;
    let got;
    let guest;
    const implementation = { "a:b/c": { f: (...values) => (got = values) } };
    guest = new WebAssembly.Instance(relaying([[f, { module: "a:b/c", name: "f" }]]),
      imports(pkg, "a:b/w", implementation, { guest: () => guest }));
    const values = all.map((it, k) => decodedText(it.value(), f.parameters[k].type));
    assert.deepEqual(lift(pkg, f, { callee: guest })(...values), values);
    assert.deepEqual(got, values);
    pkg.close();
  }
});

test("the guest's memory grows for arguments and results", () => {
  const made = shop({ next: ({ refused }) => ({ refused: refused + refused }) });
  const before = made.guest.exports.memory.buffer.byteLength;
  const text = "grün ".repeat(100000);
  assert.deepEqual(made.next({ refused: text }), { refused: text + text });
  assert.ok(made.guest.exports.memory.buffer.byteLength > before + 1500000);
});

// ---- a guest is entered by one call at a time

const REFUSED = {
  name: "Trap",
  message: "trap K7 body in body: the guest runs, and is not entered again meanwhile",
  number: 7,
  kind: "body",
  step: "body",
};

test("a call of the guest while it runs is refused, and the host may go on", () => {
  const made = shop({
    next: (state) => {
      const now = lift(made.pkg, made.pkg.find(DESK, "now"), { callee: made.guest });
      for (const again of [() => made.next("open"), () => made.sum([1n]), now]) assert.throws(again, REFUSED);
      return state;
    },
    say: (text) => made.say(text.slice(1)),
    now: () => 5n,
  });
  assert.deepEqual(made.next({ refused: "once" }), { refused: "once" });
  assert.throws(() => made.say("again"), REFUSED);
  assert.equal(made.now(), 5n);
});

test("allocators don't enter the guest either", () => {
  const made = shop({ next: (state) => state });
  const grant = (instance, asked) => {
    assert.throws(() => made.tick(), REFUSED);
    return granted(instance, asked);
  };
  const next = lift(made.pkg, made.pkg.find(DESK, "next"), { callee: made.guest, grant });
  assert.deepEqual(next({ refused: "granted" }), { refused: "granted" });
});

test("arguments may come of calls", () => {
  const made = shop({ next: (state) => state });
  const value = { get refused() { return made.next({ refused: "inner" }).refused; } };
  assert.deepEqual(made.next(value), { refused: "inner" });
});

test("two guests call each other through the host", () => {
  const inner = shop({ next: ({ refused }) => ({ refused: refused.toUpperCase() }) });
  const outer = shop({ next: (state) => inner.next(state) });
  assert.deepEqual(outer.next({ refused: "both" }), { refused: "BOTH" });
});

// ---- wrong values

test("what JavaScript answers is tested", () => {
  const numberOf = (functions, call) => {
    try {
      call(shop(functions));
    } catch (error) {
      assert.ok(error instanceof WitError, error);
      return error.number;
    }
  };
  for (const answer of [undefined, 1, -1n, 2n ** 64n, "1", Promise.resolve(1n)]) {
    assert.equal(numberOf({ now: () => answer }, (it) => it.now()), answer === 1 ? undefined : 62);
  }
  for (const answer of [undefined, "shut", { paid: 1n, refused: "" }, { paid: "1" }, { open: 1 }]) {
    assert.equal(numberOf({ next: () => answer }, (it) => it.next("open")), 62);
  }
  assert.equal(numberOf({ next: () => ({ refused: "\ud800" }) }, (it) => it.next("open")), 62);
});

test("what is thrown goes through the guest", () => {
  const error = new Error("of the host");
  const thrower = (thrown) => () => {
    throw thrown;
  };
  assert.throws(() => shop({ tick: thrower(error) }).tick(), (it) => it === error);
  const stopped = new WebAssembly.RuntimeError("unreachable");
  assert.throws(() => shop({ tick: thrower(stopped) }).tick(), { message: "trap K7 body in body", cause: stopped });
});

test("values of the guest that are none end in traps with their steps", () => {
  const made = shop({});
  const { memory } = made.guest.exports;
  const stops = () => {
    throw new WebAssembly.RuntimeError("unreachable");
  };
  const names = made.pkg.functions.filter((it) => it.interface === HOST).map((it) => it.name);
  const functions = Object.fromEntries(names.map((name) => [name, () => undefined]));
  const implementation = { [HOST]: { ...functions, next: () => ({ refused: "longer" }) }, ask: () => "" };
  const full = { exports: { memory, cabi_realloc: stops } };
  const host = imports(made.pkg, WORLD, implementation, { guest: () => full })[HOST];
  const trap = (message, number, kind, step) => (error) => {
    assert.ok(error instanceof Trap, error);
    assert.deepEqual([error.message, error.number, error.kind, error.step], [message, number, kind, step]);
    return true;
  };
  const end = memory.buffer.byteLength;
  assert.throws(() => host.say(end, 1), trap("trap K4 bounds in lift-args", 4, "bounds", "lift-args"));
  new Uint8Array(memory.buffer).set([0xc0, 0x80], 100);
  assert.throws(() => host.say(100, 2), trap("trap K5 utf8 in lift-args", 5, "utf8", "lift-args"));
  assert.throws(() => host.sum(4, 1), trap("trap K3 align in lift-args", 3, "align", "lift-args"));
  assert.throws(() => host.next(3, 0n, 0, 64), trap("trap K2 case in lift-args", 2, "case", "lift-args"));
  assert.throws(() => host.next(0, 0n, 0, 66), trap("trap K3 align in place", 3, "align", "place"));
  assert.throws(() => host.next(0, 0n, 0, 64), trap("trap K6 full in place", 6, "full", "place"));
});

test("a limit bounds both ways", () => {
  const numberOf = (limit, refused) => {
    try {
      return shop({ next: () => ({ refused: "x".repeat(8) }) }, { limit }).next({ refused }).refused.length;
    } catch (error) {
      return error.number;
    }
  };
  assert.equal(numberOf(8, "x"), 8);
  assert.equal(numberOf(7, "x"), 76);
  assert.equal(numberOf(8, "x".repeat(8)), 8);
  assert.equal(numberOf(8, "x".repeat(9)), 76);
});

test("what the implementation, the package or the guest lacks is told", () => {
  const pkg = witcall.open(SHOP);
  const guest = () => undefined;
  assert.throws(() => imports(pkg, WORLD, {}, { guest }), { name: "TypeError", message: /no function demo:shop\/host@1.2.0#/ });
  assert.throws(() => imports(pkg, "demo:shop/shop", {}, { guest }), { message: "the package has no world demo:shop/shop" });
  assert.deepEqual(Object.keys(imports(pkg, "demo:shop/other@1.2.0", {}, { guest })), []);
  const text = "package a:b; interface c { f: func(s: string); } world w { import c; }";
  const object = imports(witcall.open(text), "a:b/w", { "a:b/c": { f: () => 0 } }, { guest });
  assert.throws(() => object["a:b/c"].f(0, 0), { message: "the guest calls its imports before it is instantiated" });
  assert.throws(() => imports(pkg, "demo:shop/other@1.2.0", {}, { guest, limit: -1 }), RangeError);
});

test("interfaces of other packages, and names that are words of WIT", () => {
  const texts = [
    "package my:types@0.1.0; interface %record { record %list { %string: string } get: func(%type: u8) -> %list; }",
    "package a:b; world %world { import my:types/%record@0.1.0; import %func: func(%use: char) -> char; }",
  ];
  const pkg = witcall.open(texts);
  let guest;
  const object = imports(pkg, "a:b/world", {
    "my:types/record@0.1.0": { get: (type) => ({ string: `type ${type}` }) },
    func: (use) => use.toUpperCase(),
  }, { guest: () => guest });
  const get = pkg.find("my:types/record@0.1.0", "get");
  const func = pkg.findImport("a:b/world", "func");
  guest = new WebAssembly.Instance(relaying([[get, { module: get.interface, name: "get" }], [func, { module: "$root", name: "func" }]]), object);
  assert.deepEqual(lift(pkg, get, { callee: guest })(7), { string: "type 7" });
  assert.equal(lift(pkg, func, { callee: guest })("ö"), "Ö");
});

test("imports go on after the engine stopped the module", () => {
  const made = shop({ next: (state) => state });
  const { core } = made.pkg.place;
  assert.throws(() => core.call("witcall_line", 0xfffffff0, 0, 0), ModuleFault);
  assert.deepEqual(made.next({ refused: "after" }), { refused: "after" });
  assert.notEqual(made.pkg.place.core, core);
  const stop = shop({
    next: (state) => {
      assert.throws(() => stop.pkg.place.core.call("witcall_line", 0xfffffff0, 0, 0), ModuleFault);
      return state;
    },
  });
  assert.deepEqual(stop.next({ refused: "within" }), { refused: "within" });
});

test("many guests leave no memory behind in the module", () => {
  const opened = () => {
    const { pkg, next } = shop({ next: (state) => state });
    next("open");
    const guest = () => undefined;
    const functions = Object.fromEntries(pkg.functions.map((it) => [it.name, () => 0]));
    for (let count = 0; count < 5; count++) imports(pkg, WORLD, { [HOST]: functions, ask: () => "" }, { guest });
    pkg.close();
  };
  opened();
  const before = witcall.core.bytes.length;
  for (let count = 0; count < 30; count++) opened();
  assert.equal(witcall.core.bytes.length, before);
});
