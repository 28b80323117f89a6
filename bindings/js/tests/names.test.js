// Names that a guest chooses, and that JavaScript has for something: what its objects inherit is not handed to a guest.
import assert from "node:assert/strict";
import { test } from "node:test";
import { imports, instantiate, lift, link } from "../index.js";
import { given } from "../lib/own.js";
import { FREEZING, callee, relaying, stranger } from "./guests.js";
import { fileOf, loaded } from "./support.js";

const witcall = await loaded();

/** The names that each object has, and each function. */
const BUILT_IN = [...new Set([Object.prototype, Function.prototype, Object].flatMap(Object.getOwnPropertyNames))];
const NUMBERS = "package t:t; interface i { f: func(x: u32) -> u32; }";
const PLUS_ONE = { exports: { "t:t/i#f": (x) => x + 1, cabi_realloc: () => 0 } };
const ECHO = fileOf("tests/explain/files/modules/echo.wasm");
const [HOST, WORLD] = ["host", "guest"].map((name) => `demo:echo/${name}@1.0.0`);
const SERVED = { [HOST]: { upper: (text) => text.toUpperCase() }, ask: (x) => x + 1 };

/** The world of a module, as the custom sections that carry it. */
function worldOf(bytes) {
  const name = "component-type:guest";
  const sections = WebAssembly.Module.customSections(new WebAssembly.Module(bytes), name);
  assert.equal(sections.length, 1);
  return sections.map((content) => [name, content]);
}

const nothing = (module, name) => ({ module, name, parameters: [], results: [] });

/** Asserts that the host's `Object.prototype` is as it was. */
function untouched() {
  assert.equal(Object.isFrozen(Object.prototype), false);
  const object = {};
  object.toString = () => "own";
  assert.equal(String(object), "own");
}

// ---- a stranger's modules

test("a linked module does not get the built-in functions, and so freezes nothing", () => {
  const go = { name: "go", parameters: [], results: [], code: FREEZING.code };
  const caller = new WebAssembly.Module(stranger(FREEZING.asked, [go]));
  const pkg = witcall.open(NUMBERS);
  for (const others of [undefined, {}, { host: {} }]) {
    assert.throws(() => link(pkg, { caller, callee: PLUS_ONE, imports: others }).exports.go(), { number: 63 });
    untouched();
  }
});

test("a module with its world does not get the built-in functions, and so freezes nothing", async () => {
  const go = { name: "_initialize", parameters: [], results: [], code: FREEZING.code };
  const bytes = stranger(FREEZING.asked, [go], worldOf(ECHO));
  for (const options of [undefined, { imports: {} }, { imports: { constructor: {} } }]) {
    await assert.rejects(instantiate(witcall, bytes, SERVED, options), /Import #0/);
    untouched();
  }
});

test("a linked module gets none of the names that objects and functions inherit", () => {
  const pkg = witcall.open(NUMBERS);
  const refused = (module, name) => {
    const caller = new WebAssembly.Module(stranger([nothing(module, name)], []));
    const others = { host: { say: () => undefined }, made: class {}, say: () => undefined };
    assert.throws(() => link(pkg, { caller, callee: PLUS_ONE, imports: others }), { number: 63 }, `${module} ${name}`);
  };
  for (const module of BUILT_IN) for (const name of BUILT_IN) refused(module, name);
  for (const name of BUILT_IN) {
    refused("host", name);
    if (!["length", "name", "prototype"].includes(name)) for (const module of ["made", "say"]) refused(module, name);
  }
});

test("a module with its world gets none of them either", async () => {
  const section = worldOf(ECHO);
  const refused = (module, name) => {
    const bytes = stranger([nothing(module, name)], [], section);
    const made = instantiate(witcall, bytes, SERVED, { imports: { host: {} } });
    return assert.rejects(made, /Import #0/, `${module} ${name}`);
  };
  for (const name of BUILT_IN) {
    for (const module of [name, "constructor", "__proto__", "host", HOST, "$root"]) await refused(module, name);
  }
});

test("an import object inherits nothing, and takes what else is imported without a prototype", () => {
  const pkg = witcall.openModule(ECHO);
  const say = () => undefined;
  const others = { wasi: { say }, $root: { ask: say, more: say }, constructor: { freeze: say } };
  const object = imports(pkg, WORLD, SERVED, { guest: () => undefined, imports: others });
  assert.deepEqual(Object.keys(object).sort(), ["$root", "constructor", HOST, "wasi"].sort());
  for (const it of [object, ...Object.values(object)]) assert.equal(Object.getPrototypeOf(it), null);
  assert.deepEqual([object.wasi.say, object.$root.more, object.constructor.freeze], [say, say, say]);
  assert.notEqual(object.$root.ask, say);
  assert.deepEqual([others.$root.ask, Object.keys(others.wasi)], [say, ["say"]]);
  pkg.close();
});

test("modules that are named as what objects inherit get what is handed in for them", async () => {
  const seen = [];
  const others = JSON.parse('{ "__proto__": { "__proto__": 0 }, "constructor": { "constructor": 0 } }');
  for (const name of Object.keys(others)) others[name][name] = () => seen.push(name);
  const asked = Object.keys(others).map((name) => nothing(name, name));
  const run = { name: "_initialize", parameters: [], results: [], code: [0x10, 0, 0x10, 1] };
  const names = ["demo:echo/echo@1.0.0#upper", "tell"];
  const exported = names.map((name) => ({ name, parameters: [], results: [], code: [] }));
  await instantiate(witcall, stranger(asked, [run, ...exported], worldOf(ECHO)), SERVED, { imports: others });
  const caller = new WebAssembly.Module(stranger(asked, [run]));
  link(witcall.open(NUMBERS), { caller, callee: PLUS_ONE, imports: others }).exports._initialize();
  assert.deepEqual(seen, ["__proto__", "constructor", "__proto__", "constructor"]);
});

// ---- names of a package

/** Names of WIT that JavaScript has for something, or that look so. */
const NAMES = ["constructor", "apply", "bind", "call", "name", "length", "prototype", "arguments", "caller", "then",
  "to-string", "value-of", "has-own-property", "is-prototype-of", "to-json"];
const NAMED = `package a:b;
interface %constructor {
  record r { ${NAMES.map((it) => `%${it}: u8`).join(", ")} }
  variant v { ${NAMES.map((it) => `%${it}(u8)`).join(", ")} }
  enum e { ${NAMES.map((it) => `%${it}`).join(", ")} }
  flags f { ${NAMES.map((it) => `%${it}`).join(", ")} }
  ${NAMES.map((it) => `%${it}: func(r: r, v: v, e: e, f: f) -> tuple<r, v, e, f>;`).join("\n  ")}
}
world %prototype { import %constructor; ${NAMES.map((it) => `import %${it}: func() -> u32;`).join(" ")} }`;
const OWNER = "a:b/constructor";

/** The package, and a guest whose exports ask its imports, which are of this implementation. */
function named(implementation) {
  const pkg = witcall.open(NAMED);
  const [world] = pkg.worlds;
  let guest;
  const object = imports(pkg, world.name, implementation, { guest: () => guest });
  const pairs = world.imports.map((it) => [it, { module: it.interface ?? "$root", name: it.name }]);
  guest = new WebAssembly.Instance(relaying(pairs), object);
  return { pkg, guest, functions: world.imports };
}

const forAll = (make) => Object.fromEntries(NAMES.map((it, place) => [it, make(it, place)]));

test("functions, fields and cases may have these names", () => {
  const places = forAll((_, place) => () => place);
  const { pkg, guest, functions } = named({ [OWNER]: forAll(() => (...values) => values), ...places });
  assert.equal(functions.length, 2 * NAMES.length);
  const record = forAll((_, place) => place);
  for (const func of functions) {
    const call = lift(pkg, func, { callee: guest });
    const place = NAMES.indexOf(func.name);
    if (func.world) assert.equal(call(), place);
    else {
      const values = [record, { [func.name]: place }, func.name, NAMES.slice(place)];
      assert.deepEqual(call(...values), values);
      const one = pkg.find(OWNER, func.name);
      assert.equal(one, func);
    }
  }
  pkg.close();
});

test("a field that a record lacks is not one that it inherits", () => {
  const { pkg, guest } = named({ [OWNER]: forAll(() => (...values) => values), ...forAll(() => () => 0) });
  const call = lift(pkg, pkg.find(OWNER, "call"), { callee: guest });
  const { constructor: _, ...less } = forAll(() => 1);
  assert.throws(() => call(less, { call: 1 }, "call", []), { number: 62, path: "[0]" });
  assert.throws(() => call(Object.create(forAll(() => 1)), { call: 1 }, "call", []), { number: 62, path: "[0]" });
  assert.throws(() => call(forAll(() => 1), {}, "call", []), { number: 62, path: "[1]" });
  assert.throws(() => call(forAll(() => 1), { call: 1 }, Object, []), { number: 62, path: "[2]" });
  pkg.close();
});

test("an implementation that lacks a function does not inherit it", () => {
  for (const name of NAMES) {
    const all = { [OWNER]: forAll(() => () => 0), ...forAll(() => () => 0) };
    const { [name]: _, ...lessOwn } = all;
    const { [name]: __, ...less } = all[OWNER];
    const message = (of) => ({ name: "TypeError", message: `the implementation has no function ${of}${name}` });
    assert.throws(() => named(lessOwn), message(""));
    assert.throws(() => named({ ...all, [OWNER]: less }), message(`${OWNER}#`));
    const func = Object.defineProperties(() => 0, Object.getOwnPropertyDescriptors(less));
    assert.throws(() => named({ ...all, [OWNER]: func }), message(`${OWNER}#`));
    assert.throws(() => named(Object.assign(Object.create({ [name]: () => 0 }), lessOwn)), message(""));
  }
});

test("exports that a callee lacks are not those that it inherits", () => {
  const pkg = witcall.open(NAMED);
  const callees = [callee(1, {}), { exports: () => undefined }, { exports: class {} }, { exports: [] }];
  for (const func of pkg.worlds[0].imports) {
    for (const it of callees) {
      assert.throws(() => lift(pkg, func, { callee: it }), /^TypeError: the callee exports no function/);
    }
  }
  const other = witcall.open("package a:b; interface c { f: func(); }");
  const inherited = Object.create({ "cabi_post_a:b/c#f": () => assert.fail("it is inherited") });
  const exports = Object.assign(inherited, { "a:b/c#f": () => undefined });
  assert.equal(lift(other, other.functions[0], { callee: { exports } })(), undefined);
});

test("exports of a guest inherit nothing", async () => {
  const { exports } = await instantiate(witcall, ECHO, SERVED);
  for (const it of [exports, exports["demo:echo/echo@1.0.0"]]) assert.equal(Object.getPrototypeOf(it), null);
});

// ---- classes

test("methods of a class are an implementation's, and its constructor and the engine's classes are not", () => {
  class Base {
    #count = 4n;
    now() { return this.#count; }
  }
  class Host extends Base {
    static bind() { return "static"; }
    [HOST] = { upper: (text) => text };
    ask(x) { return x; }
  }
  const text = `package a:b; interface c { now: func() -> u64; ask: func(x: u32) -> u32; } world w { import c; }`;
  const pkg = witcall.open(text);
  const object = imports(pkg, "a:b/w", { "a:b/c": new Host() }, { guest: () => assert.fail("no memory is needed") });
  assert.deepEqual([object["a:b/c"].now(), object["a:b/c"].ask(7)], [4n, 7]);
  assert.deepEqual([given(new Host(), "ask"), given(new Host(), "now")], [Host.prototype.ask, Base.prototype.now]);
  for (const name of ["constructor", "toString", "__proto__", "hasOwnProperty"]) {
    assert.equal(given(new Host(), name), undefined);
  }
  const others = [[new Map(), "get"], [[], "map"], [() => 0, "call"], ["text", "length"], [null, "x"],
    [Object.create({ x: 1 }), "x"]];
  for (const [it, name] of others) assert.equal(given(it, name), undefined);
  class More extends Map {
    more() { return 1; }
  }
  assert.deepEqual([given(new More(), "get"), given(new More(), "more")], [undefined, More.prototype.more]);
  assert.equal(given(Host, "bind")(), "static");
  assert.equal(given(Base, "bind"), undefined);
  function Old() {}
  Old.prototype.say = () => "old";
  assert.equal(given(new Old(), "say")(), "old");
  assert.deepEqual([given({ constructor: 1 }, "constructor"), given(new Host(), HOST).upper("x")], [1, "x"]);
  pkg.close();
});

test("a method that is replaced or taken away is looked up at each call", () => {
  const pkg = witcall.open("package a:b; interface c { %call: func() -> u32; } world w { import c; }");
  const host = { call: () => 1 };
  const object = imports(pkg, "a:b/w", { "a:b/c": host }, { guest: () => undefined });
  host.call = () => 2;
  assert.equal(object["a:b/c"].call(), 2);
  delete host.call;
  assert.throws(() => object["a:b/c"].call(), { message: "the implementation has no function a:b/c#call" });
  pkg.close();
});
