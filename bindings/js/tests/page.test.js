// What the page says of texts, layouts and calls. tools/page_test.py opens the page itself.
import assert from "node:assert/strict";
import { test } from "node:test";
import { decodedText } from "../lib/values.js";
import { called } from "../page/call.js";
import { EXAMPLES } from "../page/examples.js";
import { opened } from "../page/files.js";
import { ran } from "../page/guest.js";
import { placeIn } from "../page/json.js";
import { Shapes, nameOf, partsOf, sampleOf } from "../page/parts.js";
import { packagesOf, placed } from "../page/text.js";
import { Random, randomType } from "./random.js";
import { fileOf, loaded } from "./support.js";

const witcall = await loaded();

/** Where the faults are: of each the line, the column, and the characters. */
function placesOf(text) {
  const parts = packagesOf(text);
  const faults = witcall.explain(parts.map((it) => it.text)).map((it) => placed(text, parts, it));
  return faults.map(({ row, column, start, end, message }) => (row ? `${row}:${column} ${text.slice(start, end)}` : message));
}

test("a fault has its line and its characters", () => {
  const package_ = "package a:b;\n";
  assert.deepEqual(placesOf(`${package_}interface c { f: func(x: u8); }`), []);
  assert.deepEqual(placesOf(`${package_}interface c { f: func(x: size); }`), ["2:26 size"]);
  assert.deepEqual(placesOf(`${package_}// größe 🎲\ninterface c { f: fun(x: u8); }`), ["3:18 fun"]);
  assert.deepEqual(placesOf(`${package_}/* 🎲 */ interface c { f: func(x: size); }`), ["2:35 size"]);
  assert.deepEqual(placesOf(`${package_}// size\n/* size\n size */ interface c { x-size: func(x: size); }`), ["4:40 size"]);
  assert.deepEqual(placesOf(`${package_}interface c { record r { a: u8, A: u8 } }`), ["2:33 A"]);
  assert.deepEqual(placesOf(`${package_}interface c { f: func(x: u8`), ["2:28 "]);
  assert.deepEqual(placesOf(package_), ["1:9 a:b"]);
  assert.deepEqual(placesOf(`${package_}interface c { }\npackage d:e;\ninterface y { use a:b/c.{t}; }`), ["4:26 t"]);
  assert.deepEqual(placesOf(`${package_}interface c { }\npackage d:e;\ninterface y { use a:x/c.{t}; }`), ["4:19 a:x"]);
  assert.deepEqual(placesOf(`${package_}interface c { f: fun(); }\npackage d:e;\ninterface y { x: u9; }`), ["2:18 fun", "4:18 u9"]);
});

test("the examples open, but for the one with a fault", () => {
  const ends = Object.entries(EXAMPLES).map(([name, text]) => [name, placesOf(text)]);
  assert.deepEqual(ends.filter(([, end]) => end.length > 0), [["A fault", ["4:38 size"]]]);
});

test("parts of a layout are inside it, and only those of cases overlap", () => {
  for (let round = 0; round < 60; round++) {
    const declared = [];
    const { type } = randomType(new Random(round), 3, declared);
    const pkg = witcall.open(`package a:b; interface c { ${declared.join(" ")} f: func(x: ${type}); }`);
    const [x] = pkg.functions[0].parameters;
    assert.equal(nameOf(x.type).replaceAll(" ", ""), type.replaceAll(" ", ""));
    const parts = partsOf(x.type);
    let end = 0;
    for (const { from, to, isShared } of parts) {
      assert.ok(to > from && to <= x.type.size, type);
      if (!isShared) {
        assert.ok(from >= end, type);
        end = to;
      }
    }
    pkg.close();
  }
});

test("a call shows the same values in both memories", () => {
  for (let round = 0; round < 40; round++) {
    const random = new Random(1000 + round);
    const declared = [];
    const { type, value } = randomType(random, 3, declared);
    const pkg = witcall.open(`package a:b; interface c { ${declared.join(" ")} f: func(x: ${type}, y: u8) -> ${type}; }`);
    const [func] = pkg.functions;
    for (const text of [value(), JSON.stringify(sampleOf(func.result.type))]) {
      if (text.length > 4000) continue;
      const { error, result, caller, callee } = called(pkg, func, `[${text},7]`, text);
      assert.equal(error, undefined, `${type} ${text}`);
      assert.deepEqual(decodedText(result, func.result.type), decodedText(text, func.result.type));
      const values = ({ parts }) => parts.filter((it) => it.kind !== "address").map((it) => [it.path, it.kind, it.value, it.to - it.from]);
      assert.deepEqual(values(caller).slice(0, 300), values(callee).slice(0, 300));
      const used = caller.memory.blocks.reduce((sum, { size }) => sum + size, 0);
      assert.ok(caller.parts.every((it) => caller.memory.blocks.some(({ at, size }) => it.from >= at && it.to <= at + size)) || used === 0);
    }
    pkg.close();
  }
});

test("a call that is none says in which step", () => {
  const pkg = witcall.open("package a:b; interface c { f: func(x: string) -> string; }");
  const ends = [['["a"]', '"b"'], ["[1]", '"b"'], ['["a"]', "1"], ["x", '"b"']].map(([args, reply]) => {
    const { error, step, steps, field } = called(pkg, pkg.functions[0], args, reply);
    return error ? `${field}: ${error.message}: ${step}` : steps.at(-1);
  });
  assert.deepEqual(ends, [
    'Read there, it is "b", of type string.',
    "args: error 62 not this type at [0]: a `string` is a text, and not `1`: The arguments are written into the caller's memory",
    "reply: error 62 not this type at result of a:b/c#f: a `string` is a text, and not `1`: The answer is written into the callee's memory",
    "args: error 61 bad JSON: The arguments are written into the caller's memory",
  ]);
  pkg.close();
});

test("each case and each label of a layout is a row", () => {
  const pkg = witcall.open("package a:b; interface c { variant v { a, b(u64) } flags f { x, y } enum e { p, q } }");
  const row = ({ path, kind, from }) => `${path} ${kind} ${from}`;
  const rows = (name) => partsOf(pkg.types.find((it) => it.name === name)).map(row);
  assert.deepEqual(rows("v"), [" number of the case 0", "a case 0 0", "b case 1: u64 8"]);
  assert.deepEqual(rows("f"), [" f 0", "x bit 0 0", "y bit 1 0"]);
  assert.deepEqual(rows("e"), [" e 0", "p case 0 0", "q case 1 0"]);
  pkg.close();
});

test("a path is found in a text of JSON", () => {
  const text = '[ {"a": [1, {"b]": "\\"x"}], "__proto__": true, "a-b": {"c": [ ]}}, "é" ]';
  const found = (path) => {
    const place = placeIn(text, path);
    return place && text.slice(place.start, place.end);
  };
  const wanted = {
    "": text, "[0].a": '[1, {"b]": "\\"x"}]', "[0].a[0]": "1", "[0].__proto__": "true", "[0].a-b.c": "[ ]",
    "[1]": '"é"',
  };
  for (const [path, part] of Object.entries(wanted)) assert.equal(found(path), part, path);
  for (const path of ["[2]", "[0].b", "[0].a-b.c[0]", "[0].constructor"]) assert.equal(found(path), undefined, path);
  for (const broken of ["", "[", '[{"a"', "[1,", '["'] ) assert.equal(placeIn(broken, "[0].a"), undefined, broken);
});

test("a sample of a type with very many values is small, or there is none", () => {
  const within = (before, after) => `${before.repeat(40)}u8${after.repeat(40)}`;
  const twice = (k) => `type t${k} = tuple<${k > 0 ? `t${k - 1}, t${k - 1}` : "u8, u8"}>;`;
  const pkg = witcall.open(`package a:b; interface c { type lists = ${within("list<", ">")};
    ${Array.from({ length: 20 }, (_, k) => twice(k)).join(" ")} }`);
  const named = (name) => pkg.types.find((it) => it.name === name);
  assert.ok(JSON.stringify(sampleOf(named("lists"))).length < 500);
  assert.throws(() => sampleOf(named("t19")), RangeError);
  assert.ok(partsOf(named("t19")).length <= 400);
  assert.equal(typeof new Shapes().of(named("t19")), "number");
  pkg.close();
});

test("shapes are the same of the same kinds and labels, whatever the names of types", () => {
  const shapes = new Shapes();
  const shape = (types, type) => {
    const pkg = witcall.open(`package a:b; interface c { ${types} f: func(x: ${type}); }`);
    const found = shapes.ofFunction(pkg.functions[0]);
    pkg.close();
    return found;
  };
  const first = shape("record r { a: u8, b: list<string> }", "r");
  assert.equal(shape("record s { a: u8, b: list<string> } type t = s;", "t"), first);
  for (const fields of ["a: u8, c: list<string>", "b: list<string>, a: u8", "a: s8, b: list<string>", "a: u8"]) {
    assert.notEqual(shape(`record r { ${fields} }`, "r"), first, fields);
  }
});

/** A file of a browser. */
const named = (name, bytes) => ({ name, arrayBuffer: async () => bytes.slice().buffer });
const moduleOf = (name) => named(name, new Uint8Array(fileOf(`tests/explain/files/modules/${name}.wasm`)));

test("a file is a text, a binary or a module", async () => {
  const pkg = witcall.open("package a:b; interface c { f: func(); }");
  const binary = await opened(witcall, named("b", pkg.toBinary()));
  assert.deepEqual([binary.kind, binary.pkg.toText(), binary.world], ["binary", pkg.toText(), undefined]);
  assert.equal((await opened(witcall, named("t", new TextEncoder().encode("grün")))).text, "grün");
  const { kind, world, module } = await opened(witcall, moduleOf("echo"));
  assert.deepEqual([kind, world.name, module instanceof WebAssembly.Module], ["module", "demo:echo/guest@1.0.0", true]);
  const component = await opened(witcall, moduleOf("world"));
  assert.deepEqual([component.kind, component.module, typeof component.reason], ["module", undefined, "string"]);
  await assert.rejects(opened(witcall, moduleOf("none")), { number: 44, message: /^the module has no section/ });
  await assert.rejects(opened(witcall, named("n", Uint8Array.of(0xff, 0))), { name: "WitError" });
  pkg.close();
});

test("a module is called over the answers of its imports", async () => {
  const file = await opened(witcall, moduleOf("echo"));
  const answers = new Map([["demo:echo/host@1.0.0#upper", '"A"'], ["demo:echo/guest@1.0.0#ask", "4294967295"]]);
  const call = (name, args) => ran(file, file.world.exports.find((it) => it.name === name), args, answers);
  const upper = await call("upper", '["a"]');
  assert.deepEqual([upper.result, upper.error], ['"A"', undefined]);
  assert.equal(upper.steps[1], 'The module calls demo:echo/host@1.0.0#upper with ["a"], and gets "A".');
  assert.deepEqual(upper.memories.map(({ parts }) => parts.at(-1).value), ['"a"', '"A"']);
  assert.equal((await call("tell", "[1]")).result, "4294967295");
  const wrong = await call("tell", '["1"]');
  assert.deepEqual([wrong.field, wrong.error.path, wrong.result], ["args", "[0]", undefined]);
  answers.set("demo:echo/guest@1.0.0#ask", "-1");
  const other = await call("tell", "[1]");
  assert.deepEqual([other.field, other.error.number], ["demo:echo/guest@1.0.0#ask", 62]);
  file.pkg.close();
});
