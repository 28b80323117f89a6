// Guests that carry their world: they are linked with no WIT text.
import assert from "node:assert/strict";
import { test } from "node:test";
import { WitError, instantiate } from "../index.js";
import { fileOf, loaded } from "./support.js";

const witcall = await loaded();

const moduleOf = (name) => fileOf(`tests/explain/files/modules/${name}.wasm`);
const [HOST, ECHO, WORLD] = ["host", "echo", "guest"].map((name) => `demo:echo/${name}@1.0.0`);
const IMPLEMENTATION = { [HOST]: { upper: (text) => text.toUpperCase() }, ask: (x) => x + 1 };
const namesOf = (functions) => functions.map((it) => `${it.interface ?? it.world} ${it.name}`).sort();

test("a guest is linked without a text", async () => {
  const { pkg, world, exports } = await instantiate(witcall, moduleOf("echo"), IMPLEMENTATION);
  assert.equal(world.name, WORLD);
  assert.deepEqual(namesOf(world.imports), [`${WORLD} ask`, `${HOST} upper`]);
  assert.deepEqual(namesOf(world.exports), [`${ECHO} upper`, `${WORLD} tell`]);
  assert.equal(exports[ECHO].upper("two memories, grün 🙂"), "TWO MEMORIES, GRÜN 🙂");
  assert.equal(exports.tell(41), 42);
  assert.match(pkg.toText(), /^package demo:echo@1\.0\.0;\n/);
  pkg.close();
});

test("a guest is not entered again while it runs", async () => {
  const message = "trap K7 body in body: the guest runs, and is not entered again meanwhile";
  const again = { ask: (x) => exports.tell(x), [HOST]: { upper: (text) => text } };
  const { pkg, exports } = await instantiate(witcall, moduleOf("echo"), again);
  assert.throws(() => exports.tell(1), { name: "Trap", message, number: 7, step: "body" });
  assert.equal(exports[ECHO].upper("afterwards"), "afterwards");
  pkg.close();
});

test("what the world imports has to be there", async () => {
  const message = `the implementation has no function ${HOST}#upper`;
  await assert.rejects(instantiate(witcall, moduleOf("echo"), { ask: () => 0 }), { name: "TypeError", message });
});

test("components of worlds and of packages are opened too", () => {
  for (const name of ["carrying", "world", "package"]) {
    const pkg = witcall.openModule(moduleOf(name));
    assert.deepEqual(pkg.worlds.map((it) => it.name).slice(0, 1), ["demo:greet/guest@0.1.0"]);
    assert.deepEqual(pkg.find("demo:greet/greeter@0.1.0", "greet").lifted.parameters, ["i32", "i32", "i32"]);
    pkg.close();
  }
});

test("a module that carries no package is refused, and explained", () => {
  const refused = (bytes) => assert.throws(() => witcall.openModule(bytes), (error) => error instanceof WitError && error.number === 44);
  for (const name of ["none", "guest", "cut", "old"]) refused(moduleOf(name));
  refused(new TextEncoder().encode("package a:b; interface c { }"));
  refused(new Uint8Array());
  const [fault] = witcall.explain(moduleOf("none"));
  assert.deepEqual(fault, { text: 0, number: undefined, message: "the module has no section `component-type`, at byte 8" });
});

test("a fault of a package of a module has its index", () => {
  const [fault, ...others] = witcall.explain(["carrying", "package"].map(moduleOf));
  assert.deepEqual([fault.text, fault.number, fault.line, fault.column], [1, 48, 1, 9]);
  assert.deepEqual([fault.message, others], ["error 48 same package demo:greet@0.1.0", []]);
});
