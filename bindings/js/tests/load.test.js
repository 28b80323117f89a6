import assert from "node:assert/strict";
import { spawnSync } from "node:child_process";
import { cpSync, existsSync, mkdirSync, rmSync, writeFileSync } from "node:fs";
import { createServer } from "node:http";
import { join } from "node:path";
import { test } from "node:test";
import { pathToFileURL } from "node:url";
import { setFlagsFromString } from "node:v8";
import { runInNewContext } from "node:vm";
import { gzipSync } from "node:zlib";
import { ModuleFault, load } from "../index.js";
import { checkoutIn, fileOf, folderFor, moduleBytes as bytes } from "./support.js";

test("the module is loaded from bytes and URLs, packed or not", async (it) => {
  const folder = folderFor(it);
  const [plain, packed] = ["witcall.wasm", "witcall.wasm.gz"].map((name) => join(folder, name));
  writeFileSync(plain, bytes());
  writeFileSync(packed, gzipSync(bytes()));
  const [url, packedUrl] = [plain, packed].map((path) => pathToFileURL(path));
  const module = await WebAssembly.compile(bytes());
  for (const source of [bytes(), gzipSync(bytes()), new Uint8Array(bytes()).buffer, url, packedUrl, url.href, module]) {
    const witcall = await load(source);
    assert.match(witcall.version, /^\d+\.\d+\.\d+(\+([0-9a-f]{12}|next))?$/);
    const known = ["VERSION", "release/version"].map((name) => fileOf(name).toString().trim());
    assert.ok(known.includes(witcall.version.split("+")[0]), witcall.version);
  }
});

/** What `load` of a copy of this package says. */
const loadedBy = async (binding) => (await import(pathToFileURL(join(binding, "index.js")))).load();

test("in a checkout the module is that of the release, if there is no other", async (it) => {
  const folder = folderFor(it);
  const binding = await checkoutIn(folder);
  const { version } = await load(bytes());
  assert.equal((await loadedBy(binding)).version, version);
  writeFileSync(join(binding, "witcall.wasm"), "no module");
  await assert.rejects(loadedBy(binding), WebAssembly.CompileError);
  rmSync(join(binding, "witcall.wasm"));
  rmSync(join(folder, "release"), { recursive: true });
  await assert.rejects(loadedBy(binding), { code: "ENOENT", message: /release/ });
});

test("a package that is installed takes no module of its project", async (it) => {
  const folder = folderFor(it);
  const binding = join(folder, "node_modules/witcall");
  mkdirSync(join(folder, "node_modules"));
  cpSync(await checkoutIn(folder), binding, { recursive: true });
  await assert.rejects(loadedBy(binding), { code: "ENOENT", message: /node_modules\/witcall\/witcall\.wasm/ });
  writeFileSync(join(binding, "witcall.wasm"), bytes());
  assert.equal((await loadedBy(binding)).version, (await load(bytes())).version);
});

/** What pack.mjs does in a checkout whose package.json is of a version. */
async function packing(folder, version) {
  const binding = await checkoutIn(folder, version);
  const module = join(binding, "witcall.wasm");
  const packed = (...words) => spawnSync(process.execPath, ["pack.mjs", ...words], { cwd: binding, encoding: "utf8" });
  return { binding, packed, isThere: () => existsSync(module) };
}

test("the module of the release is packed, and removed after that", async (it) => {
  const { packed, isThere } = await packing(folderFor(it));
  assert.deepEqual([packed().stderr, isThere()], ["", true]);
  assert.deepEqual([packed("--done").status, isThere()], [0, false]);
});

test("a release of another version than the package's is not packed", async (it) => {
  const folder = folderFor(it);
  const { packed, isThere } = await packing(folder, "0.0.1");
  const version = (await load(bytes())).version.split("+")[0];
  const line = (place) => `pack.mjs: package.json is of version 0.0.1, and ${place} is ${version}\n`;
  const { status, stderr } = packed();
  assert.deepEqual([status, isThere(), stderr], [1, false, line("release/version") + line("witcall_version()")]);
  writeFileSync(join(folder, "release/version"), "0.0.1\n");
  assert.equal(packed().stderr, line("witcall_version()"));
});

test("what is no text and no bytes is no package", async () => {
  const witcall = await load(bytes());
  const isRefused = (call, message) => assert.throws(call, { name: "TypeError", message });
  for (const it of [5, null, undefined, true, {}, () => 0, 5n, Symbol("s")]) {
    const what = it === null ? "null" : typeof it;
    isRefused(() => witcall.open([it]), `a package is a text or bytes, and not ${what}`);
    isRefused(() => witcall.explain([it]), `a package is a text or bytes, and not ${what}`);
    isRefused(() => witcall.openModule(it), `a module is bytes, and not ${what}`);
    if (it !== undefined) await assert.rejects(load(it), { name: "TypeError", message: `a module is bytes, and not ${what}` });
  }
  isRefused(() => witcall.openModule("package a:b;"), "a module is bytes, and not string");
  const text = new TextEncoder().encode("package a:b; interface c { f: func(); }");
  for (const it of [text, text.buffer, new DataView(text.buffer), runInNewContext("new ArrayBuffer(3)")]) {
    if (it.byteLength > 3) witcall.open(it).close();
    else assert.throws(() => witcall.open(it), { number: 30 });
  }
});

test("a module without imports", async () => {
  const module = await WebAssembly.compile(bytes());
  assert.deepEqual(WebAssembly.Module.imports(module), []);
  const header = fileOf("include/witcall.h").toString();
  const functions = [...header.matchAll(/^(?:witcall_status|void|uint32_t) (witcall_\w+)\(/gm)];
  const names = WebAssembly.Module.exports(module).map((it) => it.name);
  assert.ok(functions.length > 20);
  assert.deepEqual(names.sort(), [...functions.map((it) => it[1]), "free", "malloc", "memory"].sort());
});

test("the module is loaded over the network, and a page that is not there has its status", async (it) => {
  const server = createServer((request, answer) => {
    answer.statusCode = request.url === "/witcall.wasm" ? 200 : 404;
    answer.end(answer.statusCode === 200 ? bytes() : "");
  });
  await new Promise((done) => server.listen(0, "127.0.0.1", done));
  it.after(() => server.close());
  const url = `http://127.0.0.1:${server.address().port}`;
  assert.equal((await load(`${url}/witcall.wasm`)).version, (await load(bytes())).version);
  await assert.rejects(load(`${url}/none`), { code: 404, message: `${url}/none: 404 Not Found` });
});

test("what is no module is refused", async () => {
  await assert.rejects(load(new Uint8Array([1, 2, 3])), WebAssembly.CompileError);
  await assert.rejects(load(new URL("file:///no/module")), { code: "ENOENT" });
  await assert.rejects(load(new Uint8Array([0, 0x61, 0x73, 0x6d, 1, 0, 0, 0])));
});

const TEXT = "package a:b;\n\ninterface c {\n  f: func(x: u32) -> u32;\n}\n";

test("packages go on after the engine stopped the module", async () => {
  const witcall = await load(bytes());
  const [pkg, closed] = [witcall.open(TEXT), witcall.open(TEXT)];
  const func = pkg.functions[0];
  const { core } = pkg.place;
  const stop = () => core.call("witcall_line", 0xfffffff0, 0, 0);
  assert.throws(stop, (error) => error instanceof ModuleFault && error.cause instanceof WebAssembly.RuntimeError);
  closed.close();
  assert.throws(() => closed.toText(), { number: 70 });
  assert.equal(pkg.toText(), TEXT);
  assert.notEqual(pkg.place.core, core);
  assert.equal(pkg.find("a:b/c", "f"), func);
  assert.equal(witcall.open(TEXT).toText(), TEXT);
});

test("packages go on after the stack of the engine was too small", async () => {
  const witcall = await load(bytes());
  const pkg = witcall.open(TEXT);
  const deep = () => {
    try {
      return deep();
    } catch {
      return pkg.toText();
    }
  };
  assert.equal(deep(), TEXT);
  assert.equal(pkg.toText(), TEXT);
});

/** Has JavaScript forget what nothing refers to, and gives it the time to say so. */
async function forgetting() {
  setFlagsFromString("--expose-gc");
  runInNewContext("gc")();
  await new Promise((done) => setTimeout(done, 10));
}

test("packages that nobody closes are freed after JavaScript forgot them", async () => {
  const witcall = await load(bytes());
  const functions = Array.from({ length: 400 }, (_, k) => `q${k}: func(x: u32) -> string;`);
  const text = `package a:b; interface c { ${functions.join(" ")} }`;
  const opened = (count) => {
    for (let k = 0; k < count; k++) witcall.open(text).find("a:b/c", "q7");
  };
  const kept = witcall.open(text);
  opened(40);
  await forgetting();
  const before = witcall.core.bytes.length;
  for (let round = 0; round < 12; round++) {
    opened(40);
    await forgetting();
  }
  assert.ok(witcall.core.bytes.length <= before, `${witcall.core.bytes.length} ${before}`);
  assert.equal(kept.find("a:b/c", "q7").name, "q7");
  const two = [witcall.open(text), witcall.open(text)];
  for (const it of two) it.close();
  await forgetting();
  assert.equal(kept.toText(), witcall.open(text).toText());
});

test("a package that is forgotten after the engine stopped its instance is none of the next one", async () => {
  const witcall = await load(bytes());
  const kept = witcall.open(TEXT);
  witcall.open(TEXT);
  const lost = witcall.core;
  assert.throws(() => lost.call("witcall_line", 0xfffffff0, 0, 0), ModuleFault);
  assert.equal(kept.toText(), TEXT);
  await forgetting();
  assert.notEqual(kept.place.core, lost);
  assert.equal(kept.toText(), TEXT);
});

test("types of the greatest depth are opened, and their values carried", async () => {
  const { Half } = await import("../lib/half.js");
  const witcall = await load(bytes());
  const levels = 63;
  const type = `${"list<".repeat(levels)}u8${">".repeat(levels)}`;
  const pkg = witcall.open(`package a:b; interface c { f: func(x: ${type}); }`);
  assert.ok(pkg.toText().includes(type));
  assert.equal(witcall.open(pkg.toBinary()).toText(), pkg.toText());
  // Each list has one element, which is the next list; the innermost one is empty.
  const words = Uint32Array.from({ length: 2 * levels }, (_, k) => (k % 2 ? 1 : 4 * k + 8));
  const from = { bytes: new Uint8Array(words.buffer) };
  from.bytes.fill(0, 8 * (levels - 2));
  const to = {
    bytes: new Uint8Array(65536),
    grant: (asked) => asked.map((it, place) => ({ ...it, at: 8 * place })),
  };
  const half = new Half(pkg, pkg.find("a:b/c", "f"), "witcall_enter", 65536);
  assert.deepEqual(half.carry([[0, 1]], from, to), [0, 1]);
  const nested = `${"result<".repeat(63)}u8${">".repeat(63)}`;
  assert.equal(witcall.open(`package a:b; interface c { type t = ${nested}; }`).types.length, 63);
});

test("a package is described", async () => {
  const witcall = await load(bytes());
  const world = "world w { import c; export g: func(); }";
  const text = `package a:b@1.0.0; interface c { f: func(x: list<u8>) -> u64; } ${world}`;
  const list = { kind: "list", name: null, owner: null, size: 8, align: 4, flat: ["i32", "i32"], type: "u8" };
  const flat = { parameters: ["i32", "i32"], results: ["i64"] };
  const none = { parameters: [], results: [] };
  const f = {
    kind: "function",
    name: "f",
    owner: { interface: 0 },
    parameters: [{ name: "x", type: 0, size: 8, align: 4, offset: 0 }],
    result: { type: "u64", size: 8, align: 8 },
    record: null,
    area: null,
    export: flat,
    import: flat,
  };
  const g = { ...f, name: "g", owner: { world: 0 }, parameters: [], result: null, export: none, import: none };
  assert.deepEqual(witcall.open(text).describe(), {
    packages: ["a:b@1.0.0"],
    interfaces: [{ name: "a:b/c@1.0.0", package: 0, uses: [], types: [], functions: [1] }],
    worlds: [{ name: "a:b/w@1.0.0", package: 0, imports: [{ interface: 0 }], exports: [{ function: 2 }] }],
    rows: [list, f, g],
  });
});
