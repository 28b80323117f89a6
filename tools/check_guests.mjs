// Checks the headers that `wit-explain bind guest` writes, of random worlds and of some with names that are hard for C.
//
// usage: node tools/check_guests.mjs WIT-EXPLAIN [N [SEED]]      N random worlds, 50 if it is not given
//
// A world imports and exports the same functions. Over its header a guest in C hands what it is called with to the import
// of the same name, and gives what that answers. clang compiles it as C11 and as C++17, with all warnings as errors, and
// with short names. The guest is run behind bindings/js: the host has to get each argument as it passed it, and the result
// as it answered it. If rustc has its linker of components, that has to make a component of the guest. The exit status is
// 1 if one of these fails. The gate does not run it.
import assert from "node:assert/strict";
import { execFileSync } from "node:child_process";
import { mkdtempSync, readFileSync, rmSync, writeFileSync } from "node:fs";
import { tmpdir } from "node:os";
import { join } from "node:path";
import { imports, lift } from "../bindings/js/index.js";
import { decodedText } from "../bindings/js/lib/values.js";
import { Random, randomType } from "../bindings/js/tests/random.js";
import { loaded } from "../bindings/js/tests/support.js";

const STRICT = ["--target=wasm32", "-O2", "-Wall", "-Wextra", "-Werror", "-pedantic", "-mbulk-memory"];
const CALLS = 5;
const WORLD = "a:b/w@1.0.0";
const INTERFACE = "a:b/c@1.0.0";
// names that become one in C, that C has, or that the header has inside
const HARD = [
  `record d-e { x: u8, y: u16 } variant v { b-c(u8), %string(string) } variant v-b { c(u8) } record f-parameters { z: u32 }
   f: func(x: d-e, y: v) -> v-b; f-import: func(flats: u8, value: s64, back: string, in-flats: bool) -> s64;
   exports-f: func(wit-put: u8, uint32-t: u32, wit-string: string, a: string) -> list<string>;`,
  `record %null { %char: u8, INT-MAX: u8, errno: u16, %record: list<u8> } flags true { EOF, stdin } enum false { %union, virtual }
   f: func(%list: %null, return: true) -> false; %default: func(int: u8) -> tuple<u8>; memory: func() -> bool; main: func();`,
];

const [program, count = "50", seed = "1"] = process.argv.slice(2);
const witcall = await loaded();
const room = mkdtempSync(join(tmpdir(), "guests-"));
const file = (name) => join(room, name);
const piped = { encoding: "utf8", maxBuffer: 1 << 26, stdio: ["ignore", "pipe", "pipe"] };
const run = (...words) => execFileSync(words[0], words.slice(1), piped);

/** rustc's linker of components, if it is there. */
function linker() {
  try {
    return run("find", join(run("rustc", "--print", "sysroot").trim(), "lib/rustlib"), "-name", "wasm-component-ld").split("\n")[0];
  } catch {
    return "";
  }
}

/** The items of a random interface, and a maker of arguments and of a result for each of its functions. */
function randomItems(random) {
  const declared = [];
  const functions = Array.from({ length: 4 }, (_, k) => {
    const parameters = random.list(random.of([2, 5, 20]), () => randomType(random, random.below(4), declared));
    const result = random.below(4) ? randomType(random, random.below(4), declared) : undefined;
    const given = parameters.map((it, index) => `x${index}: ${it.type}`);
    return { text: `f${k}: func(${given})${result ? ` -> ${result.type}` : ""};`, parameters, result };
  });
  return { items: [...declared, ...functions.map((it) => it.text)].join("\n"), functions };
}

/** Functions of the world itself, which has no types. */
const OWN = "ask: func(x: u64, y: list<string>) -> option<s8>";

const textOf = (items) =>
  `package a:b@1.0.0;\ninterface c {\n${items}\n}\nworld w {\nimport c;\nimport ${OWN};\nexport c;\nexport ${OWN};\n}\n`;

/** A guest that hands on all calls. */
function relaying(header) {
  const bodies = [...header.matchAll(/^(\w.*) exports_(\w+)\((.*)\);$/gm)].map(([, type, name, parameters]) => {
    const call = `${name}(${[...parameters.matchAll(/(in_\w+)(?:,|$)/g)].map((it) => it[1]).join(", ")})`;
    return `${type} exports_${name}(${parameters}) {\n    ${type === "void" ? "" : "return "}${call};\n}\n`;
  });
  return `#define WIT_IMPLEMENTATION\n#define WIT_SHORT_NAMES\n#include "w.h"\n${bodies.join("\n")}`;
}

/** Compiles the guest of a world, in each dialect. */
function built(text, component) {
  writeFileSync(file("w.wit"), text);
  const header = run(program, "bind", "guest", file("w.wit"));
  writeFileSync(file("w.h"), header);
  writeFileSync(file("guest.c"), relaying(header));
  run(program, "encode", "--world", "w", "-o", file("world.wasm"), file("w.wit"));
  writeFileSync(file("world.s"), `.section ".custom_section.component-type:w","",@\n.incbin "${file("world.wasm")}"\n`);
  run("clang", "--target=wasm32", "-c", "-o", file("world.o"), file("world.s"));
  for (const dialect of [["-x", "c++", "-std=c++17"], ["-x", "c", "-std=c11"]]) {
    run("clang", ...STRICT, ...dialect, "-c", "-o", file("guest.o"), file("guest.c"));
    run("wasm-ld", "--no-entry", "-o", file(`${dialect[1]}.wasm`), file("guest.o"), file("world.o"));
    const linked = ["--wasi-adapter", "none", "--no-entry", "-o", file("made.wasm"), file("guest.o"), file("world.o")];
    if (component) run(component, "--wasm-ld-path", run("which", "wasm-ld").trim(), ...linked);
  }
  return ["c", "c++"].map((name) => readFileSync(file(`${name}.wasm`)));
}

/** Calls each function of a guest that hands on, with random arguments and results. How many calls it made. */
function call(pkg, bytes, functions) {
  let expected;
  let guest;
  const host = (...values) => {
    assert.deepEqual(values, expected.values);
    return expected.result;
  };
  const all = pkg.functions.filter((it) => it.interface === INTERFACE);
  const served = { [INTERFACE]: Object.fromEntries(all.map((it) => [it.name, host])), ask: host };
  guest = new WebAssembly.Instance(new WebAssembly.Module(bytes), imports(pkg, WORLD, served, { guest: () => guest }));
  const value = (maker, type) => decodedText(maker.value(), type);
  for (const [k, made] of functions.entries()) {
    const func = all.find((it) => it.name === `f${k}`);
    const body = lift(pkg, func, { callee: guest });
    for (let times = 0; times < CALLS; times++) {
      const values = made.parameters.map((it, index) => value(it, func.parameters[index].type));
      expected = { values, result: made.result && value(made.result, func.result.type) };
      assert.deepEqual(body(...values), expected.result);
    }
  }
  expected = { values: [2n ** 63n, ["a", "ß", ""]], result: -1 };
  assert.equal(lift(pkg, pkg.findExport(WORLD, "ask"), { callee: guest })(...expected.values), -1);
  return functions.length * CALLS + 1;
}

const component = linker();
if (!component) console.log("LEFT OUT: no components are made, since rustc has no wasm-component-ld here");
const random = new Random(Number(seed));
let [calls, faults] = [0, 0];
for (let number = 0; number < Number(count) + HARD.length; number++) {
  const { items, functions } = number < HARD.length ? { items: HARD[number], functions: [] } : randomItems(random);
  const text = textOf(items);
  try {
    const pkg = witcall.open(text);
    for (const bytes of built(text, component)) calls += call(pkg, bytes, functions);
    pkg.close();
  } catch (error) {
    faults++;
    console.log(`world ${number} of seed ${seed}: ${error.stderr || error.stack}\n${text}`);
  }
}
rmSync(room, { recursive: true });
console.log(`${Number(count) + HARD.length} headers for guests, ${calls} calls: ${faults} faults`);
process.exitCode = faults ? 1 : 0;
