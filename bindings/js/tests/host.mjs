// The two pairs of components of examples/engine, linked by this package. What it prints is
// examples/engine/host.expected.
//
// usage: node bindings/js/tests/host.mjs BUILD      BUILD is the folder of the modules, as examples/run.sh builds them
import { readFileSync } from "node:fs";
import { resolve } from "node:path";
import { granted, link } from "../index.js";
import { forwarding } from "./guests.js";
import { fileOf, loaded } from "./support.js";

/** The greatest size of a memory: examples/run.sh links each module with it. */
const GREATEST_MEMORY = 1048576;
const PAGE = 65536;

const [build] = process.argv.slice(2);
const witcall = await loaded();
const moduleOf = (name) => new WebAssembly.Module(readFileSync(resolve(build, `${name}.wasm`)));
const instanceOf = (name) => new WebAssembly.Instance(moduleOf(name));
const bytesOf = (instance) => new Uint8Array(instance.exports.memory.buffer);

/** Links a caller that says lines with a callee. */
function connect(pkg, caller, callee, options) {
  const texts = new TextDecoder();
  const say = (at, length) => console.log(`caller: ${texts.decode(bytesOf(instance).subarray(at, at + length))}`);
  const imports = { host: { say } };
  const instance = link(pkg, { caller: moduleOf(caller), callee, imports, limit: GREATEST_MEMORY, ...options });
  return instance;
}

/** Grants blocks, and says which, and whether the memory grew. */
function grantAloud(name, instance, asked) {
  const before = bytesOf(instance);
  const pages = before.length / PAGE;
  const blocks = granted(instance, asked);
  const after = bytesOf(instance).length / PAGE;
  console.log(`${name}: blocks of ${blocks.map((block) => block.size).join(", ")} bytes`);
  if (after > pages) {
    const view = `the view from before has ${before.length} bytes`;
    console.log(`${name}: its memory grew, ${pages} -> ${after} pages; ${view}`);
  }
  return blocks;
}

/** A package alone, and a callee whose memory grows. */
function print() {
  const pkg = witcall.open(fileOf("examples/engine/press.wit"));
  const callee = instanceOf("callee");
  const grant = (instance, asked) => grantAloud(instance === callee ? "callee" : "caller", instance, asked);
  connect(pkg, "caller", callee, { grant }).exports.run();
  pkg.close();
}

// In each step of a call (docs/ERRORS.md) a component goes wrong. The row of crates/vectors has the trap that
// Link::call answers then.
const FAULTS = [
  { step: 2, who: "caller", row: "traps: arguments, no UTF-8" },
  { step: 3, who: "callee", row: "traps: arguments, no block of a list" },
  { step: 4, who: "callee", row: "traps: the body stops behind what it wrote" },
  { step: 5, who: "callee", row: "traps: results, a case" },
  { step: 6, who: "caller", row: "traps: results, no block" },
  { step: 7, who: "callee", row: "traps: the post-return stops" },
];

/** The trap of a stored call. */
function storedTrap(row) {
  const [calls, answers] = ["stdin", "stdout"].map((name) => fileOf(`crates/vectors/${name}`).toString().split("\n"));
  return JSON.parse(answers[calls.findIndex((call) => call && JSON.parse(call).name === row)]).outcome.trap;
}

function trapOf(run) {
  try {
    run();
    return "no trap";
  } catch (error) {
    return error.message;
  }
}

/** A set of packages: functions of two of them, and a call for each fault. What trapped isn't run again. */
function readDiary() {
  const pkg = witcall.open(["clocks", "random", "cli", "app"].map((name) => fileOf(`examples/wasi/${name}.wit`)));
  connect(pkg, "diary", instanceOf("notes")).exports.run();
  for (const { step, who, row } of FAULTS) {
    const callee = instanceOf("notes");
    const caller = connect(pkg, "diary", callee);
    ({ caller, callee })[who].exports.go_wrong_in(step);
    const trap = trapOf(caller.exports.run);
    console.log(`${who}: ${trap}, ${trap === storedTrap(row) ? "as" : "other than"} Link::call answers to "${row}"`);
  }
  pkg.close();
}

/**
 * 512 bytes of a stranger: lists of 6 levels whose elements all lie at one address, and so ask for a billion blocks.
 */
function askForMuch() {
  const pkg = witcall.open(`package a:b; interface c { f: func(x: ${"list<".repeat(6)}u8${">".repeat(6)}); }`);
  const callee = { exports: { memory: new WebAssembly.Memory({ initial: 1 }), "a:b/c#f": () => undefined } };
  const imports = { test: { cabi_realloc: () => 0 } };
  const caller = link(pkg, { caller: forwarding(pkg.functions, 1), callee, imports, limit: GREATEST_MEMORY });
  bytesOf(caller).set(new Uint8Array(Uint32Array.from({ length: 128 }, (_, place) => (place % 2) * 64).buffer));
  console.log(`stranger: ${trapOf(() => caller.exports.f(0, 64))}`);
  pkg.close();
}

print();
readDiary();
askForMuch();
