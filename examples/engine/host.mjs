// Two pairs of components in one engine. In each the one imports functions that the other exports, and the library carries the values
// between their two memories.
//
// usage: node host.mjs BUILD      BUILD is the folder of witcall.node and of the modules
import { readFileSync } from "node:fs";
import { createRequire } from "node:module";
import { resolve } from "node:path";
import { GREATEST_MEMORY, Link, bytesOf, granted } from "./link.mjs";

const [build] = process.argv.slice(2);
const library = createRequire(import.meta.url)(resolve(build, "witcall.node"));
const read = (path) => readFileSync(new URL(path, import.meta.url));
const moduleOf = (name) => new WebAssembly.Module(readFileSync(resolve(build, `${name}.wasm`)));
const pagesOf = (instance) => instance.exports.memory.buffer.byteLength / 65536;

const linkTo = (callee, opened) => new Link(library, opened, new WebAssembly.Instance(moduleOf(callee)));

function connect(link, caller) {
  const texts = new TextDecoder();
  const say = (at, len) => console.log(`caller: ${texts.decode(bytesOf(link.caller).subarray(at, at + len))}`);
  link.connect(moduleOf(caller), { host: { say } });
}

// Grants blocks, and says which, and whether the memory grew.
function grantAloud(name, instance, asked) {
  const before = bytesOf(instance);
  const pages = pagesOf(instance);
  const blocks = granted(instance, asked);
  console.log(`${name}: blocks of ${blocks.map((block) => block.size).join(", ")} bytes`);
  if (pagesOf(instance) > pages) {
    console.log(`${name}: its memory grew, ${pages} -> ${pagesOf(instance)} pages; the view from before has ${before.length} bytes`);
  }
  return blocks;
}

// A package alone, and a callee whose memory grows.
function print() {
  const opened = library.open(read("press.wit"));
  const link = linkTo("callee", opened);
  link.grant = (instance, asked) => grantAloud(instance === link.callee ? "callee" : "caller", instance, asked);
  connect(link, "caller");
  link.caller.exports.run();
  library.close(opened);
}

// In each step of a call (docs/ERRORS.md) a component goes wrong. The row of crates/vectors has the trap that Link::call answers then.
const FAULTS = [
  { step: 2, who: "caller", row: "traps: arguments, no UTF-8" },
  { step: 3, who: "callee", row: "traps: arguments, no block of a list" },
  { step: 4, who: "callee", row: "traps: the body stops behind what it wrote" },
  { step: 5, who: "callee", row: "traps: results, a case" },
  { step: 6, who: "caller", row: "traps: results, no block" },
  { step: 7, who: "callee", row: "traps: the post-return stops" },
];

// The trap of a stored call.
function storedTrap(row) {
  const [calls, answers] = ["stdin", "stdout"].map((name) => read(`../../crates/vectors/${name}`).toString().split("\n"));
  return JSON.parse(answers[calls.findIndex((call) => call && JSON.parse(call).name === row)]).outcome.trap;
}

function trapOf(link) {
  try {
    link.caller.exports.run();
    return "no trap";
  } catch (error) {
    return error.message;
  }
}

// A set of packages: functions of two of them, and a call for each fault. What trapped isn't run again.
function readDiary() {
  const inputs = ["clocks", "random", "cli", "app"].map((name) => read(`../wasi/${name}.wit`));
  const opened = library.openSet(Buffer.concat(inputs), inputs.map((input) => input.length));
  const well = linkTo("notes", opened);
  connect(well, "diary");
  well.caller.exports.run();
  for (const { step, who, row } of FAULTS) {
    const link = linkTo("notes", opened);
    connect(link, "diary");
    link[who].exports.go_wrong_in(step);
    const trap = trapOf(link);
    console.log(`${who}: ${trap}, ${trap === storedTrap(row) ? "as" : "other than"} Link::call answers to "${row}"`);
  }
  library.close(opened);
}

// 512 bytes of a stranger: lists of 6 levels whose elements all lie at one address, and so ask for a billion blocks.
function askForMuch() {
  const opened = library.open(Buffer.from(`package a:b; interface c { f: func(x: ${"list<".repeat(6)}u8${">".repeat(6)}); }`));
  const func = library.find(opened, "a:b/c", "f");
  const memory = new Uint8Array(Uint32Array.from({ length: 128 }, (_, place) => (place % 2) * 64).buffer);
  try {
    library.enterRequests(opened, func, [0, 64], memory, GREATEST_MEMORY);
  } catch (error) {
    console.log(`stranger: ${error.message}`);
  }
  library.close(opened);
}

print();
readDiary();
askForMuch();
