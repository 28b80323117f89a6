// Measures how long a call takes in JavaScript: microseconds of processor time, the least of runs. The function takes a
// text of 20 bytes and a list of 16 numbers, and returns a text of 20 bytes. All three lie at the front of their
// memories, or at the end. The same of two numbers, and of values of JavaScript. bench/js.c makes the first two calls
// through the C library.
//
// usage: node bench/js.mjs      WITCALL_MODULE is the module's path, if it isn't that of the release
import { imports, lift, link } from "../bindings/js/index.js";
import { callee, forwarding, relaying } from "../bindings/js/tests/guests.js";
import { loaded, skip } from "../bindings/js/tests/support.js";

const RUNS = 15;
const CALLS = 500;
const PAGE = 65536;
const TEXT = new TextEncoder().encode("twenty bytes of text");
const COUNT = 16;

const witcall = await loaded();
if (!witcall) throw new Error(skip);
const pkg = witcall.open(`package a:b; interface c {
  f: func(s: string, l: list<u32>) -> string;
  g: func(a: u32, b: u64) -> u32;
}`);

/** A caller and a callee, in which values lie from these addresses on. */
function made(pages, front) {
  const place = front ? 1024 : pages * PAGE - 1024;
  const to = callee(pages, { "a:b/c#f": () => place, "a:b/c#g": (a) => a });
  let caller;
  const block = (start) => (old, oldSize, align, size) => start + (size === TEXT.length ? 0 : 512);
  to.exports.cabi_realloc = block(place + 256);
  caller = link(pkg, {
    caller: forwarding(pkg.functions, pages),
    callee: to,
    imports: { test: { cabi_realloc: block(place + 256) } },
  });
  for (const { exports } of [caller, to]) {
    new Uint8Array(exports.memory.buffer).set(TEXT, place + 32);
    new DataView(exports.memory.buffer).setUint32(place, place + 32, true);
    new DataView(exports.memory.buffer).setUint32(place + 4, TEXT.length, true);
  }
  return { place, ...caller.exports };
}

function least(run) {
  let found = Infinity;
  for (let turn = 0; turn < RUNS; turn++) {
    const began = process.cpuUsage();
    for (let call = 0; call < CALLS; call++) run();
    const { user, system } = process.cpuUsage(began);
    found = Math.min(found, (user + system) / CALLS);
  }
  return found.toFixed(1);
}

for (const pages of [1, 256, 4096]) {
  const size = `${(pages * PAGE) / 1024} KiB`;
  for (const front of [true, false]) {
    const { place, f } = made(pages, front);
    const time = least(() => f(place + 32, TEXT.length, place + 64, COUNT, place));
    console.log(`${size}, values at the ${front ? "front" : "end"}: ${time}`);
  }
  const { g } = made(pages, true);
  console.log(`${size}, two numbers: ${least(() => g(1, 2n))}`);
}

// A guest that hands on what it is called with: values of JavaScript go into it, out of it, and back again.
const own = witcall.open(`package a:b; world w { import c; }
interface c { f: func(s: string, l: list<u32>) -> string; }`);
const [func] = own.functions;
let guest;
const object = imports(own, "a:b/w", { "a:b/c": { f: (text) => text } }, { guest: () => guest, limit: 2 ** 31, grant });
guest = new WebAssembly.Instance(relaying([[func, { module: "a:b/c", name: "f" }]]), object);
const called = lift(own, func, { callee: guest, limit: 2 ** 31, grant });
const numbers = Array.from({ length: COUNT }, (_, place) => place);
console.log(`lift and imports: ${least(() => called("twenty bytes of text", numbers))}`);

/** Grants the same blocks again and again. */
function grant(instance, asked) {
  return asked.map(({ align, size }, place) => ({ align, size, at: 4096 * (place + 1) }));
}
