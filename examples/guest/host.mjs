// Calls the guest of guest.c with values of JavaScript, by bindings/js. What it prints is guest.expected.
//
// usage: node examples/guest/host.mjs GUEST.wasm      WITCALL_MODULE may name another module than that of the release
import { readFileSync } from "node:fs";
import { imports, lift, load } from "../../bindings/js/index.js";

const WORLD = "demo:guest/club@0.1.0";
const JOURNAL = "demo:guest/journal@0.1.0";
const ROSTER = "demo:guest/roster@0.1.0";
const MEMBERS = [
  { name: "Ada", visits: 12 },
  { name: "Blaise", visits: 1 },
  { name: "Çelebi", visits: 7 },
];
const CALLS = 10000;

const fileOf = (path) => readFileSync(new URL(path, import.meta.url));
const witcall = await load(process.env.WITCALL_MODULE ? readFileSync(process.env.WITCALL_MODULE) : fileOf("../../release/witcall.wasm.gz"));
const pkg = witcall.open(fileOf("guest.wit"));
let guest;
let isLoud = true;
let written = 0;

/** What the guest imports. */
const host = {
  [JOURNAL]: {
    write(entry) {
      if (isLoud) console.log("journal:", JSON.stringify(entry));
      return entry.said === "nobody" ? { error: "no entry of nobody" } : { ok: ++written };
    },
  },
  today: () => "Monday",
};
const bytes = readFileSync(process.argv[2]);
guest = new WebAssembly.Instance(new WebAssembly.Module(bytes), imports(pkg, WORLD, host, { guest: () => guest }));
const regulars = lift(pkg, pkg.find(ROSTER, "regulars"), { callee: guest });
const entries = lift(pkg, pkg.findExport(WORLD, "entries"), { callee: guest });

console.log("regulars:", JSON.stringify(regulars(MEMBERS, 7)));
console.log("regulars:", JSON.stringify(regulars([], 1)));
console.log("entries:", entries());

// The blocks of a call are free when it ends, so the memory stays as it is.
isLoud = false;
const before = guest.exports.memory.buffer.byteLength;
for (let call = 0; call < CALLS; call++) regulars(MEMBERS, 100);
console.log(`entries: ${entries()}, after ${CALLS} more calls; the memory grew by ${guest.exports.memory.buffer.byteLength - before} bytes`);
