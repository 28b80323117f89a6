// An instance of a core module in Node's engine, for a host that talks to it by lines of JSON on stdin and stdout. Each
// line has the bytes of the instance's memory, if it has one. node_adapter.py is such a host.
//
// usage: node --experimental-wasm-type-reflection node_adapter.mjs
import { readSync, writeSync } from "node:fs";

/** What a call ends by if the host says that an import failed. */
const FAILED = new Error("an import failed");

let rest = Buffer.alloc(0);
let instance;
const types = new Map();

/** The bytes of the memory, which may have grown. */
const bytesOf = () => (instance?.exports.memory ? Buffer.from(instance.exports.memory.buffer) : Buffer.alloc(0));

/** The next line. There is none after the host closed its end. */
function line() {
  for (let end; ; ) {
    if ((end = rest.indexOf("\n")) >= 0) {
      const text = rest.subarray(0, end).toString();
      rest = rest.subarray(end + 1);
      return text;
    }
    const more = Buffer.alloc(65536);
    const length = readSync(0, more);
    if (length === 0) process.exit(0);
    rest = Buffer.concat([rest, more.subarray(0, length)]);
  }
}

function receive() {
  const { memory, ...message } = JSON.parse(line());
  Buffer.from(memory, "base64").copy(bytesOf());
  return message;
}

function send(message) {
  const text = Buffer.from(`${JSON.stringify({ ...message, memory: bytesOf().toString("base64") })}\n`);
  for (let sent = 0; sent < text.length; ) sent += writeSync(1, text, sent);
}

const typed = (text, type) => (type === "i64" ? BigInt.asIntN(64, BigInt(text)) : Number(text) | 0);

/** Calls an export, and says what came of it. */
function called({ call, values }) {
  const { parameters } = types.get(call);
  try {
    const answer = instance.exports[call](...values.map((it, place) => typed(it, parameters[place])));
    return { answer: answer === undefined ? [] : [String(answer)] };
  } catch (error) {
    if (error === FAILED) return { failed: true };
    if (error instanceof WebAssembly.RuntimeError) return { trap: error.message };
    throw error;
  }
}

/** Makes calls up to a message that is none. */
function answered() {
  for (;;) {
    const message = receive();
    if (!("call" in message)) return message;
    send(called(message));
  }
}

/** A function that the module imports, which the host serves. */
const imported = ({ module, name, type }) => (...values) => {
  send({ import: [module, name], values: values.map(String) });
  const { answer, failed } = answered();
  if (failed) throw FAILED;
  return type.results.length > 0 ? typed(answer, type.results[0]) : undefined;
};

const module = new WebAssembly.Module(Buffer.from(receive().module, "base64"));
const imports = Object.create(null);
for (const it of WebAssembly.Module.imports(module)) {
  imports[it.module] ??= Object.create(null);
  imports[it.module][it.name] = imported(it);
}
instance = new WebAssembly.Instance(module, imports);
for (const { name, kind, type } of WebAssembly.Module.exports(module)) if (kind === "function") types.set(name, type);
send({ answer: [...types.keys()] });
answered();
