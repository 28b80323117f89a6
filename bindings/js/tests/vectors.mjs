#!/usr/bin/env node
// Makes calls through `lowered` that are said on standard input, one a line, and tells what each did, one a line. The
// lines are those of examples/c/vectors.c, so that examples/c/vectors.py compares what they do with the stored answers
// of crates/vectors.
//
// usage: examples/c/vectors.py bindings/js/tests/vectors.mjs      WITCALL_MODULE is the module's path, if it isn't that
// of the release
import { createInterface } from "node:readline";
import { Trap, WitError } from "../index.js";
import { lowered } from "../lib/link.js";
import { loaded } from "./support.js";

const library = await loaded();

const partsOf = (word) => (word === "-" ? [] : word.split(","));
const listed = (parts) => parts.join(",") || "-";
const bytesOf = (word) => new Uint8Array(Buffer.from(word === "-" ? "" : word, "hex"));
const hexOf = (bytes) => Buffer.from(bytes).toString("hex") || "-";

const valuesOf = (word) =>
  partsOf(word).map((part) => {
    const [kind, number] = part.split(":");
    return kind === "i32" ? Number(number) | 0 : BigInt(number);
  });

const flatsOf = (values) =>
  values === null
    ? "none"
    : listed(values.map((it) => (typeof it === "bigint" ? `i64:${BigInt.asUintN(64, it)}` : `i32:${it >>> 0}`)));

/** A memory with an allocator: one that grants above a top, or that gives answers in turn. */
class Memory {
  log = [];
  #next;

  constructor(bytes, allocator) {
    this.bytes = bytesOf(bytes);
    const [kind, words] = allocator.split(":");
    const placeOf = (word) => (word === "none" ? undefined : Number(word));
    const answers = kind === "script" ? partsOf(words).map(placeOf) : undefined;
    let top = Number(words);
    this.#next = ({ align, size }) => {
      if (answers) return answers.shift();
      const at = Math.ceil(top / align) * align;
      if (at + size > this.bytes.length) return undefined;
      top = at + size;
      return at;
    };
  }

  grant(asked) {
    const blocks = [];
    for (const request of asked) {
      const at = this.#next(request);
      this.log.push(`${request.align}:${request.size}:${at ?? "none"}`);
      if (at === undefined) break;
      blocks.push({ ...request, at });
    }
    return blocks;
  }
}

/** A core function that says what it got, writes bytes, and answers or stops. */
function core(got, answer, stops, write = () => {}) {
  return (...values) => {
    got.push(values);
    write();
    if (stops) throw new WebAssembly.RuntimeError("unreachable");
    return answer;
  };
}

function made(pkg, iface, sides, { name, flats, answer, stop, write, body, post }) {
  const func = pkg.find(iface, name);
  const exports = {
    [`${iface}#${name}`]: core(body, answer, stop === "body", write),
    [`cabi_post_${iface}#${name}`]: core(post, undefined, stop === "post"),
  };
  const back = lowered(pkg, func, { ...sides, exports, limit: Number.MAX_SAFE_INTEGER })(...flats);
  return back === undefined ? [] : [back];
}

function outcomeOf(run) {
  try {
    return run();
  } catch (error) {
    if (error instanceof Trap) return `trap:K${error.number}:${error.step}`;
    if (error instanceof WitError) return `refused:${error.number}`;
    throw error;
  }
}

/** A function that is called, and what its body does. */
function called(name, flats, answer, stop, write) {
  return { name, flats: valuesOf(flats), answer: valuesOf(answer), stop, write, body: [], post: [] };
}

/** How a call ended, and what the body and post-return got. */
function runOf(pkg, iface, sides, call) {
  const outcome = outcomeOf(() => `ok:${flatsOf(made(pkg, iface, sides, call))}`);
  return [outcome, flatsOf(call.body[0] ?? null), flatsOf(call.post[0] ?? null)];
}

/** What a body does to its memory: it writes bytes at an address, or nothing. */
function writing(memory, word) {
  const [at, digits] = word.split(":");
  return digits === undefined ? undefined : () => memory.bytes.set(bytesOf(digits), Number(at));
}

function told(line) {
  const [bytes, iface, name, flats, caller, grants, callee, grantsToo, answer, stop, writes, ...next] = line.split(" ");
  const sides = { caller: new Memory(caller, grants), callee: new Memory(callee, grantsToo) };
  const calls = [called(name, flats, answer, stop, writing(sides.callee, writes))];
  if (next[0] !== "-") calls.push(called(...next, "no"));
  let runs;
  const refused = outcomeOf(() => {
    const pkg = library.open(bytesOf(bytes));
    runs = calls.map((it) => runOf(pkg, iface, sides, it));
    pkg.close();
  });
  const [first, ...after] = runs ?? [[refused, "none", "none"]];
  const memories = [sides.caller, sides.callee].flatMap((it) => [hexOf(it.bytes), listed(it.log)]);
  return [...first, ...memories, ...after.flat()].join(" ");
}

for await (const line of createInterface({ input: process.stdin })) console.log(told(line));
