import assert from "node:assert/strict";
import { test } from "node:test";
import { Trap, WitError, granted, lift, link } from "../index.js";
import { bump, callee, forwarding } from "./guests.js";
import { loaded } from "./support.js";

const witcall = await loaded();
const PAGE = 65536;
const encoder = new TextEncoder();
const decoder = new TextDecoder();

const bytesOf = ({ exports }) => new Uint8Array(exports.memory.buffer);
const viewOf = ({ exports }) => new DataView(exports.memory.buffer);
const textAt = (instance, at, length) => decoder.decode(bytesOf(instance).subarray(at, at + length));

function put(instance, at, text) {
  const bytes = encoder.encode(text);
  bytesOf(instance).set(bytes, at);
  return bytes.length;
}

/** A package, a caller with all of its functions, and a callee whose core functions are given by their names. */
function linked(text, functions, { pages = 1, calleePages = pages, top = 1024, ...options } = {}) {
  const pkg = witcall.open(text);
  const names = pkg.functions.map((it) => [`${it.interface}#${it.name}`, functions[it.name]]);
  const posts = Object.entries(functions).filter(([name]) => name.startsWith("cabi_post_"));
  const to = callee(calleePages, { ...Object.fromEntries(names), ...Object.fromEntries(posts) });
  let caller;
  const realloc = bump(() => caller.exports.memory, top);
  caller = link(pkg, {
    caller: forwarding(pkg.functions, pages),
    callee: to,
    imports: { test: { cabi_realloc: realloc } },
    ...options,
  });
  return { pkg, caller, callee: to };
}

/** Puts the address and the length of a text where a callee answers with them. */
function answerText(instance, area, at, text) {
  const length = put(instance, at, text);
  viewOf(instance).setUint32(area, at, true);
  viewOf(instance).setUint32(area + 4, length, true);
  return area;
}

const UPPER = "package a:b; interface c { upper: func(s: string) -> string; }";

function upper(options) {
  const made = linked(UPPER, { upper: (at, length) => answer(at, length) }, options);
  const answer = (at, length) => answerText(made.callee, 8, 512, textAt(made.callee, at, length).toUpperCase());
  return made;
}

/** Calls `upper` with a text at an address of the caller. */
function calls({ caller }, at, text) {
  caller.exports.upper(at, put(caller, at, text), 16);
  const [from, length] = [16, 20].map((place) => viewOf(caller).getUint32(place, true));
  return textAt(caller, from, length);
}

test("a text goes there and back", () => {
  assert.equal(calls(upper(), 100, "two memories, grün"), "TWO MEMORIES, GRÜN");
});

test("texts at any address of memories of several sizes", () => {
  for (const pages of [1, 2, 16, 256]) {
    const made = upper({ pages });
    const last = pages * PAGE - 3;
    for (const at of [100, last, 5, Math.floor(last / 2)]) assert.equal(calls(made, at, "abc"), "ABC");
    assert.throws(() => made.caller.exports.upper(last, 4, 16), { message: "trap K4 bounds in lift-args" });
  }
});

test("numbers of every kind, of 32 and of 64 bits", () => {
  const functions = "f: func(a: s8, b: u32, c: s64, d: u64) -> u64; g: func(a: u32) -> s32; h: func();";
  const made = linked(`package a:b; interface c { ${functions} }`, {
    f: (...values) => {
      assert.deepEqual(values, [-1, -1, -2n, -1n]);
      return -3n;
    },
    g: (value) => value,
    h: () => undefined,
  });
  const { f, g, h } = made.caller.exports;
  assert.equal(f(-1, -1, -2n, 2n ** 64n - 1n), -3n);
  assert.equal(g(0x80000000), -0x80000000);
  assert.equal(h(), undefined);
});

test("a function of numbers alone copies no byte", () => {
  const text = "package a:b; interface c { f: func(a: u32) -> u32; }";
  const made = linked(text, { f: (value) => value + 1 }, { pages: 4096 });
  const before = witcall.core.bytes.length;
  assert.equal(made.caller.exports.f(7), 8);
  assert.ok(witcall.core.bytes.length - before < PAGE);
});

test("padding and bytes beside the blocks stay as they were", () => {
  const made = linked("package a:b; interface c { record r { a: u8, b: u32 } f: func(x: list<r>) -> r; }", {
    f: (at, length) => {
      const found = [...bytesOf(made.callee).subarray(at - 1, at + 8 * length + 1)];
      assert.deepEqual(found, [9, 1, 9, 9, 9, 4, 3, 2, 1, 9]);
      bytesOf(made.callee).set([2, 7, 7, 7, 8, 7, 6, 5], 8);
      return 8;
    },
  });
  bytesOf(made.callee).fill(9);
  bytesOf(made.caller).fill(5);
  bytesOf(made.caller).set([1, 0, 0, 0, 4, 3, 2, 1], 64);
  made.caller.exports.f(64, 1, 128);
  const all = [...bytesOf(made.caller).subarray(127, 137)];
  assert.deepEqual(all, [5, 2, 5, 5, 5, 8, 7, 6, 5, 5]);
});

test("both memories grow while blocks are granted", () => {
  const grown = [];
  const grow = (instance, asked) => {
    instance.exports.memory.grow(1);
    grown.push(asked.length);
    return granted(instance, asked);
  };
  const made = upper({ grant: grow });
  assert.equal(calls(made, 100, "grows"), "GROWS");
  assert.deepEqual(grown, [1, 1]);
  assert.deepEqual([made.caller, made.callee].map((it) => bytesOf(it).length), [2 * PAGE, 2 * PAGE]);
});

test("a text in a memory that grew is found", () => {
  const made = upper();
  assert.equal(calls(made, 100, "before"), "BEFORE");
  made.caller.exports.memory.grow(20);
  assert.equal(calls(made, 20 * PAGE, "after"), "AFTER");
});

test("more blocks than there is room for at first", () => {
  const count = 1000;
  const made = linked("package a:b; interface c { join: func(all: list<string>) -> string; }", {
    join: (at, length) => {
      const view = viewOf(made.callee);
      const texts = Array.from({ length }, (_, k) =>
        textAt(made.callee, view.getUint32(at + 8 * k, true), view.getUint32(at + 8 * k + 4, true)));
      return answerText(made.callee, 8, 512, texts.slice(-3).join(" "));
    },
  });
  const list = 4096;
  for (let k = 0; k < count; k++) answerText(made.caller, list + 8 * k, 20000 + 4 * k, `t${k}`);
  made.caller.exports.join(list, count, 16);
  assert.equal(textAt(made.caller, viewOf(made.caller).getUint32(16, true), 14), "t997 t998 t999");
});

// ---- calls within calls

const REFUSED = { name: "Trap", message: "trap K7 body in body: the guest runs, and is not entered again meanwhile" };

test("a callee is not entered again while it runs, by a link or by the host", () => {
  const made = linked(UPPER, {
    upper: (at, length) => {
      assert.throws(() => calls(made, 300, "again"), REFUSED);
      assert.throws(() => lift(made.pkg, made.pkg.functions[0], { callee: made.callee })("again"), REFUSED);
      return answerText(made.callee, 8, 512, textAt(made.callee, at, length).toUpperCase());
    },
  });
  for (const text of ["once", "twice"]) assert.equal(calls(made, 100, text), text.toUpperCase());
});

test("an allocator doesn't have the callee entered again", () => {
  const made = upper({
    grant: (instance, asked) => {
      assert.throws(() => calls(made, 300, "another one"), REFUSED);
      return granted(instance, asked);
    },
  });
  assert.equal(calls(made, 100, "the first one"), "THE FIRST ONE");
});

test("bodies and allocators call other instances", () => {
  const said = [];
  const other = upper();
  const pairs = Array.from({ length: 5 }, (_, depth) => {
    const made = linked(UPPER, {
      upper: (at, length) => {
        const text = textAt(made.callee, at, length);
        said.push(text);
        const inner = text.length > 1 ? calls(pairs[depth + 1], 300 + text.length, text.slice(1)) : "";
        return answerText(made.callee, 8, 512, text[0].toUpperCase() + inner);
      },
    }, { grant: (instance, asked) => calls(other, 100, "between") && granted(instance, asked) });
    return made;
  });
  assert.equal(calls(pairs[0], 100, "again"), "AGAIN");
  assert.deepEqual(said, ["again", "gain", "ain", "in", "n"]);
});

test("an allocator that closes the package ends the call", () => {
  const made = upper({ grant: () => made.pkg.close() ?? [] });
  assert.throws(() => calls(made, 100, "abc"), { number: 70 });
});

// ---- ends of calls

/** What a call ends in. */
function endOf(made, at = 100, text = "abc") {
  try {
    return calls(made, at, text);
  } catch (error) {
    return error;
  }
}

test("a component that stops ends the call in a trap", () => {
  const stopped = new WebAssembly.RuntimeError("unreachable");
  const stop = () => {
    throw stopped;
  };
  const body = endOf(linked(UPPER, { upper: stop }));
  assert.ok(body instanceof Trap);
  assert.deepEqual([body.message, body.number, body.kind, body.step], ["trap K7 body in body", 7, "body", "body"]);
  assert.equal(body.cause, stopped);

  const made = linked(UPPER, { upper: () => answerText(made.callee, 8, 512, "done"), "cabi_post_a:b/c#upper": stop });
  assert.deepEqual([endOf(made).message, endOf(made).step], ["trap K7 body in post", "post"]);

  const full = upper();
  full.callee.exports.cabi_realloc = stop;
  assert.equal(endOf(full).message, "trap K6 full in lower-args");
  assert.equal(endOf(upper({ top: PAGE })).message, "trap K6 full in lower-result");
});

test("what else is thrown goes on to the caller", () => {
  const error = new Error("of the host");
  const made = linked(UPPER, {
    upper: () => {
      throw error;
    },
  });
  assert.equal(endOf(made), error);
});

test("values that are none end the call in a trap", () => {
  const made = upper();
  assert.throws(() => made.caller.exports.upper(0, PAGE + 1, 16), { message: "trap K4 bounds in lift-args" });
  bytesOf(made.caller).set([0xc0, 0x80], 100);
  assert.throws(() => made.caller.exports.upper(100, 2, 16), { message: "trap K5 utf8 in lift-args" });
  assert.throws(() => made.caller.exports.upper(100, 0, 18), { message: "trap K3 align in lower-result" });
  assert.throws(() => made.caller.exports.upper(100, 0, PAGE - 4), { message: "trap K4 bounds in lower-result" });
  assert.equal(endOf(linked(UPPER, { upper: () => PAGE })).message, "trap K4 bounds in lift-result");
  assert.equal(endOf(linked(UPPER, { upper: () => undefined })).message, "trap K8 coresignature in lift-result");
  assert.equal(endOf(linked(UPPER, { upper: () => 8n })).message, "trap K8 coresignature in lift-result");
  assert.equal(endOf(linked(UPPER, { upper: () => [8, 8] })).message, "trap K8 coresignature in lift-result");
  for (const answer of [0.5, 2 ** 32, -(2 ** 31) - 1, 2n ** 64n, -(2n ** 63n) - 1n, NaN, "8", null]) {
    const { name, message } = endOf(linked(UPPER, { upper: () => answer }));
    assert.deepEqual([name, message], ["TypeError", `${String(answer)} is neither an i32 nor an i64`]);
  }
  const wide = linked("package a:b; interface c { f: func() -> u64; }", { f: () => 2n ** 64n });
  assert.throws(() => wide.caller.exports.f(), { message: `${2n ** 64n} is neither an i32 nor an i64` });
});

test("what an allocator answers is an i32, and what else it grants are blocks", () => {
  for (const answer of [2 ** 32, -(2 ** 31) - 1, 0.5, NaN, null, "1024", 1024n]) {
    const made = upper();
    made.callee.exports.cabi_realloc = () => answer;
    const message = `cabi_realloc answered ${answer}, which is no i32`;
    assert.throws(() => calls(made, 100, "abc"), { name: "TypeError", message });
  }
  for (const at of [2 ** 32, 2 ** 32 + 1024, -1, 0.5, NaN, undefined, null, "1024", 1024n]) {
    for (const key of ["at", "size", "align"]) {
      const made = upper({ grant: (instance, asked) => granted(instance, asked).map((it) => ({ ...it, [key]: at })) });
      assert.throws(() => calls(made, 100, "abc"), /^TypeError: a block is not of numbers of 32 bits: /);
    }
  }
});

test("blocks above the limit, and blocks of a wrong allocator, are refused", () => {
  const above = endOf(upper({ limit: 2 }));
  assert.ok(above instanceof WitError);
  assert.deepEqual([above.number, above.message], [76, "error 76 above the limit"]);
  assert.equal(calls(upper({ limit: 3 }), 100, "abc"), "ABC");
  const other = (change) => upper({ grant: (instance, asked) => granted(instance, asked).map(change) });
  assert.equal(endOf(other((it) => ({ ...it, at: PAGE }))).message, "error 72 bad block");
  assert.equal(endOf(other((it) => ({ ...it, at: 2 ** 32 - 1 }))).message, "error 72 bad block");
  assert.equal(endOf(other((it) => ({ ...it, size: it.size + 1 }))).message, "error 73 other block 0");
  for (const limit of [-1, 0.5, NaN, "1", 2 ** 53]) assert.throws(() => upper({ limit }), RangeError);
});

test("after a trap another call is made", () => {
  const made = upper();
  assert.throws(() => made.caller.exports.upper(PAGE, 1, 16), Trap);
  assert.equal(calls(made, 100, "abc"), "ABC");
});

test("what the callee lacks, and what the package lacks, is told when they are linked", () => {
  const pkg = witcall.open(UPPER);
  const caller = forwarding(pkg.functions, 1);
  const imports = { test: { cabi_realloc: () => 0 } };
  assert.throws(() => link(pkg, { caller, callee: callee(1, {}), imports }), /exports no function a:b\/c#upper/);
  assert.throws(() => link(pkg, { caller, callee: callee(1, { "a:b/c#upper": () => 0 }) }), { number: 63 });
  const wanted = "error 63 no function: no `cabi_realloc` in `test`; the nearest is `upper` in `a:b/c`";
  assert.throws(() => link(pkg, { caller, callee: callee(1, { "a:b/c#upper": () => 0 }) }), { message: wanted });
  const named = imports["a:b/c"] = { upper: () => undefined };
  assert.equal(link(pkg, { caller, callee: callee(1, {}), imports }).exports.upper(0, 0, 0), undefined);
  assert.equal(typeof named.upper, "function");
  pkg.close();
});

test("calls leave no memory behind in the module", () => {
  const made = upper({ pages: 16, top: 1024 });
  const run = () => {
    made.callee.exports.cabi_realloc = () => 2048;
    made.caller.exports.upper(100, 3, 16);
  };
  const trap = () => assert.throws(() => made.caller.exports.upper(16 * PAGE, 3, 16), Trap);
  run();
  trap();
  const before = witcall.core.bytes.length;
  for (let count = 0; count < 200; count++) {
    run();
    trap();
  }
  assert.equal(witcall.core.bytes.length, before);
});
