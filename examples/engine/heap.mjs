// Random calls between two modules whose cabi_realloc is dlmalloc over their own memories, and what docs/PROMISE.md promises over such
// memories ("Tame"): at each step of an allocator that it is tame, and of each call that no live byte is changed and each value arrives.
//
// usage: node heap.mjs BUILD [CALLS [SEED]]      BUILD is the folder of witcall.node and of heap.wasm
//
// What is live is the host's model of a guest: all variables of its program, its stack from the frame of `run` up, and the blocks that it
// holds. The C library's own words and the headers of blocks are not live.
import { readFileSync } from "node:fs";
import { createRequire } from "node:module";
import { resolve } from "node:path";
import { isDeepStrictEqual } from "node:util";
import { FUNCTIONS } from "./layouts.mjs";

// The greatest memory, which examples/run.sh links the module with, and the address where the stack ends.
const GREATEST_MEMORY = 131072;
const STACK_END = 16384;
const FRAME = 1024;
const MOST_FLAT_PARAMETERS = 16;
const MOST_HELD = 20;
// How many bytes are compared at once.
const CHUNK = 4096;

const [build, calls = "10000", seed = "1"] = process.argv.slice(2);
const library = createRequire(import.meta.url)(resolve(build, "witcall.node"));
const module = new WebAssembly.Module(readFileSync(resolve(build, "heap.wasm")));

function check(fact, words) {
  if (!fact) throw new Error(`it doesn't hold that ${words}`);
}

// ---- numbers of a fixed seed

class Source {
  constructor(state) {
    this.state = state;
  }
  // A whole number below another one.
  below(most) {
    this.state = (this.state + 0x6d2b79f5) >>> 0;
    let mixed = Math.imul(this.state ^ (this.state >>> 15), this.state | 1);
    mixed ^= mixed + Math.imul(mixed ^ (mixed >>> 7), mixed | 61);
    return ((mixed ^ (mixed >>> 14)) >>> 0) % most;
  }
  one(list) {
    return list[this.below(list.length)];
  }
}

// ---- guests

class Full extends Error {}

// A module, which addresses of its memory are live, and all bytes as they were at the last look. `steps` counts the steps of its allocator,
// and `held` has values that the program holds, each with its blocks.
class Guest {
  live = new Uint8Array(GREATEST_MEMORY);
  seen = Buffer.from(new ArrayBuffer(GREATEST_MEMORY));
  held = [];
  steps = { granted: 0, refused: 0, released: 0 };

  constructor(act) {
    this.core = new WebAssembly.Instance(module, { host: { act } }).exports;
    this.core._initialize();
    this.bytes.copy(this.seen);
    this.mark(this.core.program_at(), this.core.program_size(), 1);
  }

  get bytes() {
    return Buffer.from(this.core.memory.buffer);
  }

  // These addresses are live (1), or are not (0).
  mark(at, size, live) {
    this.live.fill(live, at, at + size);
  }

  isFree(at, size) {
    return !this.live.subarray(at, at + size).includes(1);
  }

  // The addresses whose bytes changed since the last look.
  changed() {
    const { bytes, seen } = this;
    const found = [];
    for (let at = 0; at < bytes.length; at += CHUNK) {
      if (bytes.compare(seen, at, at + CHUNK, at, at + CHUNK) === 0) continue;
      const [now, before] = [bytes, seen].map(({ buffer }) => new Int32Array(buffer, at, CHUNK / 4));
      for (let i = 0; i < CHUNK / 4; i++) {
        if (now[i] === before[i]) continue;
        for (let byte = at + 4 * i; byte < at + 4 * i + 4; byte++) if (bytes[byte] !== seen[byte]) found.push(byte);
      }
      bytes.copy(seen, at, at, at + CHUNK);
    }
    return found;
  }

  checkUnchanged() {
    check(this.changed().length === 0, "a memory is only read");
  }

  // A step of the allocator: the memory gets no shorter, and what is live before and after it stays. It answers null if the module traps.
  step(act) {
    const { length } = this.bytes;
    try {
      return act();
    } catch (error) {
      if (!(error instanceof WebAssembly.RuntimeError)) throw error;
      return null;
    } finally {
      check(this.bytes.length >= length, "a memory gets no shorter");
      check(!this.changed().some((at) => this.live[at]), "live bytes stay");
    }
  }

  // The address of a block, or null if it is refused. The block's addresses are live then.
  grant(align, size) {
    const answered = this.step(() => this.core.cabi_realloc(0, 0, align, size));
    this.steps[answered === null ? "refused" : "granted"]++;
    if (answered === null) return null;
    const at = answered >>> 0;
    check(at % align === 0, "a block is aligned");
    check(at + size <= this.bytes.length, "a block is inside the memory");
    check(this.isFree(at, size), "a block is made of addresses that were not live");
    this.mark(at, size, 1);
    return at;
  }

  // The block's units alone are freed. A block of no bytes is none of the allocator's.
  release({ at, size }) {
    if (size === 0) return;
    this.mark(at, size, 0);
    this.step(() => this.core.release(at));
    this.steps.released++;
  }

  // Another size for a block of the program, which keeps the bytes of both sizes.
  resize(block, size) {
    const kept = Buffer.from(this.read(block.at, Math.min(block.size, size)));
    this.mark(block.at, block.size, 0);
    const answered = this.step(() => this.core.cabi_realloc(block.at, block.size, 8, size));
    if (answered !== null) Object.assign(block, { at: answered >>> 0, size });
    check(block.at + block.size <= this.bytes.length, "a block is inside the memory");
    check(this.isFree(block.at, block.size), "a block is made of addresses that were not live");
    this.mark(block.at, block.size, 1);
    check(kept.equals(this.read(block.at, kept.length)), "a block keeps its bytes");
  }

  // ---- what the program does, as a memory of layouts.mjs; its blocks are collected in `made`

  alloc(align, size) {
    const at = this.grant(align, size);
    if (at === null) throw new Full();
    this.made.push({ align, size, at });
    return at;
  }
  read(at, size) {
    return this.bytes.subarray(at, at + size);
  }
  write(at, bytes) {
    bytes.copy(this.bytes, at);
    bytes.copy(this.seen, at);
  }

  // What `act` answers, and the blocks that it makes; if there is no room, nothing is made, and this is null.
  making(act) {
    this.made = [];
    try {
      return { got: act(), blocks: this.made };
    } catch (error) {
      if (!(error instanceof Full)) throw error;
      this.made.forEach((block) => this.release(block));
      this.makeRoom();
      return null;
    }
  }

  // Holds a value, which `lift` finds again.
  hold(value, blocks, lift) {
    this.held.push({ value, blocks, lift });
  }

  // Releases a value that is held, which is still what it was.
  drop(index) {
    const [{ value, blocks, lift }] = this.held.splice(index, 1);
    check(isDeepStrictEqual(lift(), value), "a value that is held stays held");
    blocks.forEach((block) => this.release(block));
  }

  makeRoom() {
    for (let left = this.held.length >> 1; this.held.length > left; ) this.drop(0);
  }

  // Some steps of the program's own.
  work(source) {
    while (this.held.length > MOST_HELD) this.drop(source.below(this.held.length));
    if (this.held.length && source.below(2)) this.drop(source.below(this.held.length));
    const size = 1 + source.below(source.below(5) ? 300 : 24000);
    const made = this.making(() => this.alloc(8, size));
    if (!made) return;
    const [block] = made.blocks;
    this.write(block.at, Buffer.from(Array.from({ length: Math.min(size, 40) }, () => source.below(256))));
    if (source.below(3) === 0) this.resize(block, 1 + source.below(2 * size));
    const bytes = Buffer.from(this.read(block.at, block.size));
    this.hold(bytes, [block], () => Buffer.from(this.read(block.at, block.size)));
  }
}

// ---- calls

// A half of the library. It changes no byte of the memory that it writes but those of these ranges, and none of the other one.
function half(written, ranges, onlyRead, act) {
  for (const guest of [written, onlyRead]) guest.checkUnchanged();
  try {
    return act();
  } catch (error) {
    check(error.message.startsWith("trap K6 full in "), `a half is done, or is out of blocks: ${error.message}`);
    return null;
  } finally {
    const may = new Uint8Array(GREATEST_MEMORY);
    for (const { at, size } of ranges) may.fill(1, at, at + size);
    check(written.changed().every((at) => may[at]), "a half changes its blocks and the return area alone");
    onlyRead.checkUnchanged();
  }
}

// Blocks for requests, up to the first that is refused.
function granted(guest, asked) {
  const blocks = [];
  for (const { align, size } of asked) {
    const at = guest.grant(align, size);
    if (at === null) break;
    blocks.push({ align, size, at });
  }
  return blocks;
}

// What a call came to.
const DONE = "done";
const NO_ARGUMENTS = "the caller had no room for its arguments";
const NO_ENTER = "the callee refused a block";
const NO_RESULT = "the callee had no room for its result";
const NO_LEAVE = "the caller refused a block";

// One call of a function between two guests.
class Call {
  constructor(opened, caller, callee, source) {
    Object.assign(this, { opened, caller, callee, source });
    this.name = source.one(Object.keys(FUNCTIONS));
    [this.params, this.result] = FUNCTIONS[this.name];
    this.func = library.find(opened, "demo:heap/calls", this.name);
    this.isStored = this.params.flats > MOST_FLAT_PARAMETERS;
    this.hasArea = this.result.flats > 1;
  }

  random(type) {
    return type.random(this.source, this.source.below(40) ? 6 : 12000);
  }

  // The core values of arguments, in a memory of their own guest.
  lowered(guest, value) {
    if (!this.isStored) return this.params.lower(guest, value);
    const at = guest.alloc(this.params.align, this.params.size);
    this.params.store(guest, at, value);
    return [at];
  }

  lifted(guest, flats) {
    return this.isStored ? this.params.load(guest, flats[0]) : this.params.lift(guest, flats.values());
  }

  // The return area: a place on the caller's stack, or a block.
  area(frame) {
    const { size, align } = this.result;
    const onStack = this.source.below(2) === 1;
    return { align, size, at: onStack ? frame + FRAME / 2 : this.caller.alloc(align, size), onStack };
  }

  run(frame) {
    const { caller, source } = this;
    const value = this.random(this.params);
    const made = caller.making(() => ({ flats: this.lowered(caller, value), area: this.hasArea ? this.area(frame) : null }));
    if (!made) return NO_ARGUMENTS;
    const { got, blocks } = made;
    const flats = got.area ? [...got.flats, got.area.at] : got.flats;
    const outcome = this.entered(flats, value, got.area);
    const mine = got.area && !got.area.onStack ? blocks.filter(({ at }) => at !== got.area.at) : blocks;
    if (source.below(4) === 0) caller.hold(value, mine, () => this.lifted(caller, got.flats));
    else mine.forEach((block) => caller.release(block));
    if (got.area && !got.area.onStack && !this.isAreaHeld) caller.release(got.area);
    return outcome;
  }

  // The first half; then the body finds the arguments, and holds or releases them.
  entered(flats, value, area) {
    const { opened, func, caller, callee, source } = this;
    const asked = library.enterRequests(opened, func, flats, caller.bytes, GREATEST_MEMORY);
    const blocks = granted(callee, asked);
    const handed = half(callee, blocks, caller, () =>
      library.enter(opened, func, flats, caller.bytes, callee.bytes, blocks),
    );
    check((handed !== null) === (blocks.length === asked.length), "a half is done if all its blocks were granted");
    if (handed) check(isDeepStrictEqual(this.lifted(callee, handed), value), "the callee finds the arguments");
    const outcome = handed ? this.answered(flats, area) : NO_ENTER;
    if (handed && source.below(4) === 0) callee.hold(value, blocks, () => this.lifted(callee, handed));
    else blocks.forEach((block) => callee.release(block));
    if (!handed) callee.makeRoom();
    return outcome;
  }

  // The body's result in the callee's memory, the second half, and post-return.
  answered(flats, area) {
    const { callee, result } = this;
    const value = this.random(result);
    const made = callee.making(() => {
      if (!this.hasArea) return result.lower(callee, value);
      const at = callee.alloc(result.align, result.size);
      result.store(callee, at, value);
      return [at];
    });
    if (!made) return NO_RESULT;
    const outcome = this.left(flats, area, made.got, value);
    made.blocks.forEach((block) => callee.release(block));
    return outcome;
  }

  left(flats, area, answer, value) {
    const { opened, func, caller, callee, result, source } = this;
    const asked = library.leaveRequests(opened, func, answer, callee.bytes, GREATEST_MEMORY);
    const blocks = granted(caller, asked);
    const ranges = area ? [...blocks, area] : blocks;
    const back = half(caller, ranges, callee, () =>
      library.leave(opened, func, flats, answer, callee.bytes, caller.bytes, blocks),
    );
    check((back !== null) === (blocks.length === asked.length), "a half is done if all its blocks were granted");
    const lift = () => (area ? result.load(caller, area.at) : result.lift(caller, back.values()));
    if (back) check(isDeepStrictEqual(lift(), value), "the caller lifts the answer");
    this.isAreaHeld = back !== null && area !== null && !area.onStack && source.below(3) === 0;
    if (this.isAreaHeld) caller.hold(value, [...blocks, area], lift);
    else blocks.forEach((block) => caller.release(block));
    if (!back) caller.makeRoom();
    return back ? DONE : NO_LEAVE;
  }
}

// ---- all calls

const source = new Source(Number(seed));
const opened = library.open(readFileSync(new URL("heap.wit", import.meta.url)));
const outcomes = {};
const callee = new Guest(() => {});
const caller = new Guest((frame) => {
  caller.changed();
  caller.mark(frame, STACK_END - frame, 1);
  for (const guest of [caller, callee]) guest.work(source);
  const outcome = new Call(opened, caller, callee, source).run(frame);
  outcomes[outcome] = (outcomes[outcome] ?? 0) + 1;
  caller.mark(frame, STACK_END - frame, 0);
});
for (let i = 0; i < Number(calls); i++) caller.core.run();
library.close(opened);
const steps = { caller: caller.steps, callee: callee.steps };
console.log(`${calls} calls: each value arrived, no live byte changed, and nothing beside blocks and return areas`);
for (const guest of Object.keys(steps)) {
  const told = Object.entries(steps[guest]).map(([step, count]) => `${step}: ${count > 0 ? "some" : "none"}`);
  console.log(`steps of the ${guest}'s dlmalloc, all tame: ${told.join(", ")}`);
}
for (const outcome of [DONE, NO_ARGUMENTS, NO_ENTER, NO_RESULT, NO_LEAVE]) {
  console.log(`${outcome}: ${outcomes[outcome] ? "some" : "none"}`);
}
