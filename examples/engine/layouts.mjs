// Types of the Canonical ABI as heap.mjs needs them: values in a memory and as core values. It shares no code with the library.
//
// A type has its size and alignment, and how many core values it has (`flats`). `store` and `load` are over an address, `lower` and
// `lift` over core values; `lift` takes them from an iterator. `random` is a value by a source of numbers; with more `room` its texts and
// lists of numbers are longer. A memory has `alloc(align, size)`, `read(at, size)` and `write(at, bytes)`.

// Other lists have fewer elements than this.
const FEW = 5;

const up = (at, align) => Math.ceil(at / align) * align;

// An integer of so many bytes without a sign; one of 8 is a bigint.
class Scalar {
  constructor(size) {
    Object.assign(this, { size, align: size, flats: 1 });
  }
  random(source) {
    const bits = BigInt(source.below(0x100000000)) | (BigInt(source.below(0x100000000)) << 32n);
    const value = BigInt.asUintN(8 * this.size, bits);
    return this.size === 8 ? value : Number(value);
  }
  store(memory, at, value) {
    const bytes = Buffer.alloc(8);
    bytes.writeBigUInt64LE(BigInt(value));
    memory.write(at, bytes.subarray(0, this.size));
  }
  load(memory, at) {
    return this.size === 8 ? memory.read(at, 8).readBigUInt64LE() : memory.read(at, this.size).readUIntLE(0, this.size);
  }
  lower(_, value) {
    return [value];
  }
  lift(_, flats) {
    const value = flats.next().value;
    return this.size === 8 ? BigInt(value) : value;
  }
}

// What is an address and a length. `put` makes a block of a value and answers both, and `take` is the value of both.
class Pair {
  size = 8;
  align = 4;
  flats = 2;
  store(memory, at, value) {
    const bytes = Buffer.alloc(8);
    this.put(memory, value).forEach((word, i) => bytes.writeUInt32LE(word, 4 * i));
    memory.write(at, bytes);
  }
  load(memory, at) {
    const bytes = memory.read(at, 8);
    return this.take(memory, bytes.readUInt32LE(0), bytes.readUInt32LE(4));
  }
  lower(memory, value) {
    return this.put(memory, value);
  }
  lift(memory, flats) {
    return this.take(memory, flats.next().value, flats.next().value);
  }
}

const PIECES = ["a", "z", "\u00fc", "\u20ac", "\u{1f600}", "\0"];

class Text extends Pair {
  random(source, room) {
    return Array.from({ length: source.below(room) }, () => PIECES[source.below(PIECES.length)]).join("");
  }
  put(memory, value) {
    const bytes = Buffer.from(value);
    const at = memory.alloc(1, bytes.length);
    memory.write(at, bytes);
    return [at, bytes.length];
  }
  take(memory, at, length) {
    return new TextDecoder("utf-8", { fatal: true, ignoreBOM: true }).decode(memory.read(at, length));
  }
}

class List extends Pair {
  constructor(element) {
    super();
    this.element = element;
  }
  random(source, room) {
    const most = this.element instanceof Scalar ? room : Math.min(room, FEW);
    const inner = Math.max(2, Math.floor(room / 4));
    return Array.from({ length: source.below(most) }, () => this.element.random(source, inner));
  }
  put(memory, value) {
    const { element } = this;
    const at = memory.alloc(element.align, element.size * value.length);
    value.forEach((item, i) => element.store(memory, at + i * element.size, item));
    return [at, value.length];
  }
  take(memory, at, length) {
    return Array.from({ length }, (_, i) => this.element.load(memory, at + i * this.element.size));
  }
}

// A record or a tuple; its value is an array.
export class Fields {
  constructor(types) {
    let end = 0;
    this.fields = types.map((type) => {
      const offset = up(end, type.align);
      end = offset + type.size;
      return { type, offset };
    });
    this.align = Math.max(1, ...types.map((type) => type.align));
    this.size = up(end, this.align);
    this.flats = types.reduce((sum, type) => sum + type.flats, 0);
  }
  random(source, room) {
    return this.fields.map(({ type }) => type.random(source, room));
  }
  store(memory, at, value) {
    this.fields.forEach(({ type, offset }, i) => type.store(memory, at + offset, value[i]));
  }
  load(memory, at) {
    return this.fields.map(({ type, offset }) => type.load(memory, at + offset));
  }
  lower(memory, value) {
    return this.fields.flatMap(({ type }, i) => type.lower(memory, value[i]));
  }
  lift(memory, flats) {
    return this.fields.map(({ type }) => type.lift(memory, flats));
  }
}

// An option of a type; its value is null or an array of one. The core values of none are zeros of the payload's kinds.
class Option {
  constructor(some, zeros) {
    this.offset = up(1, some.align);
    Object.assign(this, { some, zeros, align: some.align, flats: 1 + some.flats });
    this.size = up(this.offset + some.size, some.align);
  }
  random(source, room) {
    return source.below(3) ? [this.some.random(source, room)] : null;
  }
  store(memory, at, value) {
    memory.write(at, Buffer.from([value ? 1 : 0]));
    if (value) this.some.store(memory, at + this.offset, value[0]);
  }
  load(memory, at) {
    return memory.read(at, 1)[0] ? [this.some.load(memory, at + this.offset)] : null;
  }
  lower(memory, value) {
    return value ? [1, ...this.some.lower(memory, value[0])] : [0, ...this.zeros];
  }
  lift(memory, flats) {
    const some = flats.next().value;
    const inner = Array.from({ length: this.some.flats }, () => flats.next().value);
    return some ? [this.some.lift(memory, inner.values())] : null;
  }
}

const [u8, u16, u32, u64] = [1, 2, 4, 8].map((size) => new Scalar(size));
const text = new Text();
const list = (element) => new List(element);
const point = new Fields([u8, u64]);
const line = new Fields([text, u16, list(text)]);
const page = new Fields([u32, list(line), new Option(text, [0, 0])]);

// The functions of heap.wit: their parameters and their result.
export const FUNCTIONS = {
  numbers: [new Fields([u64, u8]), u64],
  texts: [new Fields([text, text]), text],
  lists: [new Fields([list(u16), list(list(u64))]), list(text)],
  records: [new Fields([line, list(point)]), new Fields([line, list(line)])],
  options: [new Fields([new Option(list(line), [0, 0]), new Option(point, [0, 0n])]), new Option(text, [0, 0])],
  many: [new Fields([page, page, page, page]), page],
};
