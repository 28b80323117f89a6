// Random types of WIT, and values of them as JSON (docs/FORMATS.md). The same seed makes the same ones.

const NUMBERS = { s8: [-128n, 255n], u8: [0n, 255n], s16: [-32768n, 65535n], u16: [0n, 65535n], s32: [-(2n ** 31n), 2n ** 32n - 1n],
  u32: [0n, 2n ** 32n - 1n], s64: [-(2n ** 63n), 2n ** 64n - 1n], u64: [0n, 2n ** 64n - 1n] };
const LETTERS = ["a", "ß", "€", "🙂", "\u0000"];

export class Random {
  #state;

  constructor(seed) {
    this.#state = seed >>> 0;
  }

  /** A number from 0 on, below another one (mulberry32). */
  below(end) {
    this.#state = (this.#state + 0x6d2b79f5) >>> 0;
    let word = this.#state;
    word = Math.imul(word ^ (word >>> 15), word | 1);
    word ^= word + Math.imul(word ^ (word >>> 7), word | 61);
    return ((word ^ (word >>> 14)) >>> 0) % end;
  }

  of(list) {
    return list[this.below(list.length)];
  }

  list(most, make) {
    return Array.from({ length: this.below(most + 1) }, (_, k) => make(k));
  }
}

/** A random type: its text, and `value`, which makes values. Named types are added to `declared`. */
export function randomType(random, depth, declared) {
  const inner = () => randomType(random, depth - 1, declared);
  const kind = depth === 0 ? random.of(SIMPLE) : random.of(ALL);
  return MAKERS[kind](random, inner, declared);
}

const label = (k) => `l${k}`;
const named = (declared, keyword, body) => {
  const name = `t${declared.length}`;
  declared.push(`${keyword} ${name} { ${body} }`);
  return name;
};

function number(random) {
  const type = random.of(Object.keys(NUMBERS));
  const [least, range] = NUMBERS[type];
  const bits = () => (BigInt(random.below(2 ** 32)) << 32n) | BigInt(random.below(2 ** 32));
  return { type, value: () => String(least + (bits() % (range + 1n))) };
}

/** Cases with a payload, or without one. */
function cases(random, inner, count) {
  return Array.from({ length: count }, (_, k) => ({ name: label(k), payload: random.below(3) > 0 ? inner() : undefined }));
}

const caseValue = ({ name, payload }) => (payload ? `{"${name}":${payload.value()}}` : `"${name}"`);

const MAKERS = {
  number,
  bool: (random) => ({ type: "bool", value: () => random.of(["true", "false"]) }),
  char: (random) => ({ type: "char", value: () => JSON.stringify(random.of(LETTERS)) }),
  string: (random) => ({
    type: "string",
    value: () => JSON.stringify(random.list(random.of([3, 3, 300]), () => random.of(LETTERS)).join("")),
  }),
  list: (random, inner) => {
    const it = inner();
    return { type: `list<${it.type}>`, value: () => `[${random.list(random.of([2, 3, 12]), it.value)}]` };
  },
  option: (random, inner) => {
    const it = inner();
    return { type: `option<${it.type}>`, value: () => random.of([() => '"none"', () => `{"some":${it.value()}}`])() };
  },
  result: (random, inner) => {
    const [ok, error] = [inner(), inner()];
    const values = [() => `{"ok":${ok.value()}}`, () => `{"error":${error.value()}}`];
    return { type: `result<${ok.type}, ${error.type}>`, value: () => random.of(values)() };
  },
  tuple: (random, inner) => {
    const all = [inner(), ...random.list(3, inner)];
    return { type: `tuple<${all.map((it) => it.type)}>`, value: () => `[${all.map((it) => it.value())}]` };
  },
  record: (random, inner, declared) => {
    const all = [inner(), ...random.list(4, inner)];
    const type = named(declared, "record", all.map((it, k) => `${label(k)}: ${it.type}`));
    return { type, value: () => `{${all.map((it, k) => `"${label(k)}":${it.value()}`)}}` };
  },
  variant: (random, inner, declared) => {
    const all = cases(random, inner, random.of([1, 2, 3, 5]));
    // Cases beyond the 256th have numbers of two bytes.
    const more = random.below(8) === 0 ? cases(random, inner, 0).concat(Array.from({ length: 300 }, (_, k) =>
      ({ name: `m${k}`, payload: k === 290 ? inner() : undefined }))) : [];
    const every = [...all, ...more];
    const type = named(declared, "variant",
      every.map(({ name, payload }) => (payload ? `${name}(${payload.type})` : name)));
    return { type, value: () => caseValue(random.of([random.of(every), ...every.filter((it) => it.payload)])) };
  },
  enum: (random, inner, declared) => {
    const count = random.of([1, 2, 7]);
    return {
      type: named(declared, "enum", Array.from({ length: count }, (_, k) => label(k))),
      value: () => `"${label(random.below(count))}"`,
    };
  },
  flags: (random, inner, declared) => {
    const labels = Array.from({ length: random.of([1, 8, 9, 32]) }, (_, k) => label(k));
    return {
      type: named(declared, "flags", labels),
      value: () => `[${labels.filter(() => random.below(2)).map((it) => `"${it}"`)}]`,
    };
  },
};
const ALL = Object.keys(MAKERS);
const SIMPLE = ["number", "bool", "char", "string", "string", "enum", "flags"];
