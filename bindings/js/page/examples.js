/** Texts to begin with. */
export const EXAMPLES = {
  "A shop": `package demo:shop@1.0.0;

interface desk {
  record line { name: string, count: u16, marks: flags-of-a-line }
  flags flags-of-a-line { fragile, gift }
  variant state { open, paid(u64), refused(string) }
  enum color { red, green, blue }

  total: func(lines: list<line>, state: state) -> option<string>;
  next: func(color: color) -> color;
}

world shop {
  import desk;
  export total-of-all: func() -> u64;
}
`,
  "Two packages": `package my:types@0.2.0;

interface points {
  record point { x: s32, y: s32 }
  type path = list<point>;
}

package my:draw;

interface pen {
  use my:types/points@0.2.0.{point, path};
  draw: func(path: path, closed: bool) -> result<u32, point>;
}
`,
  "Padding": `package a:b;

interface c {
  record r { a: u8, b: u64, c: u16, d: u8 }
  record s { b: u64, c: u16, a: u8, d: u8 }
  variant v { none, small(u8), long(tuple<u8, u64>) }
  f: func(x: list<r>) -> s;
  g: func(x: v, y: option<char>) -> v;
}
`,
  "A fault": `package a:b;

interface c {
  record entry { key: string, value: size }
  f: func(x: entry);
}
`,
};
