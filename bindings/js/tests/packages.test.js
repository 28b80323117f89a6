import assert from "node:assert/strict";
import { test } from "node:test";
import { WitError } from "../index.js";
import { rowsOf } from "./rows.js";
import { fileOf, loaded } from "./support.js";

const witcall = await loaded();

const COMMANDS = {
  open: () => "opened",
  text: (pkg) => pkg.toText().replace(/\n$/, ""),
  bin: (pkg) => Buffer.from(pkg.toBinary()).toString("hex"),
};

/**
 * What a row answers. What is refused is also told; of a package that is too long to write the library has no offset.
 */
function answered({ command, inputs }, wanted) {
  let pkg;
  try {
    pkg = witcall.open(inputs);
    return COMMANDS[command](pkg);
  } catch (error) {
    if (!(error instanceof WitError)) throw error;
    assert.equal(error.message, error.line);
    assert.equal(error.number, Number(error.line.split(" ")[1]));
    return pkg && wanted.startsWith(`${error.line} limit at `) ? wanted : error.line;
  } finally {
    pkg?.close();
  }
}

for (const file of ["errors", "packages", "sets", "texts"]) {
  test(`the rows of ${file}.rows`, () => {
    const rows = rowsOf(`${file}.rows`, Object.keys(COMMANDS));
    assert.ok(rows.length >= 29);
    for (const row of rows) {
      const wanted = row.answer.join("\n");
      assert.equal(answered(row, wanted), wanted, row.name);
    }
  });
}

test("each way of handing over an input opens the same package", () => {
  const text = "package a:b;\n\ninterface c {\n  f: func(x: u32) -> u32;\n}\n";
  const bytes = new TextEncoder().encode(`..${text}`);
  for (const input of [text, bytes.subarray(2), bytes.buffer.slice(2), new DataView(bytes.buffer, 2), [text]]) {
    const pkg = witcall.open(input);
    const again = witcall.open(pkg.toBinary());
    assert.deepEqual([pkg.toText(), again.toText()], [text, text]);
    pkg.close();
    again.close();
  }
});

test("a text with a lone surrogate is no UTF-8", () => {
  const comment = (it) => `package a:b; // 🙂${it}\ninterface c { type t = u8; }`;
  for (const lone of ["\ud800", "\udfff", "\udbff", "\ude00\ud83d"]) {
    assert.throws(() => witcall.open(comment(lone)), { number: 60, message: "error 60 not UTF-8 at 20" });
    assert.equal(witcall.explain([comment(lone)])[0].number, 60);
  }
  witcall.open(comment("🙂")).close();
});

test("no input is refused", () => {
  assert.throws(() => witcall.open([]), { name: "WitError", number: 74, message: "error 74 bad lengths" });
  assert.throws(() => witcall.open(""), { name: "WitError", number: 32 });
});

// ---- what examples/c/lists.c prints

/** The package of examples/c/lists.c, whose text stands there as strings of C. */
function listedText() {
  const [, strings] = /TEXT\[\] =\n((?: +"[^"]*"\n?)+);/.exec(fileOf("examples/c/lists.c").toString());
  return [...strings.matchAll(/"([^"]*)"/g)].map(([, part]) => part).join("");
}

const typeLine = (type) => (type ? `${type.kind} size ${type.size} align ${type.alignment}` : "no type");

function nameLine({ interface: of, world, name }) {
  if (of) return `interface ${of}: ${name}: `;
  return world ? `world ${world}: ${name}: ` : "";
}

function rowLines(row) {
  const target = row.target ?? row.result?.type;
  const members = row.members ?? row.parameters ?? [];
  return [
    `${nameLine(row)}${typeLine(row)}${target ? `, to ${typeLine(target)}` : ""}`,
    ...members.map(({ name, offset, type }, index) => `  ${index} ${name} at ${offset}: ${typeLine(type)}`),
  ];
}

test("functions and types have the layouts that the library has in C", () => {
  const shop = witcall.open(fileOf("examples/c/shop.wit"));
  const listed = witcall.open(listedText());
  const lines = shop.functions.flatMap(({ name, parameters }) => [
    name,
    ...parameters.map((it) => `  ${it.name} at ${it.offset}`),
  ]);
  const functions = listed.functions.map((it) => ({ kind: "function", ...it }));
  const rows = [...listed.types, ...functions].sort((one, other) => one.number - other.number);
  const wanted = fileOf("examples/c/lists.expected").toString().trimEnd().split("\n");
  assert.deepEqual([...lines, ...rows.flatMap(rowLines)], wanted);
  shop.close();
  listed.close();
});

test("a function has its core signatures, and its types are those of the package", () => {
  const pkg = witcall.open(fileOf("examples/engine/press.wit"));
  const [print] = pkg.functions;
  const values = Array(8).fill("i32");
  assert.deepEqual(print.lifted, { parameters: values, results: ["i32"] });
  assert.deepEqual(print.lowered, { parameters: [...values, "i32"], results: [] });
  assert.equal(print.result.type, pkg.types.find((it) => it.name === "outcome"));
  assert.equal(print.parameters[1].type.target.kind, "string");
  assert.equal(pkg.find("demo:labels/press", "print"), print);
  const message = "error 63 no function: no `prin` in `demo:labels/press`; the nearest is `print`";
  assert.throws(() => pkg.find("demo:labels/press", "prin"), { number: 63, line: "error 63 no function", message });
  pkg.close();
});

test("a function that is not there is named, and the nearest one", () => {
  const pkg = witcall.open([
    "package a:b@1.0.0; interface c { total: func(); sum: func(); } interface types { type t = u8; }",
    `package d:e; interface f { total-of-all: func(); next: func(); }
    world w { import f; import ask: func(); export tell: func(); export sum: func(); }
    world v { export next: func(); }`,
  ]);
  const told = (way, ...names) => {
    try {
      return pkg[way](...names).name;
    } catch (error) {
      assert.deepEqual([error.name, error.number, error.line], ["WitError", 63, "error 63 no function"]);
      return error.message.replace("error 63 no function: ", "");
    }
  };
  const wanted = [
    ["find", "a:b/c@1.0.0", "totel", "`total`"],
    ["find", "a:b/c@1.0.0", "next", "`next` in `d:e/f`"],
    ["find", "a:b/c", "total", "`total` in `a:b/c@1.0.0`"],
    ["find", "a:b/c@2.0.0", "sum", "`sum` in `a:b/c@1.0.0`"],
    ["find", "a:b/types@1.0.0", "sum", "`sum` in `a:b/c@1.0.0`"],
    ["find", "c", "sun", "`sum` in `a:b/c@1.0.0`"],
    ["find", "d:e/g", "next", "`next` in `d:e/f`"],
    ["find", "d:e/w", "tell", "`next` in `d:e/f`"],
    ["find", "", "", "`sum` in `a:b/c@1.0.0`"],
    ["findImport", "d:e/w", "sum", "`ask`"],
    ["findImport", "d:e/v", "next", "`ask` in `d:e/w`"],
    ["findExport", "d:e/w", "tel", "`tell`"],
    ["findExport", "d:e/w", "nex", "`next` in `d:e/v`"],
  ];
  for (const [way, owner, name, found] of wanted) {
    assert.equal(told(way, owner, name), `no \`${name}\` in \`${owner}\`; the nearest is ${found}`);
  }
  const long = "x".repeat(1000000);
  const cut = told("find", long, "a\n`\u202e\ud800");
  const name = "`a\\u{a}\\u{60}\\u{202e}\\u{d800}`";
  assert.ok(cut.startsWith(`no ${name} in \`${"x".repeat(100)}..\`; the nearest is `), cut);
  const none = witcall.open("package a:b; interface c { type t = u8; } world w { import c; }");
  for (const way of ["find", "findImport", "findExport"]) {
    const message = "error 63 no function: no `f` in `a:b/c`; there is no other";
    assert.throws(() => none[way]("a:b/c", "f"), { message });
  }
  pkg.close();
  none.close();
});

test("a closed package is not open, and is closed once", () => {
  const pkg = witcall.open(fileOf("examples/c.wit"));
  assert.equal(pkg.functions.length, 1);
  pkg.close();
  pkg.close();
  const calls = [(it) => it.toText(), (it) => it.toBinary(), (it) => it.find("", "")];
  const uses = [(it) => it.functions, (it) => it.types, ...calls];
  for (const use of uses) {
    assert.throws(() => use(pkg), { name: "WitError", number: 70, message: "error 70 not open" });
  }
  if (Symbol.dispose) assert.equal(pkg[Symbol.dispose], pkg.close);
});

test("many packages leave no memory behind", () => {
  const text = fileOf("examples/engine/press.wit");
  const opened = () => {
    const pkg = witcall.open(text);
    pkg.functions;
    assert.throws(() => witcall.open("package a:b;"), { number: 43 });
    pkg.close();
  };
  opened();
  const before = witcall.core.bytes.length;
  for (let count = 0; count < 500; count++) opened();
  assert.equal(witcall.core.bytes.length, before);
});

test("what is wrong with texts has its place and what to do", () => {
  const broken = "package a:b; interface c { f: func(x: strng); }";
  const fault = {
    text: 0,
    number: 41,
    line: 1,
    column: 39,
    endLine: 1,
    endColumn: 44,
    message: "error 41 unknown strng",
    hint: "no `strng` here; did you mean `string`?",
  };
  assert.deepEqual(witcall.explain(broken), [fault]);
  assert.deepEqual(witcall.explain([new TextEncoder().encode(broken)]), [fault]);
  const good = "package a:b; interface c { type t = u8; }";
  const user = "package d:e; interface f { use a:b/c.{t}; }";
  assert.deepEqual(witcall.explain([user, good]), []);
  assert.deepEqual(witcall.explain([]), []);
  const parts = ["package a:b; interface c { use d.{t}; }", "package a:b; interface d { type t = u8; }"];
  assert.deepEqual(witcall.explain(parts), []);
  const [first, second] = witcall.explain([user, broken]);
  assert.deepEqual([first.text, first.number, second], [1, 41, { text: 0, number: undefined, message: "not checked: it depends on a:b, which has a fault" }]);
});
