// index.d.ts, and the uses in types.ts, as the compiler of TypeScript sees them.
import assert from "node:assert/strict";
import { spawnSync } from "node:child_process";
import { readFileSync } from "node:fs";
import { test } from "node:test";
import { fileURLToPath } from "node:url";
import * as all from "../index.js";
import { needs } from "./support.js";

const HERE = new URL(".", import.meta.url);
const OPTIONS = ["--strict", "--noEmit", "--target", "es2022", "--module", "nodenext", "--moduleResolution", "nodenext"];

test("tsc --strict takes the declarations", () => {
  needs("tsc", "node-typescript", "--version");
  const { stdout, status } = spawnSync("tsc", [...OPTIONS, fileURLToPath(new URL("types.ts", HERE))]);
  assert.equal(stdout.toString(), "");
  assert.equal(status, 0);
});

test("what is declared is there, and nothing else", () => {
  const text = readFileSync(new URL("../index.d.ts", HERE), "utf8");
  const names = [...text.matchAll(/^export (?:function|const|class) (\w+)/gm)].map(([, name]) => name);
  assert.deepEqual(names.sort(), Object.keys(all).sort());
});
