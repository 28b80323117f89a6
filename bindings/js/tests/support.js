// What the tests share: the module, and paths of the repository.
import { spawnSync } from "node:child_process";
import { cpSync, existsSync, mkdirSync, mkdtempSync, readFileSync, rmSync, writeFileSync } from "node:fs";
import { tmpdir } from "node:os";
import { join } from "node:path";
import { fileURLToPath } from "node:url";
import { gunzipSync, gzipSync } from "node:zlib";
import { load } from "../index.js";

const TOP = new URL("../../../", import.meta.url);

/** The module of the release, or that of WITCALL_MODULE. */
export const modulePath = process.env.WITCALL_MODULE ?? new URL("release/witcall.wasm.gz", TOP);

/** Why nothing can be tested, or false. */
export const skip = existsSync(modulePath) ? false : `no module: ${modulePath}`;

/** Loads the module. Without one no test passes. */
export async function loaded() {
  if (skip) throw new Error(skip);
  return load(readFileSync(modulePath));
}

/** Fails if a program of a package of Debian's is not there. */
export function needs(program, packaged, ...words) {
  const { status } = spawnSync(program, words);
  if (status !== 0) throw new Error(`there is no ${program}: install Debian's package ${packaged}`);
}

/** A file of the repository. */
export const fileOf = (path) => readFileSync(new URL(path, TOP));

/** The bytes of the module. */
export function moduleBytes() {
  const found = readFileSync(modulePath);
  return found[0] === 0x1f ? gunzipSync(found) : found;
}

/** A folder for a test, which is removed after it. */
export function folderFor(test) {
  const folder = mkdtempSync(join(tmpdir(), "witcall-"));
  test.after(() => rmSync(folder, { recursive: true }));
  return folder;
}

/** Files of this folder that no clone has. */
const MADE = /\/(node_modules|out)$|\.(wasm|tgz)$/;

/** Copies what a checkout has of this package into a folder, with the module as its release, of this version. */
export async function checkoutIn(folder, version) {
  const binding = join(folder, "bindings/js");
  const known = (await loaded()).version.split("+")[0];
  cpSync(fileURLToPath(new URL("bindings/js", TOP)), binding, { recursive: true, filter: (path) => !MADE.test(path) });
  mkdirSync(join(folder, "release"));
  writeFileSync(join(folder, "release/witcall.wasm.gz"), gzipSync(moduleBytes()));
  writeFileSync(join(folder, "release/version"), `${known}\n`);
  const about = JSON.parse(fileOf("bindings/js/package.json"));
  writeFileSync(join(binding, "package.json"), JSON.stringify({ ...about, version: version ?? known }));
  return binding;
}
