// Puts the module of the release into this folder, so that `npm pack` takes it along, and removes it after that.
//
// usage: node pack.mjs          npm calls it before it packs
//        node pack.mjs --done   and after it
//
// The exit status is 1 if the release is of another version than package.json.
import { readFileSync, rmSync, writeFileSync } from "node:fs";
import { gunzipSync } from "node:zlib";
import { load } from "./index.js";

const MODULE = new URL("witcall.wasm", import.meta.url);
const fileOf = (path) => readFileSync(new URL(path, import.meta.url));

/** What the release is, and what its module says of itself up to the commit. */
async function versions(module) {
  const { version } = await load(module);
  const released = fileOf("../../release/version").toString().trim();
  return { "release/version": released, "witcall_version()": version.split("+")[0] };
}

async function pack() {
  const wanted = JSON.parse(fileOf("package.json")).version;
  const module = gunzipSync(fileOf("../../release/witcall.wasm.gz"));
  const others = Object.entries(await versions(module)).filter(([, it]) => it !== wanted);
  for (const [place, it] of others) {
    console.error(`pack.mjs: package.json is of version ${wanted}, and ${place} is ${it}`);
  }
  if (others.length > 0) process.exit(1);
  writeFileSync(MODULE, module);
}

if (process.argv[2] === "--done") rmSync(MODULE, { force: true });
else await pack();
