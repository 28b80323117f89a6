// The programs of the pages, to the letter: each block of JavaScript is run in a project of its own. The package is
// installed in it as the page says, beside the guests that examples/make.mjs writes.
import assert from "node:assert/strict";
import { spawnSync } from "node:child_process";
import { mkdirSync, readdirSync, writeFileSync } from "node:fs";
import { join } from "node:path";
import { before, test } from "node:test";
import { checkoutIn, fileOf, folderFor, needs } from "./support.js";

const PAGES = ["bindings/js/README.md", "docs/JAVASCRIPT.md", "docs/LANGUAGES.md"];

/** The blocks of a language on a page. */
function blocks(page, language) {
  const block = new RegExp(`^\`\`\`${language}\\n([^]*?)^\`\`\`$`, "gm");
  return [...fileOf(page).toString().matchAll(block)].map(([, code]) => code);
}

/** The lines of the page that installs the package: each without its comment. */
const COMMANDS = blocks(PAGES[0], "sh").join("").trim().split("\n").map((line) => line.split(/ +# /)[0]);

/** npm without a network, and with a cache of the test's own. */
const OFFLINE = {
  npm_config_offline: "true",
  npm_config_audit: "false",
  npm_config_fund: "false",
  npm_config_update_notifier: "false",
};

/** Runs a line in a folder, and returns what it prints. */
function run(line, cwd, folder) {
  const env = { ...process.env, ...OFFLINE, npm_config_cache: join(folder, "cache") };
  const { status, stdout, stderr } = spawnSync(line, { cwd, env, shell: true, encoding: "utf8" });
  assert.equal(status, 0, `${line}\n${stderr}`);
  return stdout;
}

/** What a block says that it prints: the comments on the lines that print. The programs of LANGUAGES print one text. */
function wantedOf(block) {
  const comments = [...block.matchAll(/console\.log\(.* \/\/ (.*)$/gm)].map(([, comment]) => comment);
  return comments.length > 0 ? comments : ["TWO MEMORIES"];
}

let folder;
let host;

before(async (it) => {
  needs("npm", "npm", "--version");
  folder = folderFor(it);
  host = join(folder, "host");
  mkdirSync(host);
  await checkoutIn(folder);
});

test("the package is packed and installed as its page says", () => {
  const { version } = JSON.parse(fileOf("bindings/js/package.json"));
  const [pack, install, make, ...more] = COMMANDS;
  assert.deepEqual([install, more], [`npm install ./witcall-${version}.tgz`, []]);
  run(`${pack} --pack-destination ${host}`, folder, folder);
  const [packed] = readdirSync(host);
  run(install.replace(/witcall-.*\.tgz/, packed), host, folder);
  run(make, host, folder);
  const made = readdirSync(host).filter((name) => name.endsWith(".wasm"));
  assert.deepEqual(made.sort(), ["caller.wasm", "hello.wasm", "letters.wasm"]);
  const all = readdirSync(join(host, "node_modules/witcall")).sort().join(" ");
  assert.equal(all, "README.md examples index.d.ts index.js lib package.json witcall.wasm");
  assert.equal(readdirSync(join(folder, "bindings/js")).includes("witcall.wasm"), false);
});

for (const page of PAGES) {
  test(`the programs of ${page}`, () => {
    const all = blocks(page, "js");
    assert.ok(all.length > 0);
    for (const [place, block] of all.entries()) {
      const file = `${page.replaceAll("/", "-")}-${place}.mjs`;
      writeFileSync(join(host, file), block);
      assert.deepEqual(run(`node ${file}`, host, folder).trimEnd().split("\n"), wantedOf(block), block);
    }
  });
}
