// Opens texts, and tells what each is: a line of JSON with the refusal's line, or with the package as binary and as
// text.
//
// usage: node bindings/js/tests/changed.mjs TEXTS      TEXTS is a file that tools/changed_texts.py makes: a length of 4
// bytes, then the text
import { readFileSync } from "node:fs";
import { WitError } from "../index.js";
import { loaded } from "./support.js";

const witcall = await loaded();

function told(text) {
  try {
    const pkg = witcall.open(text);
    const answer = { binary: Buffer.from(pkg.toBinary()).toString("hex"), text: pkg.toText() };
    pkg.close();
    return answer;
  } catch (error) {
    if (!(error instanceof WitError)) throw error;
    return { line: error.line };
  }
}

const all = readFileSync(process.argv[2]);
for (let at = 0; at < all.length; ) {
  const end = at + 4 + all.readUInt32LE(at);
  process.stdout.write(`${JSON.stringify(told(all.subarray(at + 4, end)))}\n`);
  at = end;
}
