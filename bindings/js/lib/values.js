// JavaScript's values of a type, as texts of JSON (docs/FORMATS.md) and back. The library tests them, so that a value
// of another type becomes a text that it refuses.

import { meant } from "./reach.js";

/** Kinds of 64 bits, which are BigInt. */
const WIDE = new Set(["s64", "u64"]);
const NARROW = new Set(["s8", "u8", "s16", "u16", "s32", "u32"]);

export const memberOf = (type, name) => type.members.find((it) => it.name === name)?.type;

/** Whether a value of an option is `undefined` or the value itself. An option of an option has its cases. */
export const isPlain = (type) => type.kind === "option" && meant(memberOf(type, "some")).kind !== "option";

const isList = (value) => Array.isArray(value) || (ArrayBuffer.isView(value) && !(value instanceof DataView));
export const isObject = (value) => typeof value === "object" && value !== null && !isList(value);

/** A surrogate that is none of a pair. */
const LONE = /\p{Surrogate}/u;

/** Whether a text has no lone surrogate. */
export const isWellFormed = String.prototype.isWellFormed ? (text) => text.isWellFormed() : (text) => !LONE.test(text);
export const loneOf = (text) => LONE.exec(text)?.[0];

/** The name of a member. A label has no lone surrogate, so one that has some is none. */
const keyText = (key) => JSON.stringify(isWellFormed(key) ? key : key.replace(new RegExp(LONE, "gu"), "\ufffd"));

/** Whether a number is a whole one whose digits in JSON's own text may be others. */
const isGreat = (value) => Number.isInteger(value) && !Number.isSafeInteger(value);

/** The least number that the library reads none of in JSON, or a smaller one. */
const TOO_GREAT = 2n ** 1023n;
export const isTooGreat = (value) => typeof value === "bigint" && (value >= TOO_GREAT || value <= -TOO_GREAT);

/** How deep a value of no type is written. Types nest 64 deep, and JSON 127 deep. */
const MOST_DEPTH = 32;

/**
 * The text of a value without regard to its type. What JSON has no text for is null, which is no value of a type. So is
 * what lies within itself, or too deep.
 * @param {unknown} value
 * @param {object[]} outer what it lies within
 */
function bare(value, outer = []) {
  if (isTooGreat(value)) return "null";
  if (typeof value === "bigint" || isGreat(value)) return BigInt(value).toString();
  if (typeof value === "string" && !isWellFormed(value)) return "null";
  if (!isList(value) && !isObject(value)) return JSON.stringify(value) ?? "null";
  if (outer.length === MOST_DEPTH || outer.includes(value)) return "null";
  const within = [...outer, value];
  if (isList(value)) return `[${Array.from(value, (it) => bare(it, within)).join()}]`;
  return `{${Object.entries(value).map(([key, it]) => `${keyText(key)}:${bare(it, within)}`).join()}}`;
}

/** The text of a value of a type. */
export function encoded(value, named) {
  const type = named && meant(named);
  if (!type) return bare(value);
  if (isPlain(type)) {
    return value === undefined || value === null ? '"none"' : `{"some":${encoded(value, memberOf(type, "some"))}}`;
  }
  if (type.kind === "list" && isList(value)) return `[${Array.from(value, (it) => encoded(it, type.target)).join()}]`;
  if (type.kind === "tuple" && isList(value)) {
    return `[${Array.from(value, (it, place) => encoded(it, type.members[place]?.type)).join()}]`;
  }
  if (!type.members || !isObject(value)) return bare(value);
  const member = ([key, it]) => `${keyText(key)}:${encoded(it, memberOf(type, key))}`;
  return `{${Object.entries(value).map(member).join()}}`;
}

/** The text of an array of arguments. */
export function encodedAll(values, parameters) {
  return `[${values.map((value, place) => encoded(value, parameters[place]?.type)).join()}]`;
}

/** Texts and whole numbers of a text of JSON. */
const TOKEN = /"(?:[^"\\]|\\.)*"|-?\d+/g;

/** The value of a type that JSON has, whose numbers are texts. */
function decoded(json, named) {
  const type = meant(named);
  if (WIDE.has(type.kind)) return BigInt(json);
  if (NARROW.has(type.kind)) return Number(json);
  if (isPlain(type)) return json === "none" ? undefined : decoded(json.some, memberOf(type, "some"));
  if (type.kind === "list") return json.map((it) => decoded(it, type.target));
  if (type.kind === "tuple") return json.map((it, place) => decoded(it, type.members[place].type));
  if (type.kind === "flags" || !isObject(json)) return json;
  return Object.fromEntries(Object.entries(json).map(([key, it]) => [key, decoded(it, memberOf(type, key))]));
}

/** What a text of JSON says, with numbers as texts: a number of 64 bits is none of JavaScript's numbers. */
const parsed = (text) => JSON.parse(text.replace(TOKEN, (token) => (token[0] === '"' ? token : `"${token}"`)));

/** The value of a type that the library wrote as a text. */
export const decodedText = (text, type) => decoded(parsed(text), type);

/** The arguments that the library wrote as a text. */
export const decodedAll = (text, parameters) => parsed(text).map((it, place) => decoded(it, parameters[place].type));
