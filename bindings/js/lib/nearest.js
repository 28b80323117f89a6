// The function that was meant, when there is none of a name.

/** The most characters of a name that are compared and shown. A guest chooses how long its names are. */
const MOST = 100;

const cut = (name) => (name.length > MOST ? `${name.slice(0, MOST)}..` : name);
const shown = (name) => `\`${cut(name).replace(/[\p{C}`]/gu, (it) => `\\u{${it.codePointAt(0).toString(16)}}`)}\``;

/** How many letters are put in, taken out or changed between two words. */
export function distance(one, other) {
  if (one === other) return 0;
  const letters = Array.from(other);
  let row = [0, ...letters.keys()].map((_, place) => place);
  for (const [before, letter] of Array.from(one).entries()) {
    const next = [before + 1];
    for (const [place, it] of letters.entries()) {
      next.push(Math.min(row[place] + (it === letter ? 0 : 1), row[place + 1] + 1, next[place] + 1));
    }
    row = next;
  }
  return row.at(-1);
}

const ownerOf = (func) => func.interface ?? func.world;

/** How far a full name is from another one. One of another version is nearer than one of another name. */
function fullDistance(one, other) {
  const [[name, version], [otherName, otherVersion]] = [one, other].map((it) => it.split("@"));
  return 2 * distance(name, otherName) + (version === otherVersion ? 0 : 1);
}

/** The function that is nearest to these names, the first of several. */
function nearest(functions, owner, name) {
  const farOf = (it) => fullDistance(cut(owner), ownerOf(it)) + 2 * distance(cut(name), it.name);
  const far = functions.map(farOf);
  return functions[far.indexOf(Math.min(...far))];
}

/**
 * What a package has in place of a function that was looked for.
 * @param {object[]} functions those among which it was looked for
 * @param {string} owner the full name of an interface or of a world
 * @param {string} name
 */
export function insteadOf(functions, owner, name) {
  const found = nearest(functions, String(owner), String(name));
  const none = `no ${shown(String(name))} in ${shown(String(owner))}`;
  if (!found) return `${none}; there is no other`;
  const isIn = ownerOf(found) === owner ? "" : ` in ${shown(ownerOf(found))}`;
  return `${none}; the nearest is ${shown(found.name)}${isIn}`;
}
