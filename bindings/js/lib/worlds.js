// The worlds of a package, as its document says them (docs/package.schema.json).

/**
 * The worlds of a package and of those that it depends on, with the functions of their interfaces and their own.
 * @param {import("./package.js").Package} pkg
 */
export function worldsOf(pkg) {
  const { interfaces, worlds } = pkg.describe();
  const numbered = new Map(pkg.functions.map((it) => [it.number, it]));
  const numbersOf = (item) => ("function" in item ? [item.function] : interfaces[item.interface].functions);
  const functionsOf = (items) => items.flatMap(numbersOf).map((number) => numbered.get(number));
  return worlds.map((it) => ({ name: it.name, imports: functionsOf(it.imports), exports: functionsOf(it.exports) }));
}
