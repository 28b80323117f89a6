// Uses of the package, which `tsc --strict` takes. Nothing here is run.
import {
  Block, Grant, Guest, Kind, Library, Member, ModuleFault, NotThisType, Package, Trap, Type, Value, WitError, WitFunction,
  granted, imports, instantiate, lift, link, load,
} from "../index.js";

export async function opened(module: WebAssembly.Module): Promise<Package> {
  const witcall: Library = await load();
  await load(module);
  await load(new URL("https://example.org/witcall.wasm.gz"));
  const version: string = witcall.version;
  // @ts-expect-error the version is not set
  witcall.version = version;
  // @ts-expect-error a number is no input
  witcall.open(1);
  return witcall.open(["package a:b;", new Uint8Array(8), new ArrayBuffer(8)]);
}

export function listed(pkg: Package): string[] {
  const found: WitFunction = pkg.find("a:b/c@1.0.0", "f");
  const own: WitFunction[] = [pkg.findImport("a:b/w", "g"), pkg.findExport("a:b/w", "h")];
  const types: readonly Type[] = pkg.types;
  const kinds: Kind[] = types.map((it) => it.kind);
  // @ts-expect-error no type has this kind
  kinds.push("float");
  const members: Member[] = types.flatMap((it) => it.members ?? []);
  const size: number = found.result === null ? 0 : found.result.size + found.result.type.alignment;
  const wide: boolean = own.some((it) => it.lifted.parameters.includes("i64"));
  const bytes: Uint8Array = pkg.toBinary();
  pkg[Symbol.dispose]();
  return [pkg.toText(), ...members.map((it) => `${it.name} ${it.offset} ${it.type?.kind}`), `${size} ${wide} ${bytes.length}`];
}

export function connected(pkg: Package, caller: WebAssembly.Module, callee: WebAssembly.Instance): WebAssembly.Instance {
  const grant: Grant = (instance, asked) => granted(instance, asked).map((it): Block => ({ ...it, at: it.at + 8 }));
  // @ts-expect-error there is no callee
  link(pkg, { caller });
  return link(pkg, { caller, callee, imports: { host: { say: () => undefined } }, limit: 65536, grant });
}

export function called(pkg: Package, callee: WebAssembly.Instance): Value {
  const f = lift(pkg, pkg.find("a:b/c", "f"), { callee });
  try {
    // @ts-expect-error a symbol is no value
    f(Symbol());
    return f(1, 2n, "text", [true], { some: undefined }, new BigInt64Array(2), undefined);
  } catch (error) {
    if (error instanceof Trap) return `${error.number} ${error.kind === "utf8"} ${error.step === "lift-args"} ${error.cause}`;
    if (error instanceof NotThisType) return error.path + error.fault;
    if (error instanceof WitError) return error.number + error.line.length;
    if (error instanceof ModuleFault) return error.message;
    throw error;
  }
}

export function hosted(pkg: Package, module: WebAssembly.Module): WebAssembly.Instance {
  let guest: WebAssembly.Instance | undefined;
  const log = { say: (text: string) => console.log(text), next: (state: { paid: bigint } | "open") => state };
  // @ts-expect-error a guest has to be told
  imports(pkg, "a:b/w", { "a:b/log": log }, {});
  const options = { guest: () => guest, imports: { host: {} }, limit: 65536 };
  const object: WebAssembly.Imports = imports(pkg, "a:b/w", { "a:b/log": log, now: () => 7n }, options);
  guest = new WebAssembly.Instance(module, object);
  return guest;
}

export async function carried(library: Library, bytes: Uint8Array): Promise<unknown> {
  const guest: Guest = await instantiate(library, bytes, { "a:b/log": {} }, { imports: { host: {} } });
  guest.pkg.close();
  return guest.exports["a:b/c"].f(1n, guest.world.name);
}
