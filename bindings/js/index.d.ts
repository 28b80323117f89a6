declare global {
  interface SymbolConstructor {
    /** The name of the method that `using` calls, where the engine has it. */
    readonly dispose: unique symbol;
  }
}

/** A text of WIT, or a binary that `toBinary` or `witcall bin` wrote. */
export type Input = string | BufferSource;

/**
 * Loads the module, from its bytes or from a URL, packed by gzip or not. Without a source it is the module of this
 * package, or of the release in a checkout that has no other one.
 */
export function load(source?: BufferSource | string | URL | WebAssembly.Module): Promise<Library>;

export interface Library {
  /** The library's version, as `0.3.0+` and the first 12 digits of its commit, or as `0.2.0` in versions up to that. */
  readonly version: string;

  /**
   * Opens a package, or the last one of several, which may use the packages before it.
   * @throws {WitError} if it is refused
   * @throws {TypeError} if an input is no text and no bytes
   */
  open(inputs: Input | Input[]): Package;

  /**
   * Opens the package that a module carries, with those that it depends on: a core module with a world in a section
   * `component-type..`, or a component as other tools write a world or a package.
   * @throws {WitError} `44 not this shape` if it carries none; `explain` of the same bytes says why
   */
  openModule(module: BufferSource): Package;

  /** What is wrong with the packages of these texts, in any order. Texts of one package are its files. */
  explain(texts: Input | Input[]): Fault[];
}

/** Lines and columns count from 1, and a column is a character. Some faults have no place, and some no hint. */
export interface Fault {
  /** The index of the text. */
  readonly text: number;

  /** The number of the error in docs/ERRORS.md, if it has one. */
  readonly number?: number;
  readonly message: string;

  /** What to do about it. */
  readonly hint?: string;
  readonly line?: number;
  readonly column?: number;

  /** Where the place ends: the character after its last one. */
  readonly endLine?: number;
  readonly endColumn?: number;
}

export interface Package {
  /** The functions of the package and of those that it depends on. */
  readonly functions: readonly WitFunction[];

  /** Their types, each with its layout. */
  readonly types: readonly Type[];

  /** The worlds of the package and of those that it depends on. A module has one. */
  readonly worlds: readonly World[];

  /**
   * The function of this name, in the interface of this full name, as `a:b/c@1.0.0`.
   * @throws {WitError} `63 no function`; the message names the nearest one
   */
  find(interfaceName: string, name: string): WitFunction;

  /**
   * A function that a world itself imports or exports, by the full name of the world, as `a:b/w@1.0.0`.
   * @throws {WitError} `63 no function`
   */
  findImport(world: string, name: string): WitFunction;
  findExport(world: string, name: string): WitFunction;

  /** The package as a text. Of several it is the last one, which opens again after the others. */
  toText(): string;

  /** The package and those before it as one document, which docs/package.schema.json describes. */
  describe(): unknown;

  /** The package as a binary. Of several it is the last one, which opens again after the others. */
  toBinary(): Uint8Array;

  /** Frees the package. It is not to be used any more; closing it again does nothing. */
  close(): void;

  /** The same, for `using`. */
  [Symbol.dispose](): void;
}

/** A world: the functions of the interfaces that it imports and exports, and its own. */
export interface World {
  /** Its full name, as `a:b/w@1.0.0`. */
  readonly name: string;
  readonly imports: readonly WitFunction[];
  readonly exports: readonly WitFunction[];
}

/** Sizes, alignments and offsets are bytes in a memory. */
export interface Layout {
  readonly size: number;
  readonly alignment: number;
}

export type Kind =
  | "bool" | "s8" | "u8" | "s16" | "u16" | "s32" | "u32" | "s64" | "u64" | "char" | "string"
  | "list" | "option" | "result" | "tuple" | "record" | "variant" | "enum" | "flags" | "alias" | "use";

export interface Type extends Layout {
  readonly kind: Kind;

  /** The number of its row in the package's table; primitives and `string` have none. */
  readonly number?: number;

  /** Its name, and the full name of the interface or of the world that declares it; types inside others have none. */
  readonly name?: string;
  readonly interface?: string;
  readonly world?: string;

  /** The element of a list, or the type that an alias or a used name stands for. */
  readonly target?: Type;

  /** Fields, elements of a tuple, cases or labels. The number of a case is its index, and label k is bit k. */
  readonly members?: readonly Member[];
}

/** The offset of a case is that of the payload. A case without payload and a label have no type, and the size 0. */
export interface Member extends Layout {
  readonly name: string;
  readonly type: Type | null;
  readonly offset: number;
}

export type CoreType = "i32" | "i64";

export interface CoreSignature {
  readonly parameters: readonly CoreType[];
  readonly results: readonly CoreType[];
}

/** The size and the alignment are those of the record of all parameters. */
export interface WitFunction extends Layout {
  readonly number: number;
  readonly name: string;

  /** The full name of the interface, as `a:b/c@1.0.0`, or of the world that has the function. */
  readonly interface?: string;
  readonly world?: string;

  /** The parameters, with their offsets in the record of all of them. */
  readonly parameters: readonly Member[];
  readonly result: { readonly type: Type; readonly offset: 0 } & Layout | null;

  /** The core function of the callee. */
  readonly lifted: CoreSignature;

  /** The core function that the caller imports. */
  readonly lowered: CoreSignature;
}

export interface Request {
  readonly align: number;
  readonly size: number;
}

/** A block that an allocator granted, at an address of its memory. */
export interface Block extends Request {
  readonly at: number;
}

/**
 * Grants the blocks that are asked for in an instance, in this order, up to the first one that there is no room for.
 */
export type Grant = (instance: WebAssembly.Instance, asked: Request[]) => Block[];

export interface LinkOptions {
  /** The module that imports functions of the package. Its instance exports `memory` and `cabi_realloc`. */
  caller: WebAssembly.Module;

  /** The instance that exports the functions, as `a:b/c#f`, its `memory` and `cabi_realloc`. */
  callee: WebAssembly.Instance;

  /**
   * What else the caller imports. It comes first: a function of the package that is here is not linked. Own properties
   * count, and not what objects inherit.
   */
  imports?: WebAssembly.Imports;

  /**
   * The greatest size of both memories, in bytes: blocks that have more together are refused. 16 MiB if it is left out.
   */
  limit?: number;

  /** Who grants blocks, if it isn't `granted`. */
  grant?: Grant;
}

/**
 * Makes an instance of the caller, whose imports are functions of the callee. The library carries the values between
 * both memories. The callee is not entered again while it runs: that call is a `Trap`.
 * @throws {WitError} if the caller imports what neither the package nor `imports` has
 */
export function link(pkg: Package, options: LinkOptions): WebAssembly.Instance;

/**
 * A value of a type of a package, in the shape that its JSON has: a record is an object, a list or a tuple an array, a
 * case without payload its label, another case an object with this one key, and flags the labels that are set. Numbers
 * of 64 bits are BigInt. An option is `undefined` or the value itself, and one of an option has cases.
 */
export type Value =
  | undefined | boolean | number | bigint | string | ArrayBufferView | readonly Value[]
  | { readonly [key: string]: Value };

export interface LiftOptions {
  /** The instance that exports the function, as `a:b/c#f`, its `memory` and `cabi_realloc`. */
  callee: WebAssembly.Instance;

  /**
   * The greatest size of its memory, in bytes: blocks that have more together are refused. 16 MiB if it is left out.
   */
  limit?: number;

  /** Who grants blocks, if it isn't `granted`. */
  grant?: Grant;
}

/**
 * A function that an instance exports, as a function of values. It gives the result, or `undefined` if there is none.
 * It throws a `NotThisType` if the arguments are none of the function's, and a `Trap` as a linked function does. So it
 * does, and runs nothing, if the instance is in another call of `lift` or `link`.
 */
export function lift(pkg: Package, func: WitFunction, options: LiftOptions): (...values: Value[]) => Value;

/** A function of values. The values are those of the function's types. */
export type Method = (...values: any[]) => unknown;

/**
 * For each interface that a world imports an object of its functions, under the interface's full name, as
 * `a:b/c@1.0.0`. A function that the world itself imports is here under its own name. Names are those of WIT. They are
 * own properties, or methods of a class that is written in JavaScript. What an object inherits from the engine is none.
 */
export interface Implementation {
  readonly [name: string]: Method | { readonly [name: string]: any };
}

export interface ImportsOptions {
  /** The instance of the guest, once there is one. It exports its `memory` and `cabi_realloc`. */
  guest: () => WebAssembly.Instance | undefined;

  /** What else the guest imports: own properties. Functions of the world come first. */
  imports?: WebAssembly.Imports;

  /**
   * The greatest size of its memory, in bytes: values that have more together are refused. 16 MiB if it is left out.
   */
  limit?: number;

  /** Who grants blocks, if it isn't `granted`. */
  grant?: Grant;
}

/**
 * The import object of a guest whose imports are functions of values. A function of a world itself is in the module
 * `$root`. The object and its members have no prototype. A call throws a `Trap` if the guest's values are none, a
 * `NotThisType` if the answer is no value of the result's type, and whatever the function throws.
 * @throws {TypeError} if the package has no such world, or the implementation lacks a function that it imports
 */
export function imports(
  pkg: Package, world: string, implementation: Implementation, options: ImportsOptions,
): WebAssembly.Imports;

export interface GuestOptions {
  /** What else the module imports: own properties. Functions of its world come first. */
  imports?: WebAssembly.Imports;

  /**
   * The greatest size of its memory, in bytes: values that have more together are refused. 16 MiB if it is left out.
   */
  limit?: number;

  /** Who grants blocks, if it isn't `granted`. */
  grant?: Grant;
}

/** A function of values that a guest exports, or the functions of an interface by their names. */
export interface GuestExports {
  readonly [name: string]: any;
}

export interface Guest {
  readonly pkg: Package;
  readonly world: World;
  readonly instance: WebAssembly.Instance;

  /** For each interface an object of its functions, under the interface's full name, and each of the world's own. */
  readonly exports: GuestExports;
}

/**
 * Makes an instance of a core module that carries its world, whose imports are functions of values. No WIT text is
 * needed. If the module exports `_initialize`, that is called first.
 * @throws {WitError} `44 not this shape` if it carries no world
 * @throws {TypeError} if the implementation lacks a function that the world imports
 */
export function instantiate(
  library: Library, module: BufferSource, implementation?: Implementation, options?: GuestOptions,
): Promise<Guest>;

/** Has `cabi_realloc` of an instance grant blocks, up to the first one for which it traps. */
export const granted: Grant;

/** What the library refuses. The message begins with its line. */
export class WitError extends Error {
  constructor(number: number, line: string);

  /** The number of the error in docs/ERRORS.md. */
  readonly number: number;

  /** The library's line, as `error 41 unknown size`. */
  readonly line: string;
}

/** A value of another type: `62 not this type`. The message is the library's line, the path and the fault. */
export class NotThisType extends WitError {
  constructor(number: number, line: string, told: string);

  /**
   * The first place that is wrong: `[0].lines[2].count` among arguments, `result.lines[2].count` in what a function of
   * `imports` gave. It is empty if there are too many arguments or too few.
   */
  readonly path: string;

  /** What has to stand there, and what does. */
  readonly fault: string;
}

/** The end of a call between two components, as `trap K5 utf8 in lift-args`. The callee is not run again after it. */
export class Trap extends Error {
  constructor(line: string, options?: { cause?: unknown });

  /** The number of the kind, 1 to 8. */
  readonly number: number;

  /** The word of the kind, as `utf8`. */
  readonly kind: "char" | "case" | "align" | "bounds" | "utf8" | "full" | "body" | "coresignature";

  /** The step in which it was found. */
  readonly step: "place" | "lift-args" | "lower-args" | "body" | "lift-result" | "lower-result" | "post";
}

/** The engine stopped the module itself. Packages can be used again. */
export class ModuleFault extends Error {}
