// The types of target-lexicon.js, and what each call does. `build` puts names.d.ts, the types of the names, before this
// file.
//
// SPDX-License-Identifier: Apache-2.0 WITH LLVM-exception

export type Field = (typeof FIELDS)[number];

/** A known vendor, or any other lower-case word. */
export type Vendor = KnownVendor | (string & {});

/** The type of each field. */
export interface Values {
  architecture: Architecture;
  vendor: Vendor;
  operatingSystem: OperatingSystem;
  environment: Environment;
  binaryFormat: BinaryFormat;
}

/**
 * The version of an operating system. As an argument it has a `major`, and what else is left out is 0: `{ major: 17,
 * minor: 1 }`.
 */
export interface Version {
  readonly major: number;
  readonly minor: number;
  readonly patch: number;
}

/** Versions that names state, of a C library or a system: of Android its API level, of Windows its build. */
export type NamedVersions = Partial<Record<"glibc" | "musl" | "macos" | "ios" | "android" | "freebsd" | "netbsd" |
  "openbsd" | "dragonfly" | "windows", GivenVersion>>;

/** A version as an argument. */
export type GivenVersion = {
  readonly major: number;
  readonly minor?: number | undefined;
  readonly patch?: number | undefined;
};

/** What a triple is made of. The architecture may be an alias, and a field may be left out, or undefined. */
export type Given = { [Name in Exclude<Field, "architecture">]?: Values[Name] | undefined } & {
  architecture?: Architecture | ArchitectureAlias | undefined;
  version?: GivenVersion | null | undefined;
  /** What a triple has besides, such as one that is spread: it follows from the names, and isn't looked at. */
  hasCustomVendor?: boolean | undefined;
};

/**
 * The value of a field, and where it comes from. A special string such as armv6k-nintendo-3ds is one part, of all
 * fields. The range of the part is in units of UTF-16, as text.slice takes it.
 */
export type Explained<Value> =
  /** This part of the string is the value, as it is printed, or as an alias another spelling of it. */
  | { value: Value; origin: "given" | "alias"; part: string; start: number; end: number }
  /** No part of the string is of this field, which is unknown. The value is null if the string is refused. */
  | { value: Value | null; origin: "not given"; part: null }
  /** The binary format that the other fields imply. */
  | { value: Value; origin: "implied"; part: null };

/**
 * The triple or the error of a string, and where each field comes from. Of a string that is refused only the fields
 * before the refused part have a value. The suggestion is the known name that the refused part, or a custom vendor, may
 * mean.
 */
export type Explanation = {
  text: string;
  fields: { [Name in Field]: Explained<Values[Name]> };
  suggestion: string | null;
} & ({ triple: Triple; error: null } | { triple: null; error: ParseError });

/**
 * A part of a string that `Triple.read` reads as other names, with dashes between them. The range is in units of
 * UTF-16.
 */
export interface Change {
  part: string;
  start: number;
  end: number;
  names: string;
}

/**
 * Why a string is refused, or a name isn't translated, and where: the refused part is text.slice(start, end), in units
 * of UTF-16.
 */
export class ParseError extends Error {
  private constructor();
  /** What was expected; null where the part follows the binary format, and for a name in a dialect. */
  readonly field: Field | null;
  readonly text: string;
  readonly part: string;
  readonly start: number;
  readonly end: number;
  /** The known name that the part may mean; of an unknown name in a dialect, the nearest of its names. */
  readonly suggestion: string | null;
  /** Why a name of a dialect means no triple, or isn't translated, and what would help; null for any other string. */
  readonly reason: string | null;
  /** Whether `translate` has a name with a C library that is said. */
  readonly needsLibc: boolean;
  /**
   * What was expected, the string below it, and carets below the refused part, with the suggestion or the reason. What
   * isn't printable ASCII is escaped, and of the part and of what is around it up to 200 characters are shown. The
   * `message` is this, and which call reads a name of another tool.
   */
  readonly report: string;
  /** What else is known of the string, such as by which call it is read: what follows the report in the message. */
  readonly note: string | null;
  /** All of the above except the report and the note, and `name` and `message`: what `JSON.stringify` writes. */
  toJSON(): Record<string, string | number | boolean | null>;
}

/** A target triple. It never changes. */
export class Triple {
  private constructor();
  /** The name of the value. It is never an alias: of `arm64` it is `aarch64`. */
  readonly architecture: Architecture;
  readonly vendor: Vendor;
  /** The name without the version. */
  readonly operatingSystem: OperatingSystem;
  readonly environment: Environment;
  readonly binaryFormat: BinaryFormat;
  /** That of the operating system. */
  readonly version: Version | null;
  readonly hasCustomVendor: boolean;

  /** The triple of a string. Throws a ParseError if the string is refused. */
  static parse(text: string): Triple;
  /** The triple of a string, or null if it is refused, which takes a small part of the time of an error. */
  static tryParse(text: string): Triple | null;
  /**
   * The triple of what another tool calls a target. Without a dialect, the string is spelled like a triple, as clang
   * takes it after `-target`: `x86_64-w64-mingw32` is read as `x86_64-pc-windows-gnu`. With one, it is a name of that
   * tool, and no other is tried; what the name doesn't state is unknown. Throws a ParseError for any other string, and
   * where a name means no triple.
   */
  static read(text: string, dialect?: Dialect | null): Triple;
  /** The triple or the error of a string, and where each field comes from. */
  static explain(text: string): Explanation;
  /**
   * The triple of these values. A field that is left out is unknown, and the binary format is then the one that the
   * others imply. The values may be those of a triple, spread or cloned: `Triple.of(structuredClone(triple))`. Throws a
   * RangeError if there is no such value, and for a version of a system that has none.
   */
  static of(values: Given): Triple;

  /**
   * The triple with other values in these fields. A binary format that the fields imply becomes the one that the new
   * ones imply; another one stays. A new operating system has no version unless it is given. A value that is undefined
   * is as if left out.
   */
  with(values: Given): Triple;
  /** The printed string. */
  toString(): string;
  /** The printed string too, so that JSON has it. */
  toJSON(): string;
  /**
   * The name in a dialect, or null if it has none. The vendor doesn't matter, nor what the dialect doesn't name; byte
   * order, pointer width and object format do. Versions are those that names state, as some of Python's do:
   * `manylinux_2_17_x86_64` has `{ glibc: { major: 2, minor: 17 } }`. One of another system never applies. That of
   * glibc or of musl, if there isn't one of both, says the C library of a triple of Linux that states none.
   */
  nameIn(dialect: Dialect, versions?: NamedVersions): string | null;
  /**
   * Why `nameIn` has no name for these arguments, and what would help: `it depends on the C library: say glibc or
   * musl`. Null if it has one.
   */
  reasonWithoutName(dialect: Dialect, versions?: NamedVersions): string | null;
  /** The names in all dialects, with null for those that have none. */
  names(): Record<(typeof DIALECTS)[number], string | null>;
  /** The triple with the usual environment of a C library of its system, if it states none; any other as it is. */
  complete(libc: ChosenLibc): Triple;
  /** The canonical form: two canonical triples with the same printed string are equal, so the string is a key. */
  settle(): Triple;
  /** The printed string of the canonical form: the key of the target, which all its spellings have. */
  get canonical(): string;
  /** Whether the triple round-trips: printing and parsing give it again. */
  comesBack(): boolean;
  equals(other: Triple): boolean;
  /** Whether the canonical forms of both are equal. */
  sameTarget(other: Triple): boolean;
  facts(): Facts;
  /**
   * The values of rustc's cfg options, as Cargo's variables such as `CARGO_CFG_TARGET_OS` have them: of several
   * families there is a comma between them, and an option without a value, such as `unix`, is an empty string.
   */
  rustcCfg(): Record<string, string>;
  /** The string that LLVM and clang take for the target, such as `arm64-apple-macosx` for `aarch64-apple-darwin`. */
  llvmTarget(): string;
  /** Debian's multiarch tuple, such as `i386-linux-gnu`, or null if Debian has no architecture for the triple. */
  multiarchTuple(): string | null;
}

/**
 * The name in the dialect `to` of what a name of the dialect `from` means. Where `from` is null, the string is spelled
 * like a triple. Names of Debian, GNU and rustc state the C library of Linux, and those of Go, container images and
 * Python don't: from one of the latter to one of the former, say `libc`. Throws a ParseError if the name isn't read, or
 * what it means has no name.
 */
export function translate(name: string, from: Dialect | null, to: Dialect, libc?: ChosenLibc | null,
  versions?: NamedVersions | null): string;

/**
 * What a string means to a tool that has it as a name; without a dialect, as a triple or as one that is spelled so, or
 * by its words.
 */
export interface Meaning {
  readonly dialect: (typeof DIALECTS)[number] | null;
  /** Whether nobody has the name, and its words say just this. */
  readonly byWords: boolean;
  /** The canonical triple, or null if no triple means the same. */
  readonly triple: Triple | null;
  /** Why no triple means the same, or null. */
  readonly reason: string | null;
  /**
   * The level of the machine, which a triple can't state, such as `v3` of `linux/amd64/v3`, or null: then `translate`
   * has the other tools' names.
   */
  readonly level: string | null;
}

/**
 * What a name of any tool means: as a triple, to each dialect that has it, and then as it is spelled; and last what its
 * words say, if that isn't certain. A string that nobody knows has no meaning. `triple.names()` has the other tools'
 * names.
 */
export function meanings(text: string): Meaning[];

/**
 * The targets in any text, such as a list, a workflow in YAML or a page in Markdown, each with its place: the words
 * that are a name of a machine and a system, or are with a name that is suggested, and of a list all items.
 */
export function targetsIn(text: string): { readonly text: string; readonly start: number; readonly end: number }[];

/** A word of a text that is wrong, or isn't understood. */
export interface Finding {
  readonly text: string;
  /** What is wrong of it, which is `source.slice(start, end)` of the whole text. */
  readonly part: string;
  readonly start: number;
  readonly end: number;
  /** What was perhaps meant by the part, or null. */
  readonly suggestion: string | null;
  /** The field that the part isn't a name of; null if no tool has the word as a name. */
  readonly field: Field | null;
  /** Whether it only may be a target, and isn't understood. */
  readonly isUnclear: boolean;
}

/**
 * What is wrong in any text, as the command's `check` says of a file: each word that resembles a name of some tool, or
 * is spelled like a triple, and is neither; and each that may be a target and isn't understood.
 */
export function check(text: string): Finding[];

/**
 * The canonical string of each target, or null for one that is refused. It is one call of the module for all targets,
 * so that a long list takes a fraction of the time of a loop over `Triple.parse`.
 */
export function settleAll(targets: Iterable<string>): (string | null)[];

/**
 * What `Triple.read`, without a dialect, reads as other names in a string. A version that is dropped is such a part:
 * `freebsd13.2` is read as `freebsd`. A string that is refused has its changes too.
 */
export function changes(text: string): Change[];

/** The names of a field's values. */
export function namesOf<Name extends Field>(
  field: Name): readonly (Name extends "vendor" ? KnownVendor : Values[Name])[];

/**
 * The triple that Node, Deno or Bun runs as, by `process`, which may say the C library too; what it doesn't say
 * is unknown. Throws an Error in a browser.
 */
export function host(): Triple;

/** The version of the module, and the commit that it was built from: `0.5.0 (3f1877d0c1e2)`. */
export function version(): string;

/**
 * Loads the module, from its bytes, or compiled, as a WebAssembly.Module where TypeScript knows it, which takes effect
 * at once. What was loaded before is replaced. The package's own entries have done so.
 */
export function load(module: ArrayBuffer | ArrayBufferView |
  (typeof globalThis extends { WebAssembly: { Module: { prototype: infer Module } } } ? Module : never)): Promise<void>;
