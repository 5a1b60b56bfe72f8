// For `tsc --strict`: each line after `@ts-expect-error` is an error, and no other one is.
import {
  DIALECTS, FIELDS, ParseError, Triple, changes, check, host, load, meanings, namesOf, settleAll, translate, version,
} from "target-lexicon";
import type {
  Architecture, BinaryFormat, Change, ChosenLibc, Dialect, Environment, Explained, Explanation, Facts, Field,
  Finding, Given, GivenVersion, KnownVendor, Meaning, OperatingSystem, Values, Vendor, Version,
} from "target-lexicon";

// The types are the same, and neither is wider.
type Same<One, Other> = (<It>() => It extends One ? 1 : 2) extends <It>() => It extends Other ? 1 : 2 ? true : false;
// What each member is, or what a call returns.
type Answers<Of> = { [Name in keyof Of]: Of[Name] extends (...values: never[]) => infer Answer ? Answer : Of[Name] };

const ofTriple: Same<Answers<Triple>, {
  readonly architecture: Architecture; readonly vendor: Vendor; readonly operatingSystem: OperatingSystem;
  readonly environment: Environment; readonly binaryFormat: BinaryFormat; readonly version: Version | null;
  readonly hasCustomVendor: boolean;
  with: Triple; complete: Triple; settle: Triple; toString: string; toJSON: string; readonly canonical: string;
  llvmTarget: string; nameIn: string | null; reasonWithoutName: string | null; multiarchTuple: string | null;
  names: Record<Exclude<Dialect, "docker" | "npm">, string | null>;
  comesBack: boolean; equals: boolean; sameTarget: boolean; facts: Facts; rustcCfg: Record<string, string>;
}> = true;
const ofClass: Same<Answers<Omit<typeof Triple, "prototype">>, {
  parse: Triple; tryParse: Triple | null; read: Triple; explain: Explanation; of: Triple }> = true;
const calls = { changes, check, host, load, meanings, settleAll, translate, version };
const ofCalls: Same<Answers<typeof calls>, { changes: Change[]; check: Finding[]; host: Triple; load: Promise<void>;
  meanings: Meaning[]; settleAll: (string | null)[]; translate: string; version: string }> = true;
const ofErrors: Same<Omit<ParseError, keyof Error>, {
  readonly field: Field | null; readonly text: string; readonly part: string; readonly start: number;
  readonly end: number; readonly suggestion: string | null; readonly reason: string | null;
  readonly needsLibc: boolean; readonly report: string; readonly note: string | null;
  toJSON: () => Record<string, string | number | boolean | null> }> = true;
const ofFacts: Same<Pick<Facts, "endianness" | "pointerWidth" | "armVersion" | "isUnix">, {
  endianness: "little" | "big" | null; pointerWidth: 16 | 32 | 64 | null; armVersion: number | null; isUnix: boolean;
}> = true;
const ofSource: Same<Explanation["fields"], { [Name in Field]: Explained<Values[Name]> }> = true;
const lists: [readonly Field[], readonly Dialect[], readonly KnownVendor[], readonly Architecture[]] =
  [FIELDS, DIALECTS, namesOf("vendor"), namesOf("architecture")];

const triple = Triple.read("linux/arm64", "docker"), libc: ChosenLibc = "musl", model: Facts["dataModel"] = "LP64";
const words = [triple.nameIn("python", { glibc: { major: 2, minor: 17 } }), Triple.read("x", null),
  translate("linux/arm64", "oci", "debian", libc), translate("x", null, "go")];

// A triple that is spread, or that was cloned or sent, has what `Triple.of` takes.
const given: Given = { architecture: "arm64", vendor: "acme", operatingSystem: "ios", version: { major: 17 } };
const copies: Triple[] = [Triple.of(given), Triple.of({ ...triple, environment: "sim" }),
  Triple.of(structuredClone(triple)), Triple.of(triple), triple.with({ ...triple, version: null })];

// What is undefined is as if left out, also with `exactOptionalPropertyTypes`.
const optional = (environment?: Environment, minor?: number, at?: GivenVersion): Triple =>
  triple.with({ environment, architecture: undefined, version: at ?? { major: 1, minor } });

function text(explanation: Explanation): string {
  if (explanation.error) return explanation.error.report;
  const { architecture, vendor } = explanation.fields, source: Explained<Vendor> = vendor;
  const part: string | null = architecture.origin === "alias" ? architecture.part.slice(0, architecture.end)
    : architecture.part;
  return `${explanation.triple.architecture} ${part} ${source.value} ${FIELDS[0].length}`;
}

// @ts-expect-error no system has this name
triple.operatingSystem === "linx";
// @ts-expect-error an alias is never the name of a value
triple.architecture === "arm64";
// @ts-expect-error a version is no part of the name
Triple.of({ operatingSystem: "ios17" });
// @ts-expect-error there is no such field
triple.with({ os: "linux" });
// @ts-expect-error the numbers of the library for C aren't shown
triple.numbers;
// @ts-expect-error no dialect has this name
triple.nameIn("podman");
// @ts-expect-error no C library has this name
triple.complete("gnu");
// @ts-expect-error a triple never changes
triple.vendor = "pc";
// @ts-expect-error a triple comes from a string or from values
new Triple();
// @ts-expect-error there is no such field
namesOf("os");
// @ts-expect-error an error comes from a string that is refused
new ParseError("");
// @ts-expect-error a part may be missing
Triple.explain("avr").fields.vendor.part.length;

export { copies, lists, model, ofCalls, ofClass, ofErrors, ofFacts, ofSource, ofTriple, optional, text, words };
