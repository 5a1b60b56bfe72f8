// What the page says of a target: whether it is a triple, a tool's name, suspicious or refused, and what may be meant
// instead. Nothing here is of a browser: page.js shows it. `lexicon` has the calls of target-lexicon.js.
import { completed, errorEntry, factsEntry, meaningsOf } from "./entries.mjs";

// The linkers of an object format.
const LINKERS = { elf: "ld, ld.lld, mold", macho: "ld64, ld64.lld", coff: "link.exe, lld-link", wasm: "wasm-ld",
  xcoff: "AIX's ld" };

/** The keys of pairs, each with its values. */
export function grouped(pairs) {
  const found = new Map();
  for (const [key, value] of pairs) {
    if (!found.has(key)) found.set(key, []);
    found.get(key).push(value);
  }
  return found;
}

/** Reasons why there is no name or no triple, each with the tools that give it. */
export const byReason = (reasons) => grouped(Object.entries(reasons).map(([tool, reason]) => [reason, tool]));

/** What a driver asks, and the answers that there are. */
export function driverFacts(triple) {
  const facts = triple.facts(), isMingw = triple.operatingSystem === "windows" && triple.environment.startsWith("gnu");
  const sizes = ["short", "int", "long", "longLong", "float", "double"].filter((it) => facts[`${it}Size`] !== null)
    .map((it) => `${it === "longLong" ? "long long" : it} ${facts[`${it}Size`]}`);
  const layout = (size, alignment) => size && `${size}, aligned to ${alignment}`;
  return Object.entries({
    "calling convention": facts.defaultCallingConvention, "data model": facts.dataModel,
    "object format": facts.objectFormat, linker: isMingw ? "ld of mingw-w64, ld.lld" : LINKERS[facts.objectFormat],
    "C library": facts.cLibrary, "floating point": facts.floatAbi, "C types in bytes": sizes.join(", "),
    "long double": layout(facts.longDoubleSize, facts.longDoubleAlignment),
    wchar_t: layout(facts.wcharSize, facts.wcharAlignment), "family": facts.family,
    "Arm version": facts.armVersion, "Arm profile": facts.armProfile, "like Unix": facts.isUnix ? "yes" : "no",
    "LLVM target": triple.llvmTarget(), "Debian's multiarch tuple": triple.multiarchTuple(),
  }).filter(([, answer]) => answer);
}

/** What `Triple.read` gives: the triple or the error. */
function readIn({ ParseError, Triple }, text, dialect) {
  try {
    return { triple: Triple.read(text, dialect) };
  } catch (error) {
    if (!(error instanceof ParseError)) throw error;
    return { error };
  }
}

/** What a name means. That a single word is a bare machine to GNU nobody means who has the name from another tool. */
function meantBy(lexicon, text) {
  const { found, withoutTriple } = meaningsOf(lexicon, text),
    isBare = ({ tools }) => !text.includes("-") && tools.every((it) => it === "gnu");
  const isNamed = Object.keys(withoutTriple).length > 0 || found.some((it) => !isBare(it));
  return { found: isNamed ? found.filter((it) => !isBare(it)) : found, withoutTriple };
}

/**
 * What a name means that is a triple with a custom vendor. GNU drops each vendor, so it counts only where LLVM knows
 * the name too.
 */
function meaningsOfCustom(lexicon, text, { found, withoutTriple }) {
  const others = found.filter(({ tools }) => tools.some((it) => it !== "gnu" && it !== "triple")),
    { triple } = readIn(lexicon, text);
  return { found: triple && !triple.hasCustomVendor ? [{ triple: triple.settle(), tools: ["spelling"] }, ...others]
    : others, withoutTriple };
}

/** Whether two triples are of the same target, up to a known vendor and how much is written of it. */
const isSame = (one, own) => one.canonical === own.canonical
  || !own.hasCustomVendor && one.architecture === own.architecture && one.operatingSystem === own.operatingSystem
  && one.environment === own.environment && one.facts().objectFormat === own.facts().objectFormat;

/**
 * Whether a string is a name of rustc's. Then it means itself, if it is a triple, and has one reason, if it is none.
 */
const isOfRustc = ({ found, withoutTriple }) => "rust" in withoutTriple ||
  found.some(({ tools }) => tools.includes("rust"));

/**
 * What tools mean by a string, except by the meaning `own`: a triple of each, or the reason why no triple has the name.
 * That of a name of rustc's is of no tools: it says whose it is.
 */
function* otherMeanings(meant, own) {
  const isRustc = isOfRustc(meant), { rust, ...without } = meant.withoutTriple;
  for (const { triple, tools } of meant.found) {
    const named = tools.filter((it) => it !== "triple" && !(isRustc && ["gnu", "rust"].includes(it)));
    if (named.length && !(own && isSame(triple, own))) yield { tools: named, meant: triple.canonical };
  }
  if (!isRustc) for (const [reason, tools] of byReason(without)) yield { tools, reason };
  else if (rust && (!own || own.operatingSystem === "unknown")) yield { tools: [], reason: rust };
}

/** The nearest names of tools for one that nobody knows: for each, except a machine in a path, which tools have it. */
function nearestNames(lexicon, text) {
  const suggested = (dialect) => [readIn(lexicon, text, dialect).error?.suggestion, dialect],
    isNear = ([name]) => name && (name.includes("-") || !text.includes(`/${name}/`));
  const found = lexicon.DIALECTS.filter((dialect) => dialect !== "gnu").map(suggested).filter(isNear);
  return [...grouped(found)].map(([name, tools]) => ({ name, tools }));
}

function parsed(lexicon, { text, triple, fields, suggestion }, all) {
  const isRustc = isOfRustc(all), { vendor } = fields,
    meant = triple.hasCustomVendor && !isRustc ? meaningsOfCustom(lexicon, text, all) : all;
  const isKnown = triple.hasCustomVendor && meant.found.length > 0, isOdd = !isRustc && Boolean(isKnown || suggestion);
  return { kind: isOdd ? "suspicious" : "other", triple, fields, wrong: isOdd && vendor.part !== null ? vendor : null,
    suggestion: isOdd && !isKnown ? suggestion : null, others: [...otherMeanings(meant, triple)], level: null };
}

/** A name of tools that is no triple is its first meaning. */
function named({ FIELDS }, { found: [first, ...others], withoutTriple }) {
  const { triple, level, tools } = first;
  const fields = Object.fromEntries(FIELDS.map((name) =>
    [name, name === "binaryFormat" ? { origin: "implied", part: null }
      : { origin: "given", part: triple[name] === "unknown" ? null : triple[name] }]));
  return { kind: "other", triple, fields, tools, level,
    others: [...otherMeanings({ found: others, withoutTriple }, triple)],
    isSeveral: others.some((it) => it.tools.some((tool) => tools.includes(tool))) };
}

/** The end of names of Python's, which are of both machines. */
const UNIVERSAL = ["x86_64-apple-darwin", "aarch64-apple-darwin"].map((meant) => ({ tools: ["python"], meant }));

function refused(lexicon, { text, error, fields, suggestion }, meant) {
  const others = text === "universal2" ? UNIVERSAL : [...otherMeanings(meant, null)],
    isNearName = !others.length && !suggestion && error.start === 0 && text.length < 1000, // as no name is longer
    nearest = isNearName ? nearestNames(lexicon, text) : [],
    found = isNearName && !nearest.length ? lexicon.check(text).find((it) => it.suggestion) : null;
  return { kind: "refused", error, wrong: found ?? error, fields, others, nearest,
    suggestion: others.length ? null : found?.suggestion ?? suggestion };
}

/** The first of what `rowOf` says of a triple of a known vendor, in a small part of the time; null of anything else. */
export function plainRow({ Triple }, text, libcs) {
  const triple = Triple.tryParse(text);
  return triple && !triple.hasCustomVendor ? { kind: "other", triple: completed(triple, libcs) } : null;
}

/**
 * What the page says of a target. Its `kind` is `refused`, or it has a triple, which has the C libraries `libcs` where
 * it states none; a name has its `tools`. `suggestion` is what the part `wrong` may mean, and `others` is what tools
 * mean by it that isn't shown as its fields.
 */
export function rowOf(lexicon, text, libcs) {
  const explained = lexicon.Triple.explain(text), meant = meantBy(lexicon, text);
  const row = !explained.error ? parsed(lexicon, explained, meant)
    : meant.found.length ? named(lexicon, meant) : refused(lexicon, explained, meant);
  if (row.kind === "refused") return { text, ...row };
  const triple = completed(row.triple, libcs), isChosen = triple.environment !== row.triple.environment;
  const chosen = { environment: { origin: "chosen", part: triple.environment } };
  return { text, ...row, stated: row.triple, triple, fields: { ...row.fields, ...isChosen && chosen } };
}

/** What is copied of a target: the facts of the triple that its row shows, but none of a name of several machines. */
export function factsCopied(lexicon, text, libcs) {
  const { triple, tools, isSeveral } = rowOf(lexicon, text, libcs),
    { error } = isSeveral ? readIn(lexicon, text, tools[0]) : {};
  return error ? { ...errorEntry(text, error), error: `no triple means the same: ${error.reason}` }
    : factsEntry(lexicon, text, triple);
}
