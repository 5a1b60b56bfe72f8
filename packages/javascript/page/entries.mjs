// What the page copies of each target: what `target-lexicon facts --json`, for a name with `--from`, and
// `target-lexicon what --json` write, without notes. The tests compare.
export const snakeCase = (name) => name.replace(/[A-Z]/g, (letter) => `_${letter.toLowerCase()}`);
export const versionOf = ({ version: it }) => it && `${it.major}.${it.minor}.${it.patch}`;
const place = (text) => ({ target: text, file: null, line: null });

/** The range of a part of a text in bytes. */
export function byteRange(text, { start, end }) {
  const [before, upTo] = [start, end].map((at) => new TextEncoder().encode(text.slice(0, at)).length);
  return { start: before, end: upTo };
}

export function errorEntry(text, error) {
  const field = error.field && snakeCase(error.field);
  return { ...place(text), error: `unrecognized ${(field ?? "field").replace("_", " ")}`, part: error.part,
    ...byteRange(text, error), field, suggestion: error.suggestion };
}

/** Of what a text means, or of the triple that it is. */
export function factsEntry({ FIELDS, Triple }, text, meant = null) {
  const { triple, error } = meant ? { triple: meant } : Triple.explain(text);
  if (error) return errorEntry(text, error);
  const version = ["version", versionOf(triple)];
  const fields = FIELDS.flatMap((name) => [[name, triple[name]], ...(name === "operatingSystem" ? [version] : [])]);
  const facts = { ...Object.fromEntries(fields), ...triple.facts(), llvmTarget: triple.llvmTarget(),
    multiarchTuple: triple.multiarchTuple(), printed: `${triple}`, canonical: triple.canonical };
  const entries = Object.entries(facts).map(([name, fact]) => [snakeCase(name), fact]);
  return { ...place(text), ...Object.fromEntries(entries) };
}

/** A triple with the C libraries that are chosen for those that state none. */
export const completed = (triple, libcs) => libcs.reduce((it, libc) => it.complete(libc), triple);

/**
 * The names of a triple in the dialects that are written, and the reasons of those without one. An Arm without a
 * version gets no C library: where one of Linux is chosen, it has no name in a dialect whose names state that.
 */
function namesAndReasons({ WRITTEN }, triple, libcs) {
  const all = triple.names(), names = {}, reasons = {},
    isBareArm = triple.architecture === "arm" && triple.operatingSystem === "linux" && triple.environment === "unknown";
  const hasChosenLibc = libcs.some((it) => ["glibc", "musl"].includes(it)),
    others = hasChosenLibc && isBareArm ? triple.with({ environment: "gnu" }).names() : all;
  for (const dialect of WRITTEN) {
    const isMissing = all[dialect] === null;
    names[dialect] = all[dialect] === others[dialect] ? all[dialect] : null;
    if (names[dialect] === null) reasons[dialect] = triple.reasonWithoutName(isMissing ? dialect : "rust");
  }
  return { names, reasons };
}

/** Likewise of a tool's name that says a level of the machine, which its triple can't. */
function namesAtLevel({ DIALECTS, ParseError, WRITTEN, translate }, text, triple, tool, libcs) {
  const names = {}, reasons = {}, libc = libcs.find((it) => !triple.complete(it).equals(triple)) ?? null,
    from = DIALECTS.includes(tool) ? tool : null;
  for (const dialect of WRITTEN) {
    try {
      names[dialect] = translate(text, from, dialect, libc);
    } catch (error) {
      if (!(error instanceof ParseError)) throw error;
      names[dialect] = null;
      reasons[dialect] = error.reason;
    }
  }
  return { names, reasons };
}

/** Of what a text means; `libcs` are the chosen C libraries. */
export const toolNames = (lexicon, text, { triple, level, tools }, libcs) =>
  level === null ? namesAndReasons(lexicon, completed(triple, libcs), libcs)
    : namesAtLevel(lexicon, text, triple, tools[0], libcs);

/** What a name means: each triple at a level, bare metal last, with who means it; and the reasons of who mean none. */
export function meaningsOf({ Triple, meanings }, text) {
  const found = new Map(), withoutTriple = {}, isBare = ({ triple }) => Number(triple.operatingSystem === "none");
  for (const { dialect, triple, reason, level } of meanings(text).filter((it) => !it.byWords)) {
    if (triple === null) withoutTriple[dialect] = reason;
    else {
      const key = `${triple} ${level}`, tool = dialect ?? (Triple.tryParse(text) ? "triple" : "spelling");
      found.set(key, { triple, level, tools: [...found.get(key)?.tools ?? [], tool] });
    }
  }
  return { found: [...found.values()].sort((one, other) => isBare(one) - isBare(other)), withoutTriple };
}

/** Of what a name means; `libcs` are the chosen C libraries, of Linux and of Windows. */
export function namesEntry(lexicon, text, libcs) {
  const merged = new Map(), { found, withoutTriple } = meaningsOf(lexicon, text),
    order = ["triple", ...lexicon.DIALECTS, "spelling"];
  for (const meaning of found) {
    const { level, tools } = meaning, { canonical } = completed(meaning.triple, libcs), key = `${canonical} ${level}`;
    const all = [...merged.get(key)?.tools ?? [], ...tools];
    all.sort((one, other) => order.indexOf(one) - order.indexOf(other));
    merged.set(key, { canonical, level, tools: all, ...toolNames(lexicon, text, meaning, libcs) });
  }
  if (!found.length && !Object.keys(withoutTriple).length) return { ...place(text), error: "no tool has the name" };
  return { ...place(text), meanings: [...merged.values()], without_triple: withoutTriple };
}
