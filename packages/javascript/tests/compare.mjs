// Compares target-lexicon.js with what the command `target-lexicon` writes with --json, and its answers with one
// another. It runs in Node and in a browser.
import { byteRange, errorEntry, factsEntry, namesEntry, snakeCase, versionOf } from "../page/entries.mjs";

function explained({ FIELDS, Triple }, text) {
  const { triple, error, fields, suggestion } = Triple.explain(text);
  if (error) return errorEntry(text, error);
  const sources = FIELDS.map((name) => [snakeCase(name),
    { value: fields[name].value, origin: fields[name].origin, part: fields[name].part }]);
  return { ...Object.fromEntries(sources), version: versionOf(triple), has_custom_vendor: triple.hasCustomVendor,
    suggestion };
}

function read({ ParseError, Triple, changes }, text) {
  try {
    return { canonical: Triple.read(text).canonical,
      changes: changes(text).map((it) => ({ part: it.part, ...byteRange(text, it), read_as: it.names })) };
  } catch (error) {
    if (!(error instanceof ParseError)) throw error;
    return errorEntry(text, error);
  }
}

function cfg({ Triple }, text) {
  const { triple, error } = Triple.explain(text);
  if (error) return errorEntry(text, error);
  const { target_family: families, target_pointer_width: width, target_endian = null, ...values } = triple.rustcCfg();
  return { ...values, target_endian, target_family: families?.split(",") ?? [],
    target_pointer_width: width ? Number(width) : null };
}

function translated({ ParseError, translate }, text, from, to, libc) {
  try {
    return { name: translate(text, from, to, libc) };
  } catch (error) {
    if (!(error instanceof ParseError)) throw error;
    return { part: error.part, ...byteRange(text, error), field: error.field, suggestion: error.suggestion };
  }
}

// By the words after which the command wrote: what target-lexicon.js answers to a text, of which the command's answer
// has each key.
const CALLS = { facts: factsEntry, explain: explained, read, cfg, translate: translated,
  what: (lexicon, text, libc) => namesEntry(lexicon, text, libc ? [libc] : []) };

/** Whether answers of target-lexicon.js to a text that parses agree. */
function* agreeing({ FIELDS, Triple, settleAll }, text) {
  const { triple, fields } = Triple.explain(text), parsed = Triple.parse(text), settled = triple.settle(),
    printed = Triple.parse(`${settled}`), { version } = triple;
  const given = FIELDS.filter((name) => fields[name].part !== null),
    isSpecial = given.length === 5 && fields.architecture.end === fields.vendor.end;
  yield parsed.equals(triple) && FIELDS.every((name) => parsed[name] === triple[name]);
  yield given.every((name) => text.slice(fields[name].start, fields[name].end) === fields[name].part &&
    (isSpecial ||
    Triple.of({ [name]: name === "operatingSystem" ? triple[name] : fields[name].part })[name] === triple[name]));
  yield Triple.of({ ...Object.fromEntries(FIELDS.map((name) => [name, triple[name]])), version }).equals(triple) &&
    triple.with({}).equals(triple);
  yield settled.comesBack() && printed.equals(settled) && triple.sameTarget(settled) &&
    settleAll([text])[0] === `${settled}`;
  yield triple.equals(settled) === triple.equals(printed) &&
    triple.comesBack() === Triple.parse(`${triple}`).equals(triple);
}

/** What differs. `answers` has what the command wrote by its words. */
export function differences(lexicon, answers) {
  const found = [];
  for (const [words, list] of Object.entries(answers)) {
    const [word, ...more] = words.split(" ");
    for (const { note, known, file, line, target, ...wanted } of list) {
      if (word === "translate" && wanted.error) delete wanted.error; // the command's own words
      const answer = CALLS[word](lexicon, target, ...more), { meanings } = wanted;
      // The page has what words say as a note, and not among the meanings.
      const isByWords = (it) => it.tools[0] === "words", named = meanings?.filter((it) => !isByWords(it));
      if (word === "what" && more.length === 0) {
        const [ours, theirs] = [lexicon.meanings(target).filter((it) => it.byWords), meanings?.filter(isByWords) ?? []]
          .map((list) => list.map((it) => `${it.triple ?? it.canonical} ${it.level}`).join());
        if (ours !== theirs) found.push(`the words of ${JSON.stringify(target)} say ${ours}, and not ${theirs}`);
      }
      if (named) wanted.meanings = named.map(({ note: _, ...it }) => it);
      for (const [key, value] of Object.entries(wanted)) {
        const [ours, theirs] = [answer[key], value].map((it) => JSON.stringify(it));
        if (ours !== theirs && !(word === "what" && "error" in answer && key !== "error"))
          found.push(`${words} ${JSON.stringify(target)}: ${key} is ${ours}, and not ${theirs}`);
      }
      if (word === "facts" && !wanted.error)
        [...agreeing(lexicon, target)].forEach((agrees, at) => agrees ||
          found.push(`agreement ${at} of ${JSON.stringify(target)}`));
    }
  }
  return found;
}
