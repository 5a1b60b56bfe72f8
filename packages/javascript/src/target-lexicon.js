// Target triples for JavaScript, over the module target-lexicon.wasm. Nothing here is proved: this file moves strings
// and numbers in and out of the module's memory, and gives the numbers their names. Every answer is the module's,
// except for `host`. target-lexicon.d.ts says what each call does. `build` puts names.js, the lists, before this file.
//
// SPDX-License-Identifier: Apache-2.0 WITH LLVM-exception

const OK = 0;
const REFUSED = UNRECOGNIZED_FIELD; // the last status of a refused string
const CUSTOM = 255; // the number of every vendor that has none of its own
const ORIGINS = ["not given", "given", "implied", "alias"]; // where a value comes from, by the numbers

// Where the structs of target_lexicon.h are, after the module's own data, with pointers and sizes of 32 bits. Strings
// and buffers follow them. In a triple the numbers are at 0 (16 bits), 2, 3, 4, 5, 6, 7, 8 (8 bits each) and 10 (16
// bits); the string of a custom vendor and its size are at 12 and 16.
const FIRST = 0, SECOND = 20, LENGTH = 40, ANSWER = 44, ERROR = 48, FACTS = 64, VENDOR = 12, SOURCE_SIZE = 12;
const SOURCE_TABLE = FACTS + ((FACTS_SIZE + 3) & ~3), TEXTS = SOURCE_TABLE + FIELDS.length * SOURCE_SIZE;
const RANGE = ERROR + 4; // that of an error, or a part
const REASON = ERROR + 12; // why a name isn't read or translated
const BY_WORDS = 255; // in the place of a dialect
const MAX_MEANINGS = 32, MEANING_SIZE = 32, MEANING_NOTE = 28; // of a struct after a dialect, a status and a triple
const FINDING_SIZE = 32; // where a word and its part begin and end, a status, the names for the part and how much stays
const PAGE = 65536;
const SHORT = 64; // up to here a loop over ASCII is faster than the encoder and the decoder
const ROOM = 128; // the first try for a string that the module writes, beside a custom vendor
const GROWTH = 22; // how many bytes longer than a string its canonical form is at most
const LARGE = 1 << 26; // a memory that a long string made larger than this is given back

const encoder = new TextEncoder();
const decoder = new TextDecoder("utf-8", { ignoreBOM: true });

/** An instance of the module: its calls and its memory, in which one call at a time has its arguments. */
class Instance {
  constructor(compiled, instance = new WebAssembly.Instance(compiled)) {
    const { memory, __heap_base: base, ...others } = instance.exports;
    this.compiled = compiled;
    this.isSpent = false; // an instance is replaced after an exception in a call, and when its memory is large
    this.calls = Object.fromEntries(Object.entries(others).map(([name, call]) => [name.replace("lexicon_", ""), call]));
    this.memory = memory;
    this.base = (base.value + 15) & ~15;
    this.hold(ROOM);
    this.names = FIELDS.map((_, field) => Object.freeze([...this.namesIn(field)]));
    this.numbers = this.names.map((names) => new Map(names.map((name, number) => [name, number])));
  }

  /** Makes room for so many bytes of strings and buffers. */
  hold(size) {
    const missing = this.base + TEXTS + size - this.memory.buffer.byteLength;
    try {
      if (missing > 0) this.memory.grow(Math.ceil(missing / PAGE));
    } catch (error) {
      throw new RangeError("the string is too long for the memory", { cause: error });
    }
    if (this.bytes?.buffer !== this.memory.buffer) {
      this.bytes = new Uint8Array(this.memory.buffer);
      this.view = new DataView(this.memory.buffer);
      this.isSpent = this.bytes.length > LARGE;
    }
  }

  call(name, ...values) {
    try {
      return this.calls[name](...values);
    } catch (error) {
      this.isSpent = true; // JavaScript's stack may be full; the module takes no call after one that was cut off
      throw error;
    }
  }

  number(place) {
    return this.view.getUint32(this.base + place, true);
  }

  /**
   * Writes a string at a place after the structs; its bytes as the calls take them, a pointer and a size. A lone
   * surrogate becomes U+FFFD, which no target has.
   */
  text(text, at = 0) {
    const start = this.base + TEXTS + at, length = text.length;
    this.hold(at + 3 * length + ROOM);
    if (length <= SHORT) {
      const bytes = this.bytes;
      let all = 0;
      for (let i = 0; i < length; i++) {
        const unit = text.charCodeAt(i);
        all |= unit;
        bytes[start + i] = unit;
      }
      if (all < 128) return [start, length];
    }
    const { written } = encoder.encodeInto(text, this.bytes.subarray(start));
    return [start, written];
  }

  read(start, size) {
    const bytes = this.bytes;
    if (size <= SHORT) {
      let text = "", all = 0;
      for (let i = start; i < start + size; i++) {
        all |= bytes[i];
        text += String.fromCharCode(bytes[i]);
      }
      if (all < 128) return text;
    }
    return decoder.decode(bytes.subarray(start, start + size));
  }

  /**
   * Calls with a buffer of enough size, after `used` bytes of strings, for the string that the module writes; null if
   * it has none.
   */
  written(name, used, ...values) {
    for (let room = used + ROOM; ; room = this.number(LENGTH) + 1) {
      this.hold(used + room);
      const out = this.base + TEXTS + used;
      const status = this.call(name, ...values, out, room, this.base + LENGTH);
      if (status === OK) return this.read(out, this.number(LENGTH));
      if ([TRIPLE_WITHOUT_NAME, NEEDS_C_LIBRARY, NO_SUCH_CHANGE, NO_SUGGESTION].includes(status)) return null;
      if (status !== TOO_SMALL) throw failure(status);
    }
  }

  /** What a call writes of a triple, or null; `before` and `after` are its arguments beside the triple. */
  writtenOf(triple, name, before = [], after = []) {
    const { start, used } = this.triple(triple);
    return this.written(name, used, ...before, start, ...after);
  }

  /** The string at a pointer that the module returned, up to the zero byte; null for the pointer 0. */
  string(start) {
    return start === 0 ? null : this.read(start, this.bytes.indexOf(0, start) - start);
  }

  /** Writes an error, and returns where it is. */
  error(status, start, end) {
    [status, start, end].forEach((number, index) => this.view.setUint32(this.base + ERROR + 4 * index, number, true));
    return this.base + ERROR;
  }

  *namesIn(field) {
    for (let number = 0, name; (name = this.string(this.call("name", field, number))) !== null; number++) yield name;
  }

  /** Writes a triple. Where it is, and the bytes of strings that this used. */
  triple(triple, place = FIRST, at = 0) {
    const { bytes, view } = this, { version, vendor, hasCustomVendor } = triple, numbers = numbersOf(triple),
      { major = 0, minor = 0, patch = 0 } = version ?? {}, start = this.base + place;
    view.setUint16(start, numbers.architecture, true);
    bytes[start + 2] = numbers.vendor;
    bytes[start + 3] = numbers.operatingSystem;
    bytes[start + 4] = numbers.environment;
    bytes[start + 5] = numbers.binaryFormat;
    bytes[start + 6] = version ? 1 : 0;
    bytes[start + 7] = minor;
    bytes[start + 8] = patch;
    view.setUint16(start + 10, major, true);
    const [text, size] = hasCustomVendor ? this.text(vendor, at) : [0, 0];
    this.view.setUint32(start + VENDOR, text, true);
    this.view.setUint32(start + VENDOR + 4, size, true);
    return { start, used: at + size };
  }

  /** The triple in the struct at a place, the first one. */
  tripleAt(place = FIRST) {
    const { bytes, names, view } = this, start = this.base + place;
    const numbers = {
      architecture: view.getUint16(start, true),
      vendor: bytes[start + 2],
      operatingSystem: bytes[start + 3],
      environment: bytes[start + 4],
      binaryFormat: bytes[start + 5],
    };
    const values = {
      architecture: names[0][numbers.architecture],
      vendor: numbers.vendor === CUSTOM ? this.read(this.number(place + VENDOR), this.number(place + VENDOR + 4))
        : names[1][numbers.vendor],
      operatingSystem: names[2][numbers.operatingSystem],
      environment: names[3][numbers.environment],
      binaryFormat: names[4][numbers.binaryFormat],
    };
    const version = bytes[start + 6] ? { major: view.getUint16(start + 10, true), minor: bytes[start + 7],
      patch: bytes[start + 8] } : null;
    return make(values, version, numbers);
  }

  /** The triple that a call makes of one. */
  changed(triple, name, ...values) {
    expectOk(this.call(name, this.triple(triple).start, ...values));
    return this.tripleAt();
  }

  answer(name, first, second) {
    const one = this.triple(first);
    const more = second ? [this.triple(second, SECOND, one.used).start] : [];
    // The second's string may have grown the memory, but it moved nothing.
    return this.call(name, one.start, ...more) === 1;
  }
}

const failure = (status) => new RangeError(`the module returned status ${status}`);

function expectOk(status) {
  if (status !== OK) throw failure(status);
}

let loaded;

function instance() {
  if (!loaded) throw new Error("the module is not loaded: await load(..) first");
  if (loaded.isSpent) loaded = new Instance(loaded.compiled);
  return loaded;
}

export async function load(module) {
  if (module instanceof WebAssembly.Module) loaded = new Instance(module);
  else {
    const compiled = await WebAssembly.compile(module);
    loaded = new Instance(compiled, await WebAssembly.instantiate(compiled));
  }
}

export function version() {
  const it = instance();
  return it.string(it.call("version"));
}

/** What a value is, for the message that refuses it: `an object` is none of another kind, such as a Map. */
function kindOf(value) {
  if (value === null || value === undefined) return `${value}`;
  const kind = typeof value === "object" ? Object.prototype.toString.call(value).slice(8, -1) : typeof value;
  return `${/^[AEIO]/i.test(kind) ? "an" : "a"} ${["Array", "Object"].includes(kind) ? kind.toLowerCase() : kind}`;
}

/** An argument of the right kind, `form`. Of every other kind this is the error. */
function checked(isRight, name, form, value) {
  if (!isRight) throw new TypeError(`${name} is ${form}, not ${kindOf(value)}`);
  return value;
}

const stringOf = (value, name = "text") => checked(typeof value === "string", name, "a string", value);
const objectOf = (value, name, form) =>
  checked(kindOf(value) === "an object", name, `an object such as ${form}`, value);

/**
 * The question whether one of these names was meant by a word: it is in capitals, goes on, is cut off, or has its
 * letters in another order.
 */
function meant(word, names) {
  const lower = word.toLowerCase(), sorted = (it) => [...it].sort().join("");
  const name = names.find((it) => lower.startsWith(it) || lower.length > 1 && it.startsWith(lower))
    ?? names.find((it) => sorted(it) === sorted(lower));
  return name ? `; did you mean ${name}?` : "";
}

/** The number of a dialect in target_lexicon.h. */
function dialectOf(value, argument = "dialect") {
  const name = stringOf(value, argument),
    index = DIALECTS.indexOf(Object.hasOwn(OTHER_NAMES, name) ? OTHER_NAMES[name] : name);
  const names = () => [...DIALECTS, ...Object.keys(OTHER_NAMES)];
  if (index < 0)
    throw new TypeError(`there is no dialect ${name}${meant(name, names()) || `: they are ${DIALECTS.join(", ")}`}`);
  return index + 1;
}

/** The number of a C library in target_lexicon.h. */
function libcOf(value) {
  const name = stringOf(value, "libc"), number = CHOSEN_LIBCS.indexOf(name);
  const hint = () => (name === "gnu" ? "; did you mean glibc or mingw?" : meant(name, CHOSEN_LIBCS.slice(1)));
  if (number < 1) throw new TypeError(`there is no C library ${name}${hint()}`);
  return number;
}

/** The largest number of each part of a version. */
const LARGEST = Object.freeze({ major: 65535, minor: 255, patch: 255 });

/**
 * A version as every call takes it, `{ major, minor, patch }`: its numbers, of which the last two are 0 if they are
 * left out.
 */
function fullVersion(value) {
  for (const part of Object.keys(objectOf(value, "version", "{ major: 17, minor: 2 }")))
    if (!Object.hasOwn(LARGEST, part)) throw new TypeError(`a version has no ${part}`);
  if (value.major === undefined) throw new TypeError("a version has a major: { major: 17, minor: 2 }");
  const { major, minor = 0, patch = 0 } = value, version = { major, minor, patch };
  for (const [part, most] of Object.entries(LARGEST)) {
    const number = version[part];
    checked(typeof number === "number", part, "a number", number);
    if (!Number.isInteger(number) || number < 0 || number > most)
      throw new RangeError(`a version's ${part} is a whole number up to ${most}`);
  }
  return version;
}

/** Of what names state versions, in the order of the struct. */
const VERSIONS_OF = ["glibc", "musl", "macos", "ios", "android", "freebsd", "netbsd", "openbsd", "dragonfly",
  "windows"];

/** Where the versions that a name states are in the memory; 0 if there are none. Facts aren't needed meanwhile. */
function versionsAt(it, values) {
  if (values === undefined || values === null) return 0;
  const given = Object.entries(givenValues(values, "versions", "{ glibc: { major: 2, minor: 17 } }")),
    start = it.base + FACTS;
  for (const [name] of given) if (!VERSIONS_OF.includes(name)) throw new TypeError(`there are no versions of ${name}`);
  it.bytes.fill(0, start, start + 4 * VERSIONS_OF.length);
  for (const [name, value] of given) {
    const { major, minor, patch } = fullVersion(value), place = start + 4 * VERSIONS_OF.indexOf(name);
    if (patch !== 0) throw new RangeError("a name states at most two numbers of a version");
    it.view.setUint16(place, major, true);
    it.bytes[place + 2] = minor;
  }
  return start;
}

/** The values of an argument, of which those that are undefined are as if left out. */
const givenValues = (values, name = "values", form = '{ architecture: "x86_64" }') =>
  Object.fromEntries(Object.entries(objectOf(values, name, form)).filter(([, value]) => value !== undefined));

const tripleOf = (value) => checked(value instanceof Triple, "other", "a Triple", value);

export class ParseError extends Error {
  constructor(message, members) {
    super(message);
    Object.assign(this, { name: "ParseError", ...members });
  }

  toJSON() {
    const { name, message, field, text, part, start, end, suggestion, reason, needsLibc } = this;
    return { name, message, field, text, part, start, end, suggestion, reason, needsLibc };
  }
}

/** What the module knows of a refused string; by which calls it is read, or why no triple means it; or null. */
function noteOf(it, text, given, dialect) {
  const note = it.written("note", given[1], dialect, ...given);
  if (note || dialect) return note;
  const readers = meaningsBy("readers", text), without = readers.find((it) => it.triple === null);
  if (without) return `it is a name of ${without.dialect} without a triple: ${without.reason}`;
  const calls = readers.map(({ dialect }) => dialect ? `Triple.read(text, "${dialect}")` : "Triple.read(text)");
  return calls.length ? `it is a name of another tool: use ${calls.join(" or ")}` : null;
}

/** The range of a string at a place in the memory: in bytes, and in units of UTF-16. */
function rangesAt(it, place, text, size) {
  const range = [it.number(place), it.number(place + 4)];
  if (size === text.length) return [range, range];
  const from = it.base + TEXTS, units = (at) => decoder.decode(it.bytes.subarray(from, from + at)).length;
  return [range, range.map(units)];
}

/** The error of the string that was written last; `dialect` is the number of that in which it is a name, and else 0. */
function errorAt(it, status, text, given, dialect = 0) {
  if (status > REFUSED && ![UNKNOWN_NAME, NAME_WITHOUT_TRIPLE, TRIPLE_WITHOUT_NAME, NEEDS_C_LIBRARY].includes(status))
    return failure(status);
  const [range, [start, end]] = rangesAt(it, RANGE, text, given[1]), reason = it.string(it.number(REASON));
  const written = (name) => it.written(name, given[1], ...given, it.error(status, ...range));
  const suggestion = status === UNKNOWN_NAME ? it.written("name_suggestion", given[1], dialect, ...given)
    : written("suggestion");
  let report = written("error_text");
  if (reason !== null) report += ` ${reason}`;
  else if (status === UNKNOWN_NAME && suggestion !== null) report += ` did you mean \`${suggestion}\`?`;
  // To ask each tool takes twice the time of all else, and a suggestion after a known machine says enough.
  const isMeant = dialect === 0 && start > 0 && suggestion !== null,
    note = (status <= REFUSED || status === UNKNOWN_NAME) && !isMeant ? noteOf(it, text, given, dialect) : null;
  return new ParseError(note === null ? report : `${report}\n  note: ${note}`, { field: FIELDS[status - 1] ?? null,
    text, part: text.slice(start, end), start, end, suggestion, reason, needsLibc: status === NEEDS_C_LIBRARY,
    report, note });
}

/** The triple of a string, by a call that takes the number of a dialect before it, or doesn't. */
function tripleBy(call, text, ...dialect) {
  const it = instance(), given = it.text(stringOf(text)),
    status = it.call(call, ...dialect, ...given, it.base + FIRST, it.base + ERROR);
  if (status === OK) return it.tripleAt();
  throw errorAt(it, status, text, given, ...dialect);
}

/** Where the value of a field comes from. */
function sourceAt(it, field, text, size) {
  const place = SOURCE_TABLE + field * SOURCE_SIZE, origin = ORIGINS[it.number(place)];
  if (origin === "not given" || origin === "implied") return { origin, part: null };
  const [, [start, end]] = rangesAt(it, place + 4, text, size);
  return { origin, part: text.slice(start, end), start, end };
}

const SECRET = Symbol();

const make = (values, version, numbers) => new Triple(SECRET, values, version, numbers);

let numbersOf;

export class Triple {
  #numbers; // of the values in target_lexicon.h
  static #friend = (numbersOf = (it) => it.#numbers);

  constructor(secret, values, version, numbers) {
    if (secret !== SECRET) throw new TypeError("use Triple.parse or Triple.of");
    this.architecture = values.architecture;
    this.vendor = values.vendor;
    this.operatingSystem = values.operatingSystem;
    this.environment = values.environment;
    this.binaryFormat = values.binaryFormat;
    this.version = version && Object.freeze(version);
    this.hasCustomVendor = numbers.vendor === CUSTOM;
    this.#numbers = numbers;
    Object.freeze(this);
  }

  static parse(text) {
    return tripleBy("parse", text);
  }

  static tryParse(text) {
    const it = instance(), status = it.call("parse", ...it.text(stringOf(text)), it.base + FIRST, it.base + ERROR);
    if (status > REFUSED) throw failure(status);
    return status === OK ? it.tripleAt() : null;
  }

  static read(text, dialect = null) {
    return tripleBy("read", text, dialect === null ? 0 : dialectOf(dialect));
  }

  static explain(text) {
    const it = instance(), given = it.text(stringOf(text)), size = given[1];
    const status = it.call("explain", ...given, it.base + FIRST, it.base + SOURCE_TABLE, it.base + ERROR);
    if (status > REFUSED) throw failure(status);
    const triple = status === OK ? it.tripleAt() : null;
    const found = (field, index) => ({ value: triple && triple[field], ...sourceAt(it, index, text, size) });
    const fields = Object.fromEntries(FIELDS.map((field, index) => [field, found(field, index)]));
    if (triple)
      return { text, triple, error: null, fields, suggestion: it.written("vendor_suggestion", size, it.base + FIRST) };
    const error = errorAt(it, status, text, given);
    for (const field of FIELDS) fields[field].value = valueOf(field, fields[field].part);
    return { text, triple, error, fields, suggestion: error.suggestion };
  }

  static of(given) {
    const { version = null, hasCustomVendor: _, ...values } = givenValues(given);
    const it = instance(), numbers = {}, names = {};
    for (const field of Object.keys(values))
      if (!FIELDS.includes(field)) throw new TypeError(`a triple has no ${field}`);
    for (const [index, field] of FIELDS.entries()) {
      const name = stringOf(values[field] ?? "unknown", field);
      const known = field === "operatingSystem" ? it.numbers[index].get(name) ?? null : numberOf(field, name);
      if (known === null) throw new RangeError(`no ${field} has the name ${name}${nearest(it, index, name)}`);
      numbers[field] = known;
      names[field] = known === CUSTOM && field === "vendor" ? name : it.names[index][known];
    }
    const full = version === null ? null : fullVersion(version),
      { impliedFormat, isLikeDarwin } = make(names, null, numbers).facts();
    if (full !== null && !isLikeDarwin)
      throw new RangeError(`the operating system ${names.operatingSystem} has no version`);
    if (values.binaryFormat != null) return make(names, full, numbers);
    return make({ ...names, binaryFormat: impliedFormat }, full,
      { ...numbers, binaryFormat: it.numbers[4].get(impliedFormat) });
  }

  with(given) {
    const values = givenValues(given);
    const fields = Object.fromEntries(FIELDS.map((field) => [field, this[field]]));
    if (this.binaryFormat === this.facts().impliedFormat) delete fields.binaryFormat;
    return Triple.of({ ...fields, version: "operatingSystem" in values ? null : this.version, ...values });
  }

  toString() {
    return instance().writtenOf(this, "print");
  }

  toJSON() {
    return this.toString();
  }

  /** What `console.log` of Node shows: the call that makes the triple, on one line. */
  [Symbol.for("nodejs.util.inspect.custom")]() {
    return this.comesBack() ? `Triple.parse(${JSON.stringify(this.toString())})`
      : `Triple.of(${JSON.stringify({ ...this, hasCustomVendor: undefined })})`;
  }

  names() {
    return Object.fromEntries(DIALECTS.map((dialect) => [dialect, this.nameIn(dialect)]));
  }

  nameIn(dialect, versions) {
    const it = instance(), number = dialectOf(dialect);
    return it.writtenOf(this, "write_versioned", [number], [versionsAt(it, versions)]);
  }

  reasonWithoutName(dialect, versions) {
    const it = instance(), number = dialectOf(dialect), said = versionsAt(it, versions), { start } = it.triple(this);
    it.view.setUint32(it.base + ANSWER, 0, true);
    it.call("write_versioned", number, start, said, 0, 0, 0, it.base + ANSWER);
    return it.string(it.number(ANSWER));
  }

  complete(libc) {
    return instance().changed(this, "complete", libcOf(libc));
  }

  settle() {
    return instance().changed(this, "settle");
  }

  get canonical() {
    return this.settle().toString();
  }

  comesBack() {
    return instance().answer("comes_back", this);
  }

  equals(other) {
    return instance().answer("equal", this, tripleOf(other));
  }

  sameTarget(other) {
    return instance().answer("same_target", this, tripleOf(other));
  }

  llvmTarget() {
    return instance().writtenOf(this, "llvm_target");
  }

  multiarchTuple() {
    return instance().writtenOf(this, "multiarch_tuple");
  }

  rustcCfg() {
    const found = {}, lines = instance().writtenOf(this, "rustc_cfg");
    for (const [, name, value = ""] of lines.matchAll(/^(\w+)(?:="(.*)")?$/gm))
      found[name] = name in found ? `${found[name]},${value}` : value;
    return found;
  }

  facts() {
    const it = instance(), start = it.base + FACTS;
    expectOk(it.call("facts", it.triple(this).start, start, FACTS_SIZE));
    return factsOf(it.bytes.subarray(start, start + FACTS_SIZE), it.names[4]);
  }
}

export function translate(name, from, to, libc = null, versions = null) {
  const it = instance(), source = from === null ? 0 : dialectOf(from, "from"), target = dialectOf(to, "to"),
    number = libc === null ? 0 : libcOf(libc), said = versionsAt(it, versions);
  const given = it.text(stringOf(name, "name")), out = it.base + TEXTS + given[1];
  const status = it.call("translate", source, ...given, number, said, target, out, ROOM, it.base + LENGTH,
    it.base + ERROR);
  if (status === OK) return it.read(out, it.number(LENGTH));
  throw errorAt(it, status, name, given, source);
}

/** What a string means by one of the calls that fill an array with that. */
function meaningsBy(call, text) {
  const it = instance(), [start, size] = it.text(stringOf(text)), out = ((start + size + 3) & ~3) - it.base;
  it.hold(size + MAX_MEANINGS * MEANING_SIZE + ROOM);
  expectOk(it.call(call, start, size, it.base + out, MAX_MEANINGS, it.base + LENGTH));
  return Array.from({ length: it.number(LENGTH) }, (_, at) => {
    const place = out + at * MEANING_SIZE, whose = it.number(place), note = it.string(it.number(place + MEANING_NOTE)),
      of = { dialect: DIALECTS[whose - 1] ?? null, byWords: whose === BY_WORDS };
    return it.number(place + 4) === OK ? { ...of, triple: it.tripleAt(place + 8), reason: null, level: note }
      : { ...of, triple: null, reason: note, level: null };
  });
}

export const meanings = (text) => meaningsBy("meanings", text);

export function settleAll(targets) {
  const isRight = typeof targets !== "string" && typeof targets?.[Symbol.iterator] === "function";
  const lines = Array.from(checked(isRight, "targets", "an iterable of strings", targets),
    (it, at) => typeof it === "string" ? it : stringOf(it, `targets[${at}]`));
  if (lines.length === 0) return [];
  const text = lines.map((it) => (it.includes("\n") ? "" : it)).join("\n") + "\n";
  const it = instance(), given = it.text(text), size = given[1] + GROWTH * lines.length + 1;
  it.hold(given[1] + size);
  const out = it.base + TEXTS + given[1];
  expectOk(it.call("settle_lines", ...given, out, size, it.base + LENGTH));
  return it.read(out, it.number(LENGTH)).split("\n", lines.length).map((line) => line || null);
}

export function changes(text) {
  const it = instance(), given = it.text(stringOf(text)), found = [];
  for (let names; (names = it.written("changes", given[1], ...given, found.length, it.base + RANGE)) !== null; ) {
    const [, [start, end]] = rangesAt(it, RANGE, text, given[1]);
    found.push({ part: text.slice(start, end), start, end, names });
  }
  return found;
}

/**
 * What a call finds in a text, of so many bytes each, whose first two numbers are where a word begins and ends: the
 * place of each, and the question which unit of UTF-16 of the text a number in it is, which is asked in their order.
 */
function foundIn(text, call, bytes) {
  const it = instance(), [start, size] = it.text(stringOf(text)), out = (start + size + 3) & ~3;
  for (let most = size >> 4, status = TOO_SMALL; status === TOO_SMALL; most = it.number(LENGTH)) {
    it.hold(size + bytes * most + ROOM);
    status = it.call(call, start, size, out, most, it.base + LENGTH);
    if (status !== OK && status !== TOO_SMALL) throw failure(status);
  }
  let units = 0, before = start; // so many units of UTF-16 are before this place
  const unitsAt = (place) => {
    const next = start + it.number(place);
    units += size === text.length ? next - before : decoder.decode(it.bytes.subarray(before, next)).length;
    before = next;
    return units;
  };
  return { it, places: Array.from({ length: it.number(LENGTH) }, (_, at) => out - it.base + at * bytes), unitsAt };
}

export function targetsIn(text) {
  const { places, unitsAt } = foundIn(text, "targets", 8);
  return places.map((place) => {
    const start = unitsAt(place), end = unitsAt(place + 4);
    return { text: text.slice(start, end), start, end };
  });
}

export function check(text) {
  const { it, places, unitsAt } = foundIn(text, "check", FINDING_SIZE);
  return places.map((place) => {
    const [word, start, end, last] = [0, 8, 12, 4].map((at) => unitsAt(place + at));
    const [status, names, size, kept] = [16, 20, 24, 28].map((at) => it.number(place + at)),
      part = text.slice(start, end), suggestion = names ? it.read(names, size) + part.slice(part.length - kept) : null;
    return { text: text.slice(word, last), part, start, end, suggestion, field: FIELDS[status - 1] ?? null,
      isUnclear: status === NO_ANSWER };
  });
}

/** The question whether another name of a field was meant, without a version or a name of a later field. */
function nearest(it, field, name) {
  const given = it.text(name), suggestion = it.written("suggestion", given[1], ...given,
    it.error(field + 1, 0, given[1]));
  const meant = it.names[field][numberOf(FIELDS[field], (suggestion ?? name).split("-")[0])];
  return meant === undefined ? "" : `; did you mean ${meant}?`;
}

/** The value of a field that a part of a refused string gives, or null without a part. */
function valueOf(field, part) {
  const number = part === null ? null : numberOf(field, part);
  return number === CUSTOM && field === "vendor" ? part : namesOf(field)[number] ?? null;
}

export function namesOf(field) {
  const names = instance().names[FIELDS.indexOf(stringOf(field, "field"))];
  if (!names) throw new TypeError(`a triple has no ${field}`);
  return names;
}

/**
 * The number of the value that a name or an alias is; that of custom vendors for any other vendor, and null for no
 * value.
 */
function numberOf(field, text) {
  const it = instance(), index = FIELDS.indexOf(field), known = it.numbers[index].get(text);
  if (known !== undefined) return known;
  const status = it.call("number", index, ...it.text(text), it.base + ANSWER);
  return status === OK ? it.number(ANSWER) : null;
}

// ---- the host

/** The triple of a name of Node, or null. */
function namedByNode(name) {
  try {
    return Triple.read(name, "node");
  } catch (error) {
    if (error instanceof ParseError) return null;
    throw error;
  }
}

/**
 * The triple of a platform and an architecture of which Node has no builds, so that the dialect has no name for both:
 * what each means.
 */
function ofTwoWords(platform, arch) {
  const { vendor, operatingSystem, environment } = namedByNode(`${platform}-x64`) ?? {};
  return Triple.of({ architecture: namedByNode(`linux-${arch}`)?.architecture, vendor, operatingSystem, environment });
}

/** What is known of the host that its name doesn't say: how Node was built. */
function* builtWith({ arch, config, platform }) {
  const { arm_version: version, node_byteorder: order } = config?.variables ?? {};
  if (arch === "arm") yield { architecture: version === "6" ? "armv6" : "armv7" };
  if (arch === "ppc64" && order === "big") yield { architecture: "powerpc64" };
  if (arch === "riscv64") yield { architecture: "riscv64gc" };
  if (platform === "win32") yield { environment: "msvc" };
}

/** Whether Node runs with glibc, by its report, for which it needn't look up the names of connected machines. */
function hasGlibc(report) {
  const { excludeNetwork } = report;
  report.excludeNetwork = true;
  const { header } = report.getReport();
  report.excludeNetwork = excludeNetwork;
  return Boolean(header.glibcVersionRuntime);
}

export function host() {
  const { arch, platform, report } = globalThis.process ?? {};
  if (!arch || !platform) throw new Error("only Node and its like say what they run on");
  const hasLibrary = platform === "linux" && report?.getReport;
  const library = !hasLibrary ? "" : hasGlibc(report) ? "-glibc" : "-musl";
  const named = namedByNode(`${platform}-${arch}${library}`) ?? ofTwoWords(platform, arch);
  return named.with(Object.assign({}, ...builtWith(globalThis.process)));
}
